//! Checks of claims, from the smallest to the largest there can be.

use super::measure::interleaved;
use super::{library, programs, Measured, ROUNDS};
use compare::assembly::SAMPLE;
use compare::checker::{check, LEAST_MEMORY};
use compare::claim::{class_bits, Claim};
use compare::generate_claims::{calling_program, storing_program};
use compare::least::{addresses, close, greatest, least};
use compare::program::Program;
use compare::reader::read;
use std::hint::black_box;

/// Both texts, how many checks make one measurement, and the number meant.
/// Claims are least claims, if the name does not say otherwise.
pub struct Check {
    name: &'static str,
    program: Vec<u8>,
    claim: Vec<u8>,
    times: usize,
    number: u64,
}

/// Numbers of the verdicts.
const ACCEPTED: u64 = 34;
const VIOLATED: u64 = 35;

/// Byte i of memory is i modulo this before a check.
const FILL: usize = 251;

fn of(name: &'static str, program: &Program, claim: &Claim, times: usize) -> Check {
    let (text, claim) = (program.text(), claim.text(program));
    Check { name, program: text, claim, times, number: ACCEPTED }
}

/// An accepted claim in which masks that stand beside each other differ: the
/// registers of each method start with classes of their own.
fn varied(program: &Program) -> Claim {
    let mut claim = least(program);
    for method in 0..program.methods.len() {
        for (register, mask) in claim.row_mut(method, 0).iter_mut().enumerate() {
            let number = (method * 17 + register + 1) as u64;
            *mask |= number.wrapping_mul(0x9e37_79b9_7f4a_7c15) & class_bits(program);
        }
    }
    close(program, claim)
}

/// A claim with a mask of its own for every register and result: hardly two
/// alike, and rules broken from the first address on.
fn scattered(program: &Program) -> Claim {
    let mut claim = greatest(program);
    let mut number = 0_u64;
    for (method, address) in addresses(program) {
        for mask in claim.row_mut(method, address) {
            number += 1;
            *mask &= number.wrapping_mul(0x9e37_79b9_7f4a_7c15);
        }
    }
    claim
}

pub fn all() -> Vec<Check> {
    let sample = read(SAMPLE.as_bytes()).expect("the sample is a program");
    let mixed = programs::mixed();
    let (storing, calling) = (storing_program(), calling_program());
    let stored = least(&storing);
    // The last address of the last method returns more than the claim says.
    let mut broken = stored.clone();
    broken.returned[15] = 0;
    let last = Check { number: VIOLATED, ..of("stores, violated last", &storing, &broken, 20) };
    let scattered = scattered(&storing);
    let first = Check { number: VIOLATED, ..of("stores, scattered", &storing, &scattered, 20) };
    vec![
        of("sample", &sample, &least(&sample), 4_000),
        of("mixed", &mixed, &least(&mixed), 400),
        of("stores", &storing, &stored, 20),
        last,
        of("stores, all bits", &storing, &greatest(&storing), 20),
        of("stores, varied", &storing, &varied(&storing), 20),
        first,
        of("virtual calls", &calling, &least(&calling), 20),
        of("virtual calls, all bits", &calling, &greatest(&calling), 20),
    ]
}

/// Gives the answer, and may write to the memory.
type Checker = fn(&[u8], &[u8], &mut [u8]) -> [u64; 5];

fn proved_check(program: &[u8], claim: &[u8], memory: &mut [u8]) -> [u64; 5] {
    let mut answer = [0; 5];
    let number = library::check(program, claim, memory, &mut answer);
    assert_eq!(number, answer[0]);
    answer
}

fn rust_check(program: &[u8], claim: &[u8], memory: &mut [u8]) -> [u64; 5] {
    check(program, claim, memory).words()
}

fn fresh() -> Vec<u8> {
    (0..LEAST_MEMORY).map(|place| (place % FILL) as u8).collect()
}

/// Both check in turn, over and over; each answer and the memory left must be
/// those of the first check.
pub fn measure(given: &Check) -> Measured {
    let &Check { name, ref program, ref claim, times, number } = given;
    let once = |checker: Checker| {
        let mut memory = fresh();
        let answer = checker(program, claim, &mut memory);
        (answer, memory)
    };
    let (expected, left) = once(rust_check);
    assert_eq!(expected[0], number, "{name}");
    let (proved_answer, proved_left) = once(proved_check);
    assert_eq!(proved_answer, expected, "{name}: answers of proved and Rust");
    let place = proved_left.iter().zip(&left).position(|(proved, rust)| proved != rust);
    assert_eq!(place, None, "{name}: another byte in the memory");

    let before = fresh();
    let again = |checker: Checker| {
        let mut memory = before.clone();
        let mut check = || checker(black_box(program), black_box(claim), &mut memory);
        (0..times).all(|_| black_box(check()) == expected) && memory == left
    };
    let [proved, rust] = interleaved(ROUNDS, || again(proved_check), || again(rust_check));
    let size = program.len() + claim.len();
    Measured { name: format!("{name}, {size}"), times, size, proved, rust }
}
