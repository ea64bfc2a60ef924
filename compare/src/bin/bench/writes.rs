//! Writing of claims, from the smallest to the largest there can be, and those
//! whose masks grow in the most steps.

use super::measure::interleaved;
use super::{library, programs, Measured, ROUNDS};
use compare::assembly::SAMPLE;
use compare::generate_claims::{calling_program, storing_program};
use compare::generate_writes::{chain_program, list_program, throwing_program};
use compare::program::Program;
use compare::reader::read;
use compare::writer::{text_length, write_claim};
use std::hint::black_box;

/// A program's text, the memory lent, how many calls make one measurement, and
/// the number meant.
pub struct Write {
    name: &'static str,
    program: Vec<u8>,
    lent: usize,
    times: usize,
    number: u64,
}

/// Numbers of the answers.
const WRITTEN: u64 = 36;
const SHORT: u64 = 23;

/// Byte i of memory is i modulo this before a call.
const FILL: usize = 251;

fn of(name: &'static str, program: &Program, times: usize) -> Write {
    Write { name, program: program.text(), lent: text_length(program), times, number: WRITTEN }
}

pub fn all() -> Vec<Write> {
    let sample = read(SAMPLE.as_bytes()).expect("the sample is a program");
    let short = of("stores, memory a byte short", &storing_program(), 100);
    vec![
        of("sample", &sample, 4_000),
        of("mixed", &programs::mixed(), 400),
        of("stores", &storing_program(), 20),
        of("virtual calls", &calling_program(), 20),
        of("backward jumps and calls", &chain_program(), 10),
        of("60 classes around a loop", &list_program(), 4),
        of("virtual calls and exceptions", &throwing_program(), 10),
        of("largest text, nothing written", &programs::idle(), 20),
        Write { lent: short.lent - 1, number: SHORT, ..short },
    ]
}

/// Gives the answer, and may write to the memory.
type Writer = fn(&[u8], &mut [u8]) -> [u64; 5];

fn proved_write(program: &[u8], memory: &mut [u8]) -> [u64; 5] {
    let mut answer = [0; 5];
    let number = library::write_claim(program, memory, &mut answer);
    assert_eq!(number, answer[0]);
    answer
}

fn rust_write(program: &[u8], memory: &mut [u8]) -> [u64; 5] {
    write_claim(program, memory).words()
}

fn fresh(length: usize) -> Vec<u8> {
    (0..length).map(|place| (place % FILL) as u8).collect()
}

/// Both write in turn, over and over; each answer and the memory left must be
/// those of the first call.
pub fn measure(given: &Write) -> Measured {
    let &Write { name, ref program, lent, times, number } = given;
    let once = |writer: Writer| {
        let mut memory = fresh(lent);
        let answer = writer(program, &mut memory);
        (answer, memory)
    };
    let (expected, left) = once(rust_write);
    assert_eq!(expected[0], number, "{name}");
    let (proved_answer, proved_left) = once(proved_write);
    assert_eq!(proved_answer, expected, "{name}: answers of proved and Rust");
    let place = proved_left.iter().zip(&left).position(|(proved, rust)| proved != rust);
    assert_eq!(place, None, "{name}: another byte in the memory");

    let before = fresh(lent);
    let again = |writer: Writer| {
        let mut memory = before.clone();
        let mut write = || writer(black_box(program), &mut memory);
        (0..times).all(|_| black_box(write()) == expected) && memory == left
    };
    let [proved, rust] = interleaved(ROUNDS, || again(proved_write), || again(rust_write));
    Measured { name: format!("{name}, {lent}"), times, size: lent, proved, rust }
}
