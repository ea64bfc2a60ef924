//! Runs of programs, from a few steps to the most that one call makes.

use super::measure::interleaved;
use super::{library, programs, Measured, ROUNDS};
use compare::assembly::SAMPLE;
use compare::machine::structs::{Frame, Object, Structs, Value, LEAST};
use compare::machine::{step_in_structs, MAX_STEPS};
use std::hint::black_box;

/// A program's text, n, how many runs make one measurement, and the number
/// meant.
pub struct Run {
    name: &'static str,
    text: Vec<u8>,
    n: u64,
    times: usize,
    number: u64,
}

/// Steps in which 250 exceptions are raised and caught.
const RAISING_STEPS: u64 = 750;

/// Numbers of a run that is done, and of one that would go on.
const DONE: u64 = 32;
const STEPS_MADE: u64 = 22;

pub fn all() -> Vec<Run> {
    let on = |name, text, n, times| Run { name, text, n, times, number: STEPS_MADE };
    let sample = SAMPLE.as_bytes().to_vec();
    let mixed = programs::mixed().text();
    let mut runs = vec![
        Run { number: DONE, ..on("sample, done", sample, 3, 2_000) },
        on("mixed", mixed, 1_000, 200),
    ];
    let long =
        |(name, program): (_, compare::program::Program)| on(name, program.text(), MAX_STEPS, 1);
    runs.extend(programs::all().into_iter().map(long));
    let raising = programs::raising().into_iter();
    runs.extend(raising.map(|(name, program)| on(name, program.text(), RAISING_STEPS, 200)));
    runs
}

/// Lent memory.
#[derive(Clone, PartialEq)]
struct Lent {
    frames: Vec<Frame>,
    objects: Vec<Object>,
    statics: Vec<Value>,
}

/// It holds nothing that a run leaves there.
fn fresh() -> Lent {
    let value = Value { object: u32::MAX, number: -1 };
    let (method, address, class) = (u32::MAX, u32::MAX, u32::MAX);
    let frame = Frame { method, address, registers: [value; 16], result: value };
    let object = Object { class, cells: [value; 16] };
    let [frames, objects, statics] = LEAST;
    Lent {
        frames: vec![frame; frames],
        objects: vec![object; objects],
        statics: vec![value; statics],
    }
}

/// Gives the answer, and writes to the memory.
type Stepper = fn(&[u8], u64, Structs) -> [u64; 5];

fn proved_step(text: &[u8], n: u64, memory: Structs) -> [u64; 5] {
    let mut answer = [0; 5];
    let number = library::step(text, n, memory, &mut answer);
    assert_eq!(number, answer[0]);
    answer
}

fn rust_step(text: &[u8], n: u64, memory: Structs) -> [u64; 5] {
    step_in_structs(text, n, memory).words()
}

/// Both run a program over and over; each answer and the memory left must be
/// those of the first run.
pub fn measure(given: &Run) -> Measured {
    let &Run { name, ref text, n, times, number } = given;
    let step = |stepper: Stepper, Lent { frames, objects, statics }: &mut Lent| {
        stepper(black_box(text), n, Structs { frames, objects, statics })
    };
    let once = |stepper: Stepper| {
        let mut lent = fresh();
        (step(stepper, &mut lent), lent)
    };
    let (expected, left) = once(rust_step);
    assert_eq!(expected[..2], [number, n], "{name}");
    let (answer, proved_left) = once(proved_step);
    assert_eq!(answer, expected, "{name}: answers of proved and Rust");
    assert!(proved_left == left, "{name}: another byte in the memory");

    let again = |stepper: Stepper, mut lent: Lent| {
        (0..times).all(|_| black_box(step(stepper, &mut lent)) == expected) && lent == left
    };
    let [proved, rust] =
        interleaved(ROUNDS, || again(proved_step, fresh()), || again(rust_step, fresh()));
    Measured { name: format!("{name}, {n}"), times, size: n as usize, proved, rust }
}
