//! Readings of program texts, from the smallest to the largest there can be.

use super::measure::interleaved;
use super::{library, programs, Measured, ROUNDS};
use compare::assembly::SAMPLE;
use compare::generate::largest_program;
use compare::reader::{read, words, MAX_LENGTH};
use std::hint::black_box;

/// A text, how many readings make one measurement, and the number meant, 0 for
/// a program.
pub struct Reading {
    name: &'static str,
    text: Vec<u8>,
    times: usize,
    number: u64,
}

pub fn all() -> Vec<Reading> {
    let of = |name, text, times| Reading { name, text, times, number: 0 };
    vec![
        of("sample", SAMPLE.as_bytes().to_vec(), 20_000),
        of("mixed", programs::mixed().text(), 1_000),
        of("largest program", largest_program().text(), 60),
        Reading { number: 3, ..of("refused text", refused_text(), 60) },
    ]
}

/// A program, and after it one line that is too long: refusal 3, found when
/// every byte has been looked at.
fn refused_text() -> Vec<u8> {
    let mut program = largest_program();
    program.statics -= 1;
    let mut text = program.text();
    text.resize(MAX_LENGTH - 1, b'0');
    text.push(b'\n');
    text
}

/// Gives the answer.
type Reader = fn(&[u8]) -> [u64; 5];

fn proved_read(text: &[u8]) -> [u64; 5] {
    let mut answer = [0; 5];
    let number = library::read(text, &mut answer);
    assert_eq!(number, answer[0]);
    answer
}

fn rust_read(text: &[u8]) -> [u64; 5] {
    words(&read(text))
}

/// Both read a text over and over; each answer must be that of the first
/// reading.
pub fn measure(given: &Reading) -> Measured {
    let &Reading { name, ref text, times, number } = given;
    let expected = rust_read(text);
    assert_eq!(expected[0], number, "{name}");
    assert_eq!(proved_read(text), expected, "{name}: answers of proved and Rust");

    let again = |reader: Reader| (0..times).all(|_| black_box(reader(black_box(text))) == expected);
    let [proved, rust] = interleaved(ROUNDS, || again(proved_read), || again(rust_read));
    Measured { name: format!("{name}, {}", text.len()), times, size: text.len(), proved, rust }
}
