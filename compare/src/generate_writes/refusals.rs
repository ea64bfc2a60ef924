//! Programs that are refused whatever the memory, and lent memory of many
//! lengths: just enough, one byte less, more, none.

use super::{written_programs, Case, MOST_LENT};
use crate::assembly::SAMPLE;
use crate::generate::suite;
use crate::generate_claims;
use crate::program::Program;
use crate::random::Random;
use crate::reader::{read, MAX_LENGTH};

/// Texts of this many bytes are short.
const SHORT: usize = 260;

/// Cases of each refusal.
const EACH: usize = 24;

pub fn cases() -> Vec<Case> {
    [too_long(), refused(), of_the_sample(), of_programs()].concat()
}

/// One byte over the length, with memory and without.
fn too_long() -> Vec<Case> {
    let long: Vec<u8> = SAMPLE.bytes().cycle().take(MAX_LENGTH + 1).collect();
    [0, 201].map(|lent| Case::refused(long.clone(), lent, 1, 0)).to_vec()
}

/// Some of the reader's texts, of each refusal from 2 to 6: without memory,
/// with little and with much.
fn refused() -> Vec<Case> {
    let mut random = Random::new(81);
    let texts: Vec<Vec<u8>> = suite().concat().into_iter().map(|case| case.text).collect();
    let mut cases = Vec::new();
    for number in 2..=6 {
        let lines: Vec<(&Vec<u8>, u32)> = texts
            .iter()
            .filter(|text| text.len() <= SHORT)
            .filter_map(|text| Some((text, read(text).err()?)))
            .filter(|(_, refusal)| refusal.number == number)
            .map(|(text, refusal)| (text, refusal.line))
            .collect();
        for round in 0..EACH {
            let (text, line) = random.pick(&lines);
            let lent = match round {
                0..12 => 0,
                12 => MOST_LENT,
                _ => random.within(1..=2_000),
            };
            cases.push(Case::refused(text.clone(), lent, number, line));
        }
    }
    cases
}

/// Every length up to a little more than the text's, and the most.
fn of_the_sample() -> Vec<Case> {
    let case = Case::of(&read(SAMPLE.as_bytes()).expect("the sample is a program"));
    let around = case.lent + 20;
    (0..around).chain([4_096, 65_536, MOST_LENT]).map(|lent| case.clone().lending(lent)).collect()
}

fn of_programs() -> Vec<Case> {
    let programs = [written_programs(), generate_claims::written_programs()].concat();
    programs.iter().enumerate().flat_map(|(number, program)| of_program(number, program)).collect()
}

/// One byte less and one more, none, and two lengths that differ from program
/// to program.
fn of_program(number: usize, program: &Program) -> Vec<Case> {
    let case = Case::of(program);
    let length = case.lent;
    let less = length - 1 - (number * 37) % (length / 2);
    let more = length + 2 + (number * 61) % 900;
    [length - 1, length + 1, 0, less, more].map(|lent| case.clone().lending(lent)).to_vec()
}
