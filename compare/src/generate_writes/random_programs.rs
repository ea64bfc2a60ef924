//! Random programs, and those of the stepper's cases.

use super::Case;
use crate::fuzz::crowds::crowded_program;
use crate::generate::shapes::small_program;
use crate::generate_claims::random_calls;
use crate::generate_steps::{likely_program, texts_of_calls};
use crate::program::Program;
use crate::random::Random;
use crate::reader::read;

/// Programs of the stepper's cases.
const OF_RUNS: usize = 160;

pub fn cases() -> Vec<Case> {
    let mut random = Random::new(80);
    let mut programs: Vec<Program> = (0..300).map(|_| small_program(&mut random)).collect();
    programs.extend((0..150).map(|_| random_calls(&mut random)));
    programs.extend((0..24).map(|_| likely_program(&mut random)));
    programs.extend((0..40).map(|_| crowded_program(&mut random)));
    programs.extend(of_runs(&mut random));
    programs.iter().map(|program| with_memory(&mut random, program)).collect()
}

/// Mostly just enough memory, or a little more.
fn with_memory(random: &mut Random, program: &Program) -> Case {
    let case = Case::of(program);
    let more = random.pick(&[0, 0, 1, 2, 15, 16, 17, 100]);
    let lent = case.lent + more;
    case.lending(lent)
}

/// Some programs of the stepper's cases of calls, exceptions and storage.
fn of_runs(random: &mut Random) -> Vec<Program> {
    let mut texts = texts_of_calls();
    texts.sort();
    while texts.len() > OF_RUNS {
        texts.swap_remove(random.below(texts.len()));
    }
    texts.iter().filter_map(|text| read(text).ok()).collect()
}
