//! Lent memory of many lengths: 23 comes after the texts and before a verdict.

use super::{sample, written_programs, Case, Meant};
use crate::checker::LEAST_MEMORY;
use crate::claim::write::text;
use crate::least::{greatest, least};

/// Lengths that are not enough, and lengths that are.
const LESS: [usize; 7] = [0, 1, 2, 3, 4096, LEAST_MEMORY - 3, LEAST_MEMORY - 1];
const ENOUGH: [usize; 6] =
    [LEAST_MEMORY, LEAST_MEMORY + 1, LEAST_MEMORY + 2, LEAST_MEMORY + 3, 30_000, 65_536];

pub fn cases() -> Vec<Case> {
    [of_the_sample(), of_programs()].concat()
}

fn of_the_sample() -> Vec<Case> {
    let program = sample::program();
    let accepted = Case::of(&program, &sample::frames());
    let mut frames = sample::frames();
    frames[1].masks[1] = 0;
    let violated = Case::of(&program, &frames);
    let refused = Case::new(program.text(), text(&sample::frames()[..6]));
    let no_program = Case::new(program.text()[..30].to_vec(), text(&frames));
    let mut cases = Vec::new();
    for length in LESS.into_iter().chain(ENOUGH) {
        let enough = ENOUGH.contains(&length);
        let too_little = |case: &Case| case.clone().lending(length).refused(23, 0);
        if enough {
            cases.push(accepted.clone().lending(length).meaning(Meant::Accepted));
            cases.push(violated.clone().lending(length).violating(7, 0, 0));
        } else {
            cases.extend([&accepted, &violated].map(too_little));
        }
        cases.push(refused.clone().lending(length).refused(12, 7));
        cases.push(no_program.clone().lending(length).refused(2, 6));
    }
    cases
}

/// Accepted claims with and without calls.
fn of_programs() -> Vec<Case> {
    let mut cases = Vec::new();
    for (number, program) in written_programs().iter().enumerate() {
        let claim = if number % 2 == 0 { least(program) } else { greatest(program) };
        let case = Case::of(program, &claim.frames(program));
        let length = LESS[number % LESS.len()];
        cases.push(case.clone().lending(length).refused(23, 0));
        let length = ENOUGH[number % ENOUGH.len()];
        cases.push(case.lending(length).meaning(Meant::Accepted));
    }
    cases
}
