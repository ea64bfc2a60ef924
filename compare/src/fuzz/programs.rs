//! Random programs for the grounds of cases.

use super::crowds::crowded_program;
use super::ground::Ground;
use super::pool::Pool;
use crate::claim::Claim;
use crate::generate::mutations::change_values;
use crate::generate::shapes::{program, small_program, Shape};
use crate::generate_claims::{calling_program, random_calls, storing_program};
use crate::generate_steps::likely_program;
use crate::least::addresses;
use crate::program::Program;
use crate::random::Random;
use crate::reader::read;

/// Programs in a block of cases.
const GROUNDS: usize = 5;

/// Claims of more masks than this are long, and seldom made.
const MANY_MASKS: usize = 1_500;

/// The grounds of a block of cases: each kind of random program, and others.
pub fn grounds(random: &mut Random, pool: &Pool) -> Vec<Ground> {
    (0..GROUNDS)
        .map(|kind| {
            let program = loop {
                let program = of_kind(random, pool, kind);
                if masks(&program) <= MANY_MASKS || random.once_in(8) {
                    break program;
                }
            };
            Ground::new(random, program)
        })
        .collect()
}

fn of_kind(random: &mut Random, pool: &Pool, kind: usize) -> Program {
    match kind {
        0 => likely_program(random),
        1 => small_program(random),
        2 => random_calls(random),
        3 => crowded_program(random),
        _ => match random.below(16) {
            0..=4 => pool.program(random),
            5..=9 => changed_program(random, pool),
            10..=12 => largest_program(random),
            _ => wide_program(random),
        },
    }
}

/// Counts at their ends as well as between them.
fn wide_program(random: &mut Random) -> Program {
    let most_code = random.pick(&[1, 2, 3, 4, 8, 32]);
    let most_handlers = random.pick(&[0, 1, 2, 8]);
    let shape = Shape {
        classes: random.pick(&[5, 6, 7, 9, 12, 59, 60]),
        fields: random.pick(&[0, 1, 2, 5, 15, 16]),
        statics: random.pick(&[0, 1, 2, 5, 15, 16]),
        methods: random.pick(&[1, 2, 3, 5, 15, 16]),
        code: random.pick(&[1, most_code])..=most_code,
        handlers: random.pick(&[0, most_handlers])..=most_handlers,
    };
    program(random, &shape)
}

/// A program with values changed that is still one.
fn changed_program(random: &mut Random, pool: &Pool) -> Program {
    loop {
        let kind = random.below(4);
        let program = of_kind(random, pool, kind);
        if let Some(changed) = changed(random, &program) {
            return changed;
        }
    }
}

/// One with as many frames of most kinds as there can be.
fn largest_program(random: &mut Random) -> Program {
    let program = if random.once_in(2) { storing_program() } else { calling_program() };
    changed(random, &program).unwrap_or(program)
}

fn changed(random: &mut Random, program: &Program) -> Option<Program> {
    read(&change_values(random, program.frames())).ok()
}

/// The masks in a claim of the program.
fn masks(program: &Program) -> usize {
    let claim = Claim::empty(program);
    let states: usize = addresses(program).map(|(m, address)| claim.row(m, address).len()).sum();
    states + program.classes.len() * program.fields.len()
}
