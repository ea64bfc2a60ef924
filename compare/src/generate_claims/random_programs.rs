//! Random programs, and those of the stepper's cases, with claims of them.

use super::changes::{less_than_greatest, others, without_a_bit};
use super::random_calls::random_calls;
use super::{Case, Meant};
use crate::generate::shapes::small_program;
use crate::generate_steps;
use crate::least::least;
use crate::program::Program;
use crate::random::Random;
use crate::reader::read;

pub fn cases() -> Vec<Case> {
    [any_programs(), calling_programs(), likely_programs(), steppers_programs()].concat()
}

/// The least claim, claims with a bit less, and one with a bit less than the
/// greatest.
fn some(random: &mut Random, program: &Program, fewer: usize) -> Vec<Case> {
    let accepted = Case::of(program, &least(program).frames(program)).meaning(Meant::Accepted);
    let mut cases = vec![accepted];
    cases.extend(without_a_bit(random, program, fewer));
    cases.extend(less_than_greatest(random, program, 1));
    cases
}

/// Programs of any instructions.
fn any_programs() -> Vec<Case> {
    let mut random = Random::new(75);
    let mut cases = Vec::new();
    let mut made = 0;
    while made < 80 {
        let program = small_program(&mut random);
        if least(&program).text(&program).len() <= 1_400 {
            cases.extend(some(&mut random, &program, 2));
            made += 1;
            if made % 10 == 0 {
                cases.extend(others(&mut random, &program));
            }
        }
    }
    cases
}

/// Programs that call and throw at every turn.
fn calling_programs() -> Vec<Case> {
    let mut random = Random::new(78);
    let programs: Vec<Program> = (0..28).map(|_| random_calls(&mut random)).collect();
    programs.iter().flat_map(|program| some(&mut random, program, 5)).collect()
}

/// Programs as the stepper runs them: with many registers and much code.
fn likely_programs() -> Vec<Case> {
    let mut random = Random::new(76);
    let programs: Vec<Program> =
        (0..7).map(|_| generate_steps::likely_program(&mut random)).collect();
    programs.iter().flat_map(|program| some(&mut random, program, 1)).collect()
}

/// The stepper's programs, those with short claims.
fn steppers_programs() -> Vec<Case> {
    let mut random = Random::new(77);
    let mut programs: Vec<Program> = generate_steps::texts_of_calls()
        .iter()
        .filter_map(|text| read(text).ok())
        .filter(|program| least(program).text(program).len() <= 900)
        .collect();
    while programs.len() > 90 {
        programs.swap_remove(random.below(programs.len()));
    }
    programs.iter().flat_map(|program| some(&mut random, program, 1)).collect()
}
