//! The texts of the existing suites, from which cases are taken too.

use crate::generate;
use crate::generate_claims::{self, written_programs};
use crate::generate_steps;
use crate::generate_writes;
use crate::program::Program;
use crate::random::Random;
use crate::reader::read;
use crate::writer::least_claim;
use std::collections::HashSet;

pub struct Pool {
    /// The reader's texts.
    texts: Vec<Vec<u8>>,
    /// The stepper's texts, with numbers of steps.
    runs: Vec<(Vec<u8>, u64)>,
    /// The checker's programs and claims.
    checks: Vec<[Vec<u8>; 2]>,
    /// The largest of them, apart.
    largest: Vec<[Vec<u8>; 2]>,
    /// The writer's programs with their least claims, and the largest apart.
    writes: [Vec<[Vec<u8>; 2]>; 2],
    /// Programs written for the suites.
    programs: Vec<Program>,
}

impl Pool {
    pub fn new() -> Pool {
        let texts = generate::suite().concat().into_iter().map(|case| case.text).collect();
        let runs: Vec<(Vec<u8>, u64)> =
            generate_steps::suite().concat().into_iter().map(|case| (case.text, case.n)).collect();
        let [written, random, refused, largest] = generate_claims::suite()
            .map(|cases| cases.into_iter().map(|case| [case.program, case.claim]).collect());
        let checks = [written, random, refused].concat();
        let mut seen = HashSet::new();
        let different = runs.iter().filter(|(text, _)| seen.insert(text.clone()));
        let of_writes = generate_writes::written_programs();
        let writes = [with_claims(&of_writes), with_claims(&generate_writes::most_steps())];
        let mut programs = [written_programs(), of_writes].concat();
        programs.extend(different.filter_map(|(text, _)| read(text).ok()));
        Pool { texts, runs, checks, largest, writes, programs }
    }

    pub fn text(&self, random: &mut Random) -> Vec<u8> {
        any(random, &self.texts).clone()
    }

    pub fn run(&self, random: &mut Random) -> (Vec<u8>, u64) {
        any(random, &self.runs).clone()
    }

    /// One of the largest, or of the others.
    pub fn check(&self, random: &mut Random, largest: bool) -> [Vec<u8>; 2] {
        any(random, if largest { &self.largest } else { &self.checks }).clone()
    }

    /// One of the largest, or of the others.
    pub fn write(&self, random: &mut Random, largest: bool) -> [Vec<u8>; 2] {
        any(random, &self.writes[usize::from(largest)]).clone()
    }

    pub fn program(&self, random: &mut Random) -> Program {
        any(random, &self.programs).clone()
    }
}

impl Default for Pool {
    fn default() -> Pool {
        Pool::new()
    }
}

/// Programs, and the texts of their least claims.
fn with_claims(programs: &[Program]) -> Vec<[Vec<u8>; 2]> {
    programs.iter().map(|p| [p.text(), least_claim(p).text(p)]).collect()
}

fn any<'a, T>(random: &mut Random, from: &'a [T]) -> &'a T {
    &from[random.below(from.len())]
}
