//! The claims that both implementations judge, in four groups.

mod call_programs;
mod changes;
mod damage;
mod exception_programs;
mod flow_programs;
mod handler_lists;
mod largest;
mod memory;
mod object_programs;
mod orders;
mod raise_programs;
mod raises;
mod random_calls;
mod random_programs;
mod refused;
mod sample;
mod texts;
mod virtual_programs;

use crate::checker::{Verdict, Violation, LEAST_MEMORY};
use crate::claim::write::{text, ClaimFrame};
use crate::program::Program;
use crate::random::Random;
use crate::Refusal;
use std::collections::HashSet;

pub use largest::{calling_program, most_calls, storing_program};
pub use random_calls::random_calls;

/// A call of the checker, and what its maker knows of the verdict. The
/// verdict that counts is the checker's; the other one tests it.
#[derive(Clone, Debug)]
pub struct Case {
    pub program: Vec<u8>,
    pub claim: Vec<u8>,
    /// The length of lent memory.
    pub lent: usize,
    pub meant: Meant,
}

/// What is known of a verdict.
#[derive(Clone, Copy, Debug, PartialEq, Eq)]
pub enum Meant {
    Open,
    Accepted,
    Exactly(Verdict),
}

impl Meant {
    /// The rule that is known to be broken.
    fn rule(self) -> Option<u8> {
        match self {
            Meant::Exactly(Verdict::Violated(violation)) => Some(violation.rule),
            _ => None,
        }
    }

    pub fn fits(self, verdict: Verdict) -> bool {
        match self {
            Meant::Open => true,
            Meant::Accepted => matches!(verdict, Verdict::Accepted(_)),
            Meant::Exactly(meant) => meant == verdict,
        }
    }
}

impl Case {
    fn new(program: Vec<u8>, claim: Vec<u8>) -> Case {
        Case { program, claim, lent: LEAST_MEMORY, meant: Meant::Open }
    }

    /// A program and the frames of a claim.
    fn of(program: &Program, frames: &[ClaimFrame]) -> Case {
        Case::new(program.text(), text(frames))
    }

    fn meaning(mut self, meant: Meant) -> Case {
        self.meant = meant;
        self
    }

    fn violating(self, rule: u8, method: u8, address: u8) -> Case {
        let violation = Violation { rule, method, address };
        self.meaning(Meant::Exactly(Verdict::Violated(violation)))
    }

    fn refused(self, number: u8, line: u32) -> Case {
        self.meaning(Meant::Exactly(Verdict::Refused(Refusal::new(number, line))))
    }

    fn lending(mut self, length: usize) -> Case {
        self.lent = length;
        self
    }
}

/// The programs written down for these cases.
pub fn written_programs() -> Vec<Program> {
    let with_calls = [call_programs::all(), virtual_programs::all()].concat();
    let others = [flow_programs::all(), object_programs::all(), exception_programs::all()].concat();
    [with_calls, others, raise_programs::all()].concat()
}

/// All cases, each once: written programs; random programs; claims, programs
/// and memory that are refused; the largest claims. Where memory is just
/// enough, every sixth case has a little more, but none of the lists of
/// handlers.
pub fn suite() -> [Vec<Case>; 4] {
    let mut groups = [
        [sample::cases(), changes::cases(), raises::cases()].concat(),
        random_programs::cases(),
        [
            [texts::cases(), orders::cases(), damage::cases()].concat(),
            [refused::cases(), memory::cases()].concat(),
        ]
        .concat(),
        largest::cases(),
    ];
    let mut random = Random::new(70);
    for case in groups.iter_mut().flatten().filter(|case| case.lent == LEAST_MEMORY) {
        if random.once_in(6) {
            case.lent = LEAST_MEMORY + random.below(40);
        }
    }
    groups[0].extend(handler_lists::cases());
    let mut seen = HashSet::new();
    for group in &mut groups {
        group.retain(|case| seen.insert((case.program.clone(), case.claim.clone(), case.lent)));
    }
    groups
}
