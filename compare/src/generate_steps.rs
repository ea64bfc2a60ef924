//! The runs that both implementations make, in four groups.

mod calls;
mod damage;
mod dispatch;
mod exceptions;
mod faults;
mod handler_lists;
mod handlers;
mod limits;
mod object_programs;
mod operations;
mod programs;
mod raise_limits;
mod raised_objects;
mod raises;
mod random_code;
mod random_pieces;
mod random_program;
mod recursion;
mod storage;

use crate::machine::layout::{FRAMES, OBJECTS, STATICS};
use crate::machine::run::Machine;
use crate::machine::state::Limits;
use crate::machine::{number, MAX_STEPS};
use crate::program::Program;
use crate::random::Random;
use std::collections::HashSet;

pub use random_program::likely_program;

/// The least lengths of lent memory in words: frames, objects, statics.
pub const LEAST: [usize; 3] = [FRAMES, OBJECTS, STATICS];
/// The greatest lengths that are lent.
pub const GREATEST: [usize; 3] = [640, 4400, 32];

/// A call of the stepper, and the number its maker had in mind, if any. The
/// number that counts is the stepper's; the other one tests it.
#[derive(Clone, Debug)]
pub struct Case {
    pub text: Vec<u8>,
    pub n: u64,
    pub lent: [usize; 3],
    pub meant: Option<u8>,
}

impl Case {
    fn new(text: Vec<u8>, n: u64) -> Case {
        Case { text, n, lent: LEAST, meant: None }
    }

    fn of(program: &Program, n: u64) -> Case {
        Case::new(program.text(), n)
    }

    /// The same case, meant to give this number.
    fn giving(mut self, number: u8) -> Case {
        self.meant = Some(number);
        self
    }

    fn lending(mut self, lent: [usize; 3]) -> Case {
        self.lent = lent;
        self
    }
}

/// The number and count of steps of a run of at most `n` steps.
fn outcome(program: &Program, n: u64) -> (u8, u64) {
    let mut machine = Machine::new(program, Limits::STEPPER);
    let stop = machine.run(n);
    (number(stop), machine.steps)
}

/// A run that is meant to stop with `meant` (not 22): whole, around its last
/// step, after no step, and at `parts` moments in between.
fn moments(program: &Program, meant: u8, parts: usize, random: &mut Random) -> Vec<Case> {
    let (_, last) = outcome(program, MAX_STEPS);
    let stopping = stopping(meant, last);
    let mut counts = vec![0, stopping - 1, stopping, MAX_STEPS];
    counts.extend((0..parts).map(|_| random.below(last as usize + 1) as u64));
    counts.sort();
    counts.dedup();
    after(program, meant, &counts)
}

/// The same run after these numbers of steps.
fn after(program: &Program, meant: u8, counts: &[u64]) -> Vec<Case> {
    let (given, last) = outcome(program, MAX_STEPS);
    assert_eq!(given, meant, "{}", String::from_utf8_lossy(&program.text()));
    let stopping = stopping(meant, last);
    let at = |&n| Case::of(program, n).giving(if n < stopping { 22 } else { meant });
    counts.iter().map(at).collect()
}

/// The step that stops a run of so many steps: that of an end is the last one,
/// that of 20 and 21 is not made.
fn stopping(meant: u8, last: u64) -> u64 {
    if matches!(meant, 20 | 21) {
        last + 1
    } else {
        last
    }
}

/// A run that is meant not to stop, after these numbers of steps.
fn endless(program: &Program, counts: &[u64]) -> Vec<Case> {
    counts.iter().map(|&n| Case::of(program, n).giving(22)).collect()
}

/// All cases, each text and count once but for other memory: operations;
/// calls, exceptions thrown and raised, storage, faults and lists of handlers;
/// random programs; limits and damaged texts. Where memory is enough, every
/// third has a little more; the lists of handlers have just enough.
pub fn suite() -> [Vec<Case>; 4] {
    let mut groups = without_lists();
    groups[1].extend(handler_lists::cases());
    let mut seen = HashSet::new();
    for group in &mut groups {
        group.retain(|case| seen.insert((case.text.clone(), case.n, case.lent)));
    }
    groups
}

/// All cases but the lists of handlers.
fn without_lists() -> [Vec<Case>; 4] {
    let mut groups = [
        [operations::cases(), programs::cases()].concat(),
        [
            [calls::cases(), dispatch::cases(), recursion::cases()].concat(),
            [handlers::cases(), exceptions::cases(), storage::cases(), faults::cases()].concat(),
            [raises::cases(), raised_objects::cases(), raise_limits::cases()].concat(),
        ]
        .concat(),
        random_program::cases(),
        [limits::cases(), damage::cases()].concat(),
    ];
    let mut random = Random::new(40);
    for case in groups.iter_mut().flatten().filter(|case| case.lent == LEAST) {
        if random.once_in(3) {
            case.lent = [0, 1, 2].map(|i| random.within(LEAST[i]..=GREATEST[i]));
        }
    }
    groups
}

/// The texts of calls, exceptions, storage and faults, each once: programs for
/// other suites to take some from.
pub fn texts_of_calls() -> Vec<Vec<u8>> {
    let [_, cases, ..] = without_lists();
    let mut seen = HashSet::new();
    let texts = cases.into_iter().map(|case| case.text);
    texts.filter(|text| seen.insert(text.clone())).collect()
}
