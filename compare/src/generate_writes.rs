//! The programs whose claims both implementations write, in four groups.

mod call_programs;
mod exception_programs;
mod largest;
mod loop_programs;
mod raise_programs;
mod random_programs;
mod refusals;
mod storage_programs;

use crate::catching;
use crate::generate_claims;
use crate::least::least;
use crate::program::Program;
use crate::raising::chains;
use crate::Refusal;
use std::collections::HashSet;

pub use largest::{chain_program, list_program, most_steps, throwing_program};

/// The most memory that a case lends.
pub const MOST_LENT: usize = 196_608;

/// A call of the writer, and the answer its maker had in mind. The answer that
/// counts is the writer's; the other one tests it.
#[derive(Clone, Debug)]
pub struct Case {
    pub program: Vec<u8>,
    /// The length of lent memory.
    pub lent: usize,
    pub meant: Meant,
}

#[derive(Clone, Debug, PartialEq, Eq)]
pub enum Meant {
    /// This text stands at the front of memory.
    Text(Vec<u8>),
    Refused(Refusal),
}

impl Case {
    /// A program with just enough memory; the text is that of the least claim
    /// by the rules one by one.
    fn of(program: &Program) -> Case {
        let text = least(program).text(program);
        Case { program: program.text(), lent: text.len(), meant: Meant::Text(text) }
    }

    /// A text that is no program.
    fn refused(program: Vec<u8>, lent: usize, number: u8, line: u32) -> Case {
        Case { program, lent, meant: Meant::Refused(Refusal::new(number, line)) }
    }

    /// The same program with other memory: 23 if the text does not fit.
    fn lending(mut self, length: usize) -> Case {
        self.lent = length;
        if matches!(&self.meant, Meant::Text(text) if text.len() > length) {
            self.meant = Meant::Refused(Refusal::new(23, 0));
        }
        self
    }
}

/// The programs written down for these cases.
pub fn written_programs() -> Vec<Program> {
    let with_calls = [call_programs::all(), exception_programs::all()].concat();
    [loop_programs::all(), storage_programs::all(), with_calls, raise_programs::all()].concat()
}

/// All cases, each once: written programs; random ones; refusals and lengths;
/// the largest programs.
pub fn suite() -> [Vec<Case>; 4] {
    let of_claims = [generate_claims::written_programs(), chains()].concat();
    let written = [written_programs(), of_claims, catching::programs()].concat();
    let mut groups = [
        written.iter().map(Case::of).collect(),
        random_programs::cases(),
        refusals::cases(),
        largest::cases(),
    ];
    let mut seen = HashSet::new();
    for group in &mut groups {
        group.retain(|case: &Case| seen.insert((case.program.clone(), case.lent)));
    }
    groups
}
