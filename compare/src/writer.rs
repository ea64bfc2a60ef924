//! The writer: the least claim that keeps every rule for a program, as a text
//! at the front of lent memory.
//!
//! The program's text is read (1 to 6), and the length that the claim's text
//! will have is compared with the memory (23). Then a [`solver`] lets masks
//! grow from none until every rule is kept, and [`lay`] writes them down.

mod addresses;
mod lay;
mod sites;
mod solver;

use crate::checker::sets::Sets;
use crate::claim::Claim;
use crate::program::Program;
use crate::reader;
use crate::Refusal;
use solver::Solver;

#[derive(Clone, Copy, Debug, PartialEq, Eq)]
pub enum Written {
    /// The length of the text.
    Text(usize),
    /// 1 to 6 for the program, 23 for too little memory.
    Refused(Refusal),
}

impl Written {
    /// Number (36 for a text), then the text's length or the line; zeros.
    pub fn words(&self) -> [u64; 5] {
        match *self {
            Written::Text(length) => [36, length as u64, 0, 0, 0],
            Written::Refused(refusal) => refusal.words(),
        }
    }
}

/// Writes the least claim that is accepted for a program. Memory is written
/// only if the text fits, and not past it.
pub fn write_claim(program_text: &[u8], memory: &mut [u8]) -> Written {
    let program = match reader::read(program_text) {
        Ok(program) => program,
        Err(refusal) => return Written::Refused(refusal),
    };
    let sets = Sets::new(&program);
    let length = length(&program, &sets);
    match memory.get_mut(..length) {
        None => Written::Refused(Refusal::new(23, 0)),
        Some(text) => {
            lay::lay(&program, &sets, &Solver::new(&program, &sets).solved(), text);
            Written::Text(length)
        }
    }
}

/// The least claim that is accepted.
pub fn least_claim(program: &Program) -> Claim {
    Solver::new(program, &Sets::new(program)).solved()
}

/// The length of every claim's text for this program.
pub fn text_length(program: &Program) -> usize {
    length(program, &Sets::new(program))
}

fn length(program: &Program, sets: &Sets) -> usize {
    let methods = program.methods.iter();
    let states: usize =
        methods.map(|m| m.code.len() * lay::line(3, usize::from(m.registers) + 1)).sum();
    let fields: u32 = sets.having.iter().map(|classes| classes.count_ones()).sum();
    let single = program.statics + 2 * program.methods.len();
    states + fields as usize * lay::line(3, 1) + single * lay::line(2, 1)
}
