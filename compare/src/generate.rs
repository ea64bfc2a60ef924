//! The texts that both implementations answer, in four groups.

mod build;
mod calls;
mod combined;
mod fields;
mod handler_lists;
mod lexical;
pub(crate) mod mutations;
mod operands;
mod order;
mod raised_classes;
pub(crate) mod shapes;

use crate::program::Program;
use crate::random::Random;
use crate::Refusal;
use std::collections::HashSet;

/// A text, and the answer its maker had in mind, if any. The answer that
/// counts is the reader's; the other one tests the reader.
#[derive(Clone, Debug)]
pub struct Case {
    pub text: Vec<u8>,
    pub meant: Option<Result<(), Refusal>>,
}

impl Case {
    /// A text meant to be a program.
    fn read(text: Vec<u8>) -> Case {
        Case { text, meant: Some(Ok(())) }
    }

    /// A text meant to be refused.
    fn refused(text: Vec<u8>, number: u8, line: u32) -> Case {
        Case { text, meant: Some(Err(Refusal::new(number, line))) }
    }

    /// A text that is a program if `allowed`, and else has a bad value at
    /// `line`.
    fn allowed(text: Vec<u8>, allowed: bool, line: u32) -> Case {
        if allowed {
            Case::read(text)
        } else {
            Case::refused(text, 5, line)
        }
    }

    /// A text whose answer its maker does not know.
    fn open(text: Vec<u8>) -> Case {
        Case { text, meant: None }
    }
}

/// A program with as many frames of each kind as there can be: 11,772 bytes.
pub fn largest_program() -> Program {
    shapes::program(&mut Random::new(9), &shapes::LARGEST)
}

/// All texts, each once: programs; values at their edges; faults of form,
/// order and length; random changes.
pub fn suite() -> [Vec<Case>; 4] {
    let mut groups = [
        [shapes::cases(), handler_lists::programs()].concat(),
        [
            [operands::cases(), fields::cases(), calls::cases(), raised_classes::cases()].concat(),
            handler_lists::bad_lines(),
        ]
        .concat(),
        [lexical::cases(), order::cases(), combined::cases()].concat(),
        mutations::cases(),
    ];
    let mut seen = HashSet::new();
    for group in &mut groups {
        group.retain(|case| seen.insert(case.text.clone()));
    }
    groups
}
