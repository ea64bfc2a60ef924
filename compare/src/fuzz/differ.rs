//! Where two lefts differ, and whether a run leaves an accepted claim.

use super::left::{Expected, Left};
use super::lent::{Element, Lent};
use super::Case;
use crate::checker::{Verdict, CALL};
use crate::claim::read::read as read_claim;
use crate::inside::{calls, Accepted};
use std::fmt;

#[derive(Clone, Debug, PartialEq, Eq)]
pub struct Difference {
    pub what: String,
    pub expected: String,
    pub got: String,
}

impl fmt::Display for Difference {
    fn fmt(&self, to: &mut fmt::Formatter) -> fmt::Result {
        let Difference { what, expected, got } = self;
        write!(to, "{what}\nexpected {expected}\ngot      {got}")
    }
}

/// The first difference of what two implementations left.
pub fn difference(expected: &Left, got: &Left) -> Option<Difference> {
    numbers(expected, got)
        .or_else(|| place("answer of the reader", &expected.read_answer, &got.read_answer))
        .or_else(|| place("answer of the stepper", &expected.step_answer, &got.step_answer))
        .or_else(|| place("answer of the checker", &expected.check_answer, &got.check_answer))
        .or_else(|| place("answer of the writer", &expected.write_answer, &got.write_answer))
        .or_else(|| place("frames", &expected.frames, &got.frames))
        .or_else(|| place("objects", &expected.objects, &got.objects))
        .or_else(|| place("statics", &expected.statics, &got.statics))
        .or_else(|| place("memory of the checker", &expected.memory, &got.memory))
        .or_else(|| place("memory of the writer", &expected.text, &got.text))
        .or_else(|| place("program text", &expected.program, &got.program))
        .or_else(|| place("claim text", &expected.claim, &got.claim))
}

fn numbers(expected: &Left, got: &Left) -> Option<Difference> {
    let names = ["reader", "stepper", "checker", "writer"];
    let which = (0..names.len()).find(|&i| expected.numbers[i] != got.numbers[i])?;
    Some(Difference {
        what: format!("number given by the {}", names[which]),
        expected: expected.numbers[which].to_string(),
        got: got.numbers[which].to_string(),
    })
}

/// The first element that differs, and its first byte that does.
fn place<T: Element>(name: &str, expected: &Lent<T>, got: &Lent<T>) -> Option<Difference> {
    if expected.all == got.all && expected.places == got.places {
        return None;
    }
    let place = expected.all.iter().zip(&got.all).position(|(this, that)| this != that);
    let Some(place) = place else {
        let [expected, got] = [expected, got].map(|lent| format!("{} elements", lent.all.len()));
        return Some(Difference { what: format!("{name}: another length"), expected, got });
    };
    let (this, that) = (expected.all[place].bytes(), got.all[place].bytes());
    let byte = this.iter().zip(&that).position(|(this, that)| this != that).unwrap_or(0);
    let lent = &expected.places;
    let element = match place {
        _ if place < lent.start => format!("guard {} before the first element", lent.start - place),
        _ if place >= lent.end => format!("guard {} after the last element", place - lent.end + 1),
        _ => format!("element {}", place - lent.start),
    };
    Some(Difference {
        what: format!("{name}: {element}, byte {byte} of {}", this.len()),
        expected: hexadecimal(&this),
        got: hexadecimal(&that),
    })
}

fn hexadecimal(bytes: &[u8]) -> String {
    bytes.iter().map(|byte| format!("{byte:02x}")).collect()
}

/// Follows the run of an accepted claim, with the calls that were written:
/// the steps made, none if the claim is not accepted.
pub fn follow(case: &Case, expected: &Expected, got: &Left) -> Result<Option<u64>, Difference> {
    let (Verdict::Accepted(count), Some(program)) = (expected.verdict, &expected.program) else {
        return Ok(None);
    };
    let Ok(claim) = read_claim(&case.claim, program) else {
        return Ok(None);
    };
    let calls = calls(&got.memory.lent()[..count * CALL]);
    let accepted = Accepted { program: program.clone(), claim, calls };
    let outside = |got| Difference {
        what: "the run leaves a claim that is accepted".to_string(),
        expected: "a run inside it".to_string(),
        got,
    };
    accepted.follow(case.follow).map(|machine| Some(machine.steps)).map_err(outside)
}
