//! What holds of a claim that was written: both checkers accept it with one
//! call list, and it lies within every claim that is accepted.

use super::differ::Difference;
use super::left::{Expected, Left};
use super::Case;
use crate::checker::{check, Verdict, CALL, LEAST_MEMORY};
use crate::claim::read::read as read_claim;
use crate::writer::Written;

/// A check of the written claim: the answer's words, and the memory after it.
#[derive(Clone, Debug, PartialEq, Eq)]
pub struct Checked {
    pub words: [u64; 5],
    pub memory: Vec<u8>,
}

impl Checked {
    /// As another implementation left it that was lent this memory.
    pub fn by(check: impl FnOnce(&mut [u8]) -> [u64; 5]) -> Checked {
        let mut memory = vec![0; LEAST_MEMORY];
        let words = check(&mut memory);
        Checked { words, memory }
    }

    /// By this implementation.
    pub fn of(program: &[u8], claim: &[u8]) -> Checked {
        Checked::by(|memory| check(program, claim, memory).words())
    }
}

/// The text that was written, if one was.
pub fn written<'l>(expected: &Expected, got: &'l Left) -> Option<&'l [u8]> {
    match expected.written {
        Written::Text(length) => Some(&got.text.lent()[..length]),
        Written::Refused(_) => None,
    }
}

/// The calls of the written claim, which both checkers accept.
pub fn accepted(expected: &Checked, got: &Checked) -> Result<usize, Difference> {
    let difference = |what: &str, expected: String, got: String| Difference {
        what: format!("check of the written claim: {what}"),
        expected,
        got,
    };
    let [number, count, ..] = expected.words;
    if number != Verdict::Accepted(0).words()[0] {
        return Err(difference("not accepted", "34".to_string(), number.to_string()));
    }
    if expected.words != got.words {
        let [expected, got] = [expected, got].map(|checked| format!("{:?}", checked.words));
        return Err(difference("another answer", expected, got));
    }
    if expected.memory != got.memory {
        let mut places = expected.memory.iter().zip(&got.memory);
        let place = places.position(|(this, that)| this != that).unwrap_or_default();
        let call =
            |checked: &Checked| format!("{:02x?}", &checked.memory[place / CALL * CALL..][..CALL]);
        let what = format!("call {}, byte {}", place / CALL, place % CALL);
        return Err(difference(&what, call(expected), call(got)));
    }
    Ok(count as usize)
}

/// Whether the case's claim, if it is accepted, is the written one; each mask
/// of that is a subset of the claim's.
pub fn within(case: &Case, expected: &Expected, got: &Left) -> Result<Option<bool>, Difference> {
    let accepted = matches!(expected.verdict, Verdict::Accepted(_));
    let (Some(program), Some(text), true) = (&expected.program, written(expected, got), accepted)
    else {
        return Ok(None);
    };
    if case.claim == text {
        return Ok(Some(true));
    }
    let read = |text: &[u8]| {
        read_claim(text, program).map_err(|refusal| Difference {
            what: "a claim that is accepted".to_string(),
            expected: "one that is read".to_string(),
            got: format!("{refusal:?}"),
        })
    };
    let (least, claim) = (read(text)?, read(&case.claim)?);
    if least.is_within(&claim) {
        return Ok(Some(false));
    }
    let (head, place, [written, other]) = least.outside(&claim, program).unwrap_or_default();
    Err(Difference {
        what: format!("an accepted claim below the written one: frame {head:02x?}, mask {place}"),
        expected: format!("{written:016x} and more"),
        got: format!("{other:016x}"),
    })
}
