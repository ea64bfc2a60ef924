//! Reads a claim text.
//!
//! Refusals: the length (9); then in one walk by line the form of the line
//! (10), its kind (11), whether it is the frame due (12), its bits (13).

use super::*;
use crate::{reader, Refusal};

/// The claim of a text for this program, or the refusal of the text.
pub fn read(text: &[u8], program: &Program) -> Result<Claim, Refusal> {
    if text.len() > MAX_LENGTH {
        return Err(Refusal::new(9, 0));
    }
    let mut claim = Claim::empty(program);
    let mut lines = Lines { rest: text, line: 1 };
    let classes = class_bits(program);
    let allowed = classes | NUMBERS;
    for (number, method) in program.methods.iter().enumerate() {
        for address in 0..method.code.len() {
            let head = [STATE, number as u8, address as u8];
            lines.frame(&head, claim.row_mut(number, address), allowed)?;
        }
    }
    read_fields(&mut lines, program, &mut claim)?;
    let singles = [
        (STATIC, &mut claim.statics, allowed),
        (RETURNED, &mut claim.returned, allowed),
        (LEAVING, &mut claim.leaving, classes),
    ];
    for (kind, masks, allowed) in singles {
        for (number, mask) in masks.iter_mut().enumerate() {
            lines.frame(&[kind, number as u8], std::slice::from_mut(mask), allowed)?;
        }
    }
    lines.end()?;
    Ok(claim)
}

/// The frames of fields, by class and then field.
fn read_fields(lines: &mut Lines, program: &Program, claim: &mut Claim) -> Result<(), Refusal> {
    let allowed = class_bits(program) | NUMBERS;
    let below = classes_below(program);
    for class in 0..program.classes.len() {
        for (number, field) in program.fields.iter().enumerate() {
            if below[usize::from(field.class)] >> class & 1 == 1 {
                let mask = &mut claim.fields[number][class];
                let head = [FIELD, class as u8, number as u8];
                lines.frame(&head, std::slice::from_mut(mask), allowed)?;
            }
        }
    }
    Ok(())
}

/// The lines not read yet, and the number of the first of them.
struct Lines<'t> {
    rest: &'t [u8],
    line: u32,
}

impl Lines<'_> {
    /// Takes the line of the frame due: these first bytes, then the masks,
    /// which have no other than the allowed bits.
    #[inline]
    fn frame(&mut self, head: &[u8], masks: &mut [u64], allowed: u64) -> Result<(), Refusal> {
        let length = 2 * head.len() + 16 * masks.len();
        let line = match self.rest.get(..=length) {
            Some(line) if line[length] == b'\n' => &line[..length],
            _ => return Err(self.refusal(head, masks.len())),
        };
        if !starts(line, head) || !fill(masks, &line[2 * head.len()..], allowed) {
            return Err(self.refusal(head, masks.len()));
        }
        self.rest = &self.rest[length + 1..];
        self.line += 1;
        Ok(())
    }

    /// Nothing may follow the last frame.
    fn end(&self) -> Result<(), Refusal> {
        if self.rest.is_empty() {
            Ok(())
        } else {
            Err(self.refusal(&[], 0))
        }
    }

    /// Why the next line is not the frame due, which is none if `head` is
    /// empty: the line is looked at again, from its lowest number up.
    #[cold]
    fn refusal(&self, head: &[u8], masks: usize) -> Refusal {
        let line = self.rest.split_inclusive(|&byte| byte == b'\n').next();
        let number = match line.map(reader::digits) {
            None => 12,
            Some(None) => 10,
            Some(Some(digits)) if !is_known(digits) => 11,
            Some(Some(digits)) => {
                let length = 2 * head.len() + 16 * masks;
                let is_due = !head.is_empty() && digits.len() == length && starts(digits, head);
                if is_due {
                    13
                } else {
                    12
                }
            }
        };
        Refusal::new(number, self.line)
    }
}

/// Whether the digits are those of a frame with a known kind.
fn is_known(digits: &[u8]) -> bool {
    (STATE..=LEAVING).any(|kind| starts(digits, &[kind]))
}

/// Whether the digits start with those of these bytes.
#[inline]
fn starts(digits: &[u8], bytes: &[u8]) -> bool {
    digits.len() >= 2 * bytes.len()
        && digits.chunks_exact(2).zip(bytes).all(|(pair, &byte)| digits::are(pair, byte))
}

/// Writes the masks of these digits; false if there is another byte or a bit
/// not allowed.
#[inline]
fn fill(masks: &mut [u64], digits: &[u8], allowed: u64) -> bool {
    let mut bits = 0;
    for (mask, digits) in masks.iter_mut().zip(digits.chunks_exact(16)) {
        match digits.try_into().ok().and_then(digits::mask) {
            Some(value) => *mask = value,
            None => return false,
        }
        bits |= *mask;
    }
    bits & !allowed == 0
}
