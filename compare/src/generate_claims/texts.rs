//! Claim texts with a fault in a known line: 10 to 13.

use super::Case;
use crate::assembly::*;
use crate::claim::write::ClaimFrame;
use crate::claim::{LEAVING, STATE};
use crate::frame::line;
use crate::least::least;
use crate::program::Program;

/// A program of seven classes whose claim has frames of all kinds, 13 lines.
/// Class 5 has field 1, and class 6 below it all three fields.
pub fn program_of_all_kinds() -> Program {
    let main = vec![invoke_static(1, 1, 0), return_void()];
    let methods = vec![main_method(2, main), static_method(1, 1, 1, vec![return_void()])];
    program(&[0, 0, 2], &[3, 2, 3], 2, methods)
}

/// The program, and the lines of its least claim.
pub struct Ground {
    pub program: Program,
    pub frames: Vec<ClaimFrame>,
}

impl Ground {
    pub fn new() -> Ground {
        let program = program_of_all_kinds();
        let frames = least(&program).frames(&program);
        Ground { program, frames }
    }

    pub fn lines(&self) -> Vec<Vec<u8>> {
        self.frames.iter().map(|frame| line(&frame.bytes())).collect()
    }

    pub fn case(&self, lines: &[Vec<u8>]) -> Case {
        Case::new(self.program.text(), lines.concat())
    }

    /// The claim with another line, counted from 0, in place of one.
    pub fn with_line(&self, place: usize, other: Vec<u8>) -> Case {
        let mut lines = self.lines();
        lines[place] = other;
        self.case(&lines)
    }

    /// The same with another frame.
    fn with_frame(&self, place: usize, change: impl Fn(&mut Vec<u8>)) -> Case {
        let mut bytes = self.frames[place].bytes();
        change(&mut bytes);
        self.with_line(place, line(&bytes))
    }
}

pub fn cases() -> Vec<Case> {
    let ground = Ground::new();
    let whole = ground.case(&ground.lines());
    let mut cases = vec![whole.meaning(super::Meant::Accepted)];
    for place in 0..ground.frames.len() {
        cases.extend(forms(&ground, place));
        cases.extend(kinds(&ground, place));
        cases.extend(not_due(&ground, place));
        cases.extend(bits(&ground, place));
    }
    cases
}

/// 10: another byte, an odd count of digits, no digit at all.
fn forms(ground: &Ground, place: usize) -> Vec<Case> {
    let number = place as u32 + 1;
    let good = &ground.lines()[place];
    let last = good.len() - 1;
    let mut cases = Vec::new();
    for byte in b"A g\r/:`\0\xb1".iter().skip(place % 2).step_by(2) {
        let byte = *byte;
        let mut other = good.clone();
        other[(7 * place + usize::from(byte)) % last] = byte;
        cases.push(ground.with_line(place, other).refused(10, number));
    }
    for at in [[0, last / 2], [1, last]][place % 2] {
        let mut fewer = good.clone();
        fewer.remove(at.min(last - 1));
        let mut more = good.clone();
        more.insert(at, b'0');
        let mut ended = good.clone();
        ended.insert(at, b'\n');
        // A line end after whole bytes leaves a frame that is too short.
        let odd = at % 2 == 1;
        let ended_refusal = match at {
            at if at == last => (10, number + 1),
            0 => (10, number),
            _ if odd => (10, number),
            _ => (12, number),
        };
        cases.push(ground.with_line(place, fewer).refused(10, number));
        cases.push(ground.with_line(place, more).refused(10, number));
        cases.push(ground.with_line(place, ended).refused(ended_refusal.0, ended_refusal.1));
    }
    cases
}

/// 11: kinds that no frame of a claim has; those of a program are among them.
fn kinds(ground: &Ground, place: usize) -> Vec<Case> {
    let number = place as u32 + 1;
    let kinds = [0, 1, 2, 3, 4, 5, 6, 7, 0x10, 0x16, 0x1f, 0x21, 0xff];
    let some = kinds.iter().skip(place % 2).step_by(2);
    let mut cases: Vec<Case> = some
        .map(|&kind| ground.with_frame(place, |bytes| bytes[0] = kind).refused(11, number))
        .collect();
    // Even with nothing after it.
    let short = line(&kinds[place % 13..][..1]);
    cases.push(ground.with_line(place, short).refused(11, number));
    cases
}

/// 12: another known kind, another number, another length.
fn not_due(ground: &Ground, place: usize) -> Vec<Case> {
    let number = place as u32 + 1;
    let due = &ground.frames[place];
    let mut cases = Vec::new();
    for kind in (STATE..=LEAVING).filter(|&kind| kind != due.kind()) {
        cases.push(ground.with_frame(place, |bytes| bytes[0] = kind));
    }
    for at in 1..due.head.len() {
        for difference in [1, [0xff, 0x80][place % 2]] {
            cases.push(ground.with_frame(place, |bytes| {
                bytes[at] = bytes[at].wrapping_add(difference);
            }));
        }
    }
    for length in [1, due.head.len(), due.bytes().len() - 8, due.bytes().len() - 1] {
        cases.push(ground.with_frame(place, |bytes| bytes.truncate(length)));
    }
    for more in [1, 8, 300] {
        cases.push(ground.with_frame(place, |bytes| bytes.resize(bytes.len() + more, 0)));
    }
    cases.into_iter().map(|case| case.refused(12, number)).collect()
}

/// 13: bits that are not allowed; the greatest of those that are is.
fn bits(ground: &Ground, place: usize) -> Vec<Case> {
    let number = place as u32 + 1;
    let due = &ground.frames[place];
    let numbers: &[u32] = if due.kind() == LEAVING { &[62, 63] } else { &[] };
    let mut cases = Vec::new();
    for mask in 0..due.masks.len() {
        let with_bit = |bit: u32| {
            let mut frame = due.clone();
            frame.masks[mask] |= 1 << bit;
            ground.with_line(place, line(&frame.bytes()))
        };
        let forbidden = [7, 8 + (17 * number) % 50, 59, 60, 61];
        let all = forbidden.iter().chain(numbers);
        cases.extend(all.map(|&bit| with_bit(bit).refused(13, number)));
        cases.push(with_bit(6));
    }
    cases
}
