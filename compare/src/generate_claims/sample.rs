//! Document 01's sample, and what each of its bits is for.

use super::{Case, Meant};
use crate::assembly::SAMPLE;
use crate::checker::Verdict;
use crate::claim::write::ClaimFrame;
use crate::claim::{LEAVING, RETURNED, STATE, ZERO};
use crate::program::Program;
use crate::reader::read;

/// The sample's program.
pub fn program() -> Program {
    read(SAMPLE.as_bytes()).expect("the sample is a program")
}

/// The sample's claim: every register, result and returned mask has bit 62,
/// and both exception masks are empty.
pub fn frames() -> Vec<ClaimFrame> {
    let state = |method, address| ClaimFrame::new(&[STATE, method, address], &[ZERO; 2]);
    let mut frames = vec![state(0, 0), state(0, 1), state(1, 0)];
    frames.extend([0, 1].map(|method| ClaimFrame::new(&[RETURNED, method], &[ZERO])));
    frames.extend([0, 1].map(|method| ClaimFrame::new(&[LEAVING, method], &[0])));
    frames
}

pub fn cases() -> Vec<Case> {
    let bit = |frame: usize, mask: usize, bits: u64| {
        let mut frames = frames();
        frames[frame].masks[mask] = bits;
        Case::of(&program(), &frames)
    };
    let mut both_leave = frames();
    both_leave[6].masks[0] = 1;
    both_leave[5].masks[0] = 3;
    let accepted = Meant::Exactly(Verdict::Accepted(1));
    vec![
        Case::of(&program(), &frames()).meaning(accepted),
        // The two of document 01, and every other mask made zero.
        bit(1, 1, 0).violating(7, 0, 0),
        bit(4, 0, 0).violating(8, 1, 0),
        bit(0, 0, 0).violating(1, 0, 0),
        bit(0, 1, 0).violating(1, 0, 0),
        bit(1, 0, 0).violating(2, 0, 0),
        bit(2, 0, 0).violating(1, 1, 0),
        bit(2, 1, 0).violating(1, 1, 0),
        bit(3, 0, 0).violating(8, 0, 1),
        // One bit more: it flows from address 0 to 1 in a register, and not
        // as the result of a call.
        bit(0, 0, ZERO | 1).violating(2, 0, 0),
        bit(0, 1, ZERO | 1).meaning(accepted),
        bit(1, 0, ZERO | 1).meaning(accepted),
        bit(1, 1, ZERO | 2).meaning(accepted),
        bit(2, 0, ZERO | 2).meaning(accepted),
        bit(4, 0, ZERO | 2).violating(7, 0, 0),
        bit(3, 0, ZERO | 2).meaning(accepted),
        // An exception that leaves method 1 leaves method 0 too, of a class
        // that is no Throwable as well.
        bit(6, 0, 2).violating(10, 0, 0),
        bit(6, 0, 1).violating(10, 0, 0),
        bit(5, 0, 3).meaning(accepted),
        Case::of(&program(), &both_leave).meaning(accepted),
    ]
}
