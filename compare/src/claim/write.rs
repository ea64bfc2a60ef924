//! Writes a claim: its frames, and the text of frames.

use super::*;
use crate::frame;

/// A frame of a claim: its kind and numbers, then its masks.
#[derive(Clone, Debug, PartialEq, Eq)]
pub struct ClaimFrame {
    pub head: Vec<u8>,
    pub masks: Vec<u64>,
}

impl ClaimFrame {
    pub fn new(head: &[u8], masks: &[u64]) -> ClaimFrame {
        ClaimFrame { head: head.to_vec(), masks: masks.to_vec() }
    }

    pub fn kind(&self) -> u8 {
        self.head[0]
    }

    pub fn bytes(&self) -> Vec<u8> {
        let mut bytes = self.head.clone();
        self.masks.iter().for_each(|mask| bytes.extend_from_slice(&mask.to_be_bytes()));
        bytes
    }

    /// The bits that its masks may have.
    pub fn allowed(&self, program: &Program) -> u64 {
        let numbers = if self.kind() == LEAVING { 0 } else { NUMBERS };
        class_bits(program) | numbers
    }
}

impl Claim {
    /// The frames in the order of the text.
    pub fn frames(&self, program: &Program) -> Vec<ClaimFrame> {
        let mut frames = Vec::new();
        for (number, method) in program.methods.iter().enumerate() {
            for address in 0..method.code.len() {
                let head = [STATE, number as u8, address as u8];
                frames.push(ClaimFrame::new(&head, self.row(number, address)));
            }
        }
        let below = classes_below(program);
        for class in 0..program.classes.len() {
            for (number, field) in program.fields.iter().enumerate() {
                if below[usize::from(field.class)] >> class & 1 == 1 {
                    let head = [FIELD, class as u8, number as u8];
                    frames.push(ClaimFrame::new(&head, &[self.fields[number][class]]));
                }
            }
        }
        let singles =
            [(STATIC, &self.statics), (RETURNED, &self.returned), (LEAVING, &self.leaving)];
        for (kind, masks) in singles {
            let frame = |(number, &mask)| ClaimFrame::new(&[kind, number as u8], &[mask]);
            frames.extend(masks.iter().enumerate().map(frame));
        }
        frames
    }

    pub fn text(&self, program: &Program) -> Vec<u8> {
        text(&self.frames(program))
    }
}

/// The text of these frames, in this order.
pub fn text(frames: &[ClaimFrame]) -> Vec<u8> {
    frames.iter().map(|frame| frame::line(&frame.bytes())).collect::<Vec<_>>().concat()
}
