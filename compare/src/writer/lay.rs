//! The text of a claim, written line by line into memory of its length.

use crate::checker::sets::Sets;
use crate::claim::{digits, Claim, FIELD, LEAVING, RETURNED, STATE, STATIC};
use crate::frame;
use crate::program::Program;

/// Bytes of a line: two digits for each of the first bytes, sixteen for each
/// mask, and the line end.
pub fn line(head: usize, masks: usize) -> usize {
    2 * head + 16 * masks + 1
}

/// Writes the text of a claim, which fills the memory.
pub fn lay(program: &Program, sets: &Sets, claim: &Claim, memory: &mut [u8]) {
    let mut rest = Rest(memory);
    for (number, method) in program.methods.iter().enumerate() {
        for address in 0..method.code.len() {
            rest.frame(&[STATE, number as u8, address as u8], claim.row(number, address));
        }
    }
    for class in 0..program.classes.len() {
        for (number, masks) in claim.fields.iter().enumerate() {
            if sets.having[number] >> class & 1 == 1 {
                rest.frame(&[FIELD, class as u8, number as u8], &masks[class..=class]);
            }
        }
    }
    let singles =
        [(STATIC, &claim.statics), (RETURNED, &claim.returned), (LEAVING, &claim.leaving)];
    for (kind, masks) in singles {
        for (number, mask) in masks.iter().enumerate() {
            rest.frame(&[kind, number as u8], std::slice::from_ref(mask));
        }
    }
}

/// The memory that is not written yet.
struct Rest<'m>(&'m mut [u8]);

impl Rest<'_> {
    #[inline]
    fn frame(&mut self, head: &[u8], masks: &[u64]) {
        let length = line(head.len(), masks.len());
        let (line, rest) = std::mem::take(&mut self.0).split_at_mut(length);
        let (heads, line) = line.split_at_mut(2 * head.len());
        for (pair, &byte) in heads.chunks_exact_mut(2).zip(head) {
            pair.copy_from_slice(&frame::digits(byte));
        }
        let (all, end) = line.split_at_mut(16 * masks.len());
        for (place, &mask) in all.chunks_exact_mut(16).zip(masks) {
            place.copy_from_slice(&digits::of(mask));
        }
        end[0] = b'\n';
        self.0 = rest;
    }
}
