//! Memory lent to a call: a slice inside a larger allocation, all of it filled
//! beforehand with a pattern without a zero byte.

use crate::machine::structs::{Frame, Object, Value};
use std::ops::Range;

/// Words that depend on their place.
#[derive(Clone, Copy, Debug)]
pub struct Pattern {
    base: u32,
    step: u32,
}

impl Pattern {
    pub fn new(salt: u64) -> Pattern {
        // One of sixteen patterns is the same word everywhere.
        let step = if salt & 15 == 0 { 0 } else { (salt >> 32) as u32 | 1 };
        Pattern { base: salt as u32, step }
    }

    #[inline(always)]
    fn word(self, place: usize) -> u32 {
        self.base.wrapping_add(self.step.wrapping_mul(place as u32)) | 0x0101_0101
    }

    #[inline(always)]
    fn value(self, place: usize) -> Value {
        Value { object: self.word(place), number: self.word(place + 1) as i32 }
    }
}

/// What can be lent.
pub trait Element: Copy + PartialEq {
    /// Elements before and after the lent ones.
    const GUARD: usize = 4;
    /// What lies in the place before a call.
    fn filled(pattern: Pattern, place: usize) -> Self;
    fn bytes(&self) -> Vec<u8>;
}

impl Element for u8 {
    const GUARD: usize = 64;

    #[inline(always)]
    fn filled(pattern: Pattern, place: usize) -> u8 {
        pattern.word(place) as u8
    }

    fn bytes(&self) -> Vec<u8> {
        vec![*self]
    }
}

impl Element for u64 {
    #[inline(always)]
    fn filled(pattern: Pattern, place: usize) -> u64 {
        u64::from(pattern.word(2 * place)) << 32 | u64::from(pattern.word(2 * place + 1))
    }

    fn bytes(&self) -> Vec<u8> {
        self.to_ne_bytes().to_vec()
    }
}

impl Element for Value {
    #[inline(always)]
    fn filled(pattern: Pattern, place: usize) -> Value {
        pattern.value(2 * place)
    }

    fn bytes(&self) -> Vec<u8> {
        [self.object.to_ne_bytes(), self.number.to_ne_bytes()].concat()
    }
}

impl Element for Frame {
    #[inline(always)]
    fn filled(pattern: Pattern, place: usize) -> Frame {
        let first = 36 * place;
        let registers = std::array::from_fn(|register| pattern.value(first + 2 + 2 * register));
        let (method, address) = (pattern.word(first), pattern.word(first + 1));
        Frame { method, address, registers, result: pattern.value(first + 34) }
    }

    fn bytes(&self) -> Vec<u8> {
        let head = [self.method.to_ne_bytes(), self.address.to_ne_bytes()].concat();
        let values = self.registers.iter().chain([&self.result]).flat_map(Value::bytes);
        head.into_iter().chain(values).collect()
    }
}

impl Element for Object {
    #[inline(always)]
    fn filled(pattern: Pattern, place: usize) -> Object {
        let first = 33 * place;
        let cells = std::array::from_fn(|cell| pattern.value(first + 1 + 2 * cell));
        Object { class: pattern.word(first), cells }
    }

    fn bytes(&self) -> Vec<u8> {
        let cells = self.cells.iter().flat_map(Value::bytes);
        self.class.to_ne_bytes().into_iter().chain(cells).collect()
    }
}

/// A lent slice with guards before and after it.
#[derive(Clone)]
pub struct Lent<T> {
    pub all: Vec<T>,
    /// The places that are lent.
    pub places: Range<usize>,
}

impl<T: Element> Lent<T> {
    /// Filled with the pattern; `more` elements lie before the first guard.
    pub fn filled(pattern: Pattern, length: usize, more: usize) -> Lent<T> {
        let start = more + T::GUARD;
        let all = (0..start + length + T::GUARD).map(|place| T::filled(pattern, place)).collect();
        Lent { all, places: start..start + length }
    }

    pub fn lent(&self) -> &[T] {
        &self.all[self.places.clone()]
    }

    pub fn lent_mut(&mut self) -> &mut [T] {
        &mut self.all[self.places.clone()]
    }
}

impl Lent<u8> {
    /// A text, with bytes around it that could belong to one.
    pub fn text(text: &[u8], salt: u64) -> Lent<u8> {
        const AROUND: [&[u8]; 4] = [b"0", b"\n", b"03\n", b"061100000000000000\n"];
        let around = AROUND[(salt >> 20) as usize % AROUND.len()];
        let guard = around.repeat(u8::GUARD + 7);
        let start = u8::GUARD + (salt >> 12 & 7) as usize;
        let all = [&guard[..start], text, &guard[..u8::GUARD]].concat();
        Lent { all, places: start..start + text.len() }
    }
}

#[cfg(test)]
mod tests {
    use super::*;

    #[test]
    fn no_byte_of_a_pattern_is_zero() {
        for salt in [0, 1, u64::MAX, 0x0100_0000_0000_0010, 0x1234_5678_9abc_def1] {
            let pattern = Pattern::new(salt);
            let whole = |bytes: Vec<u8>| !bytes.contains(&0);
            for place in 0..300 {
                assert!(whole(u8::filled(pattern, place).bytes()));
                assert!(whole(u64::filled(pattern, place).bytes()));
                assert!(whole(Frame::filled(pattern, place).bytes()));
                assert!(whole(Object::filled(pattern, place).bytes()));
            }
        }
    }

    #[test]
    fn bytes_are_as_many_as_the_element_has() {
        let pattern = Pattern::new(0x77_1234_5679);
        assert_eq!(Value::filled(pattern, 3).bytes().len(), size_of::<Value>());
        assert_eq!(Frame::filled(pattern, 3).bytes().len(), size_of::<Frame>());
        assert_eq!(Object::filled(pattern, 3).bytes().len(), size_of::<Object>());
    }
}
