//! Claims with two faults, and with random changes.

use super::texts::Ground;
use super::{written_programs, Case};
use crate::frame::line;
use crate::generate::mutations::{change_bytes, change_lines};
use crate::least::{greatest, least};
use crate::random::Random;

/// Claims of this many bytes are short.
const SHORT: usize = 700;

pub fn cases() -> Vec<Case> {
    [on_one_line(), on_two_lines(), changed()].concat()
}

/// A fault of a line, by its number.
fn spoil(bytes: &[u8], number: u8) -> Vec<u8> {
    let mut bytes = bytes.to_vec();
    match number {
        10 => {
            let mut digits = line(&bytes);
            digits[3] = b'F';
            return digits;
        }
        11 => bytes[0] = 6,
        12 => bytes[1] ^= 0x40,
        _ => {
            let last = bytes.len() - 8;
            bytes[last] |= 0x10;
        }
    }
    line(&bytes)
}

/// Two and three faults on one line: the lowest number counts.
fn on_one_line() -> Vec<Case> {
    let ground = Ground::new();
    let mut cases = Vec::new();
    for (place, frame) in ground.frames.iter().enumerate() {
        let number = place as u32 + 1;
        let good = frame.bytes();
        let bad_bit = |bytes: &[u8]| {
            let mut bytes = bytes.to_vec();
            let last = bytes.len() - 1;
            bytes[last] |= 0x80;
            bytes
        };
        let longer = [&good[..], &[0x80; 8]].concat();
        let shorter = &good[..good.len() - 1];
        let other_number = [&good[..1], &[0x55], &good[2..]].concat();
        let unknown = |bytes: &[u8]| [&[6], &bytes[1..]].concat();
        let spaced = |bytes: &[u8]| [&line(bytes)[..4], b" \n"].concat();
        let all = [
            (line(&bad_bit(&longer)), 12),
            (line(&bad_bit(shorter)), 12),
            (line(&bad_bit(&other_number)), 12),
            (line(&unknown(&bad_bit(&good))), 11),
            (line(&unknown(&longer)), 11),
            (line(&unknown(&other_number)), 11),
            (spaced(&unknown(&good)), 10),
            (spaced(&other_number), 10),
            (line(&longer)[..23].to_vec(), 10),
        ];
        for (other, refusal) in all {
            cases.push(ground.with_line(place, other).refused(refusal, number));
        }
    }
    cases
}

/// Faults on two lines: the first line counts, whatever the numbers.
fn on_two_lines() -> Vec<Case> {
    let ground = Ground::new();
    let mut random = Random::new(72);
    let mut cases = Vec::new();
    for first in 10..=13 {
        for second in 10..=13 {
            for round in 0..4 {
                let place = if round == 0 { 0 } else { random.below(12) };
                let later = if round == 0 { 1 } else { random.within(place + 1..=12) };
                let mut lines = ground.lines();
                lines[place] = spoil(&ground.frames[place].bytes(), first);
                lines[later] = spoil(&ground.frames[later].bytes(), second);
                cases.push(ground.case(&lines).refused(first, place as u32 + 1));
            }
        }
    }
    cases
}

/// Bytes and lines of claims changed at random.
fn changed() -> Vec<Case> {
    let mut random = Random::new(73);
    let mut claims = Vec::new();
    for program in written_programs() {
        for claim in [least(&program), greatest(&program)] {
            let frames: Vec<_> = claim.frames(&program).iter().map(|f| f.bytes()).collect();
            let claim = claim.text(&program);
            if claim.len() <= SHORT {
                claims.push((program.text(), claim, frames));
            }
        }
    }
    let mut case = |number: usize| {
        let (program, claim, frames) = &claims[number % claims.len()];
        let claim = match number % 3 {
            0 => change_lines(&mut random, frames.clone()),
            _ => change_bytes(&mut random, claim.clone()),
        };
        Case::new(program.clone(), claim)
    };
    (0..180).map(&mut case).collect()
}
