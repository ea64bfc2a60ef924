//! Texts that are refused, and texts with a change that may be harmless.

use super::object_programs::list;
use super::programs::factorial;
use super::{Case, LEAST};
use crate::generate::mutations::{change_bytes, change_lines, change_values};
use crate::generate::suite;
use crate::random::Random;
use crate::reader::{read, MAX_LENGTH};

/// Texts of this many bytes are short.
const SHORT: usize = 260;

pub fn cases() -> Vec<Case> {
    [too_long(), refused(), changed()].concat()
}

/// A text over the length.
fn too_long() -> Vec<Case> {
    let frames = b"01ff\n0100\n040000010100\n".iter();
    let text: Vec<u8> = frames.copied().cycle().take(MAX_LENGTH + 1).collect();
    vec![Case::new(text, 3).giving(1)]
}

/// Some of the reader's texts, of each refusal from 2 to 6.
fn refused() -> Vec<Case> {
    let mut random = Random::new(54);
    let texts: Vec<Vec<u8>> = suite().concat().into_iter().map(|case| case.text).collect();
    let mut cases = Vec::new();
    for number in 2..=6 {
        let is_refused = |text: &&Vec<u8>| {
            text.len() <= SHORT && read(text).is_err_and(|refusal| refusal.number == number)
        };
        let fitting: Vec<&Vec<u8>> = texts.iter().filter(is_refused).collect();
        for _ in 0..32 {
            let text = random.pick(&fitting).clone();
            let mut lent = LEAST;
            if random.once_in(4) {
                lent[random.below(3)] = 0;
            }
            let n = random.below(9) as u64;
            cases.push(Case::new(text, n).lending(lent).giving(number));
        }
    }
    cases
}

/// Programs that run, with bytes, lines or values changed.
fn changed() -> Vec<Case> {
    let mut random = Random::new(55);
    let mut case = |number: usize| {
        let program = if number % 2 == 1 { list(5) } else { factorial(9) };
        let text = match number % 8 {
            0 => change_bytes(&mut random, program.text()),
            1 => change_lines(&mut random, program.frames()),
            _ => change_values(&mut random, program.frames()),
        };
        Case::new(text, random.within(0..=2_000) as u64)
    };
    (0..150).map(&mut case).collect()
}
