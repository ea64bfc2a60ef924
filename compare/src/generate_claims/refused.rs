//! Programs that are refused, whatever the claim and the memory.

use super::sample;
use super::Case;
use crate::assembly::SAMPLE;
use crate::checker::LEAST_MEMORY;
use crate::claim::write::text;
use crate::generate::suite;
use crate::random::Random;
use crate::reader::{read, MAX_LENGTH};

/// Texts of this many bytes are short.
const SHORT: usize = 260;

pub fn cases() -> Vec<Case> {
    [too_long(), refused()].concat()
}

/// A program text over the length, with a claim and without.
fn too_long() -> Vec<Case> {
    let long: Vec<u8> = SAMPLE.bytes().cycle().take(MAX_LENGTH + 1).collect();
    vec![Case::new(long, b"x".to_vec()).lending(0).refused(1, 0)]
}

/// Some of the reader's texts, of each refusal from 2 to 6.
fn refused() -> Vec<Case> {
    let mut random = Random::new(74);
    let texts: Vec<Vec<u8>> = suite().concat().into_iter().map(|case| case.text).collect();
    let good = text(&sample::frames());
    let mut cases = Vec::new();
    for number in 2..=6 {
        let is_refused = |text: &&Vec<u8>| {
            text.len() <= SHORT && read(text).is_err_and(|refusal| refusal.number == number)
        };
        let fitting: Vec<&Vec<u8>> = texts.iter().filter(is_refused).collect();
        for round in 0..24 {
            let program = random.pick(&fitting).clone();
            let claim = match round % 4 {
                0 => good.clone(),
                1 => Vec::new(),
                2 => program.clone(),
                _ => b"11000\n".to_vec(),
            };
            let line = read(&program).map_or_else(|refusal| refusal.line, |_| 0);
            let lent = random.pick(&[0, LEAST_MEMORY - 1, LEAST_MEMORY, LEAST_MEMORY]);
            cases.push(Case::new(program, claim).lending(lent).refused(number, line));
        }
    }
    cases
}
