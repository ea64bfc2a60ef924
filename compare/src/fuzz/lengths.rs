//! Numbers of steps, and lengths of lent memory.

use super::ground;
use crate::checker::LEAST_MEMORY;
use crate::generate_writes::MOST_LENT;
use crate::machine::structs::LEAST;
use crate::machine::MAX_STEPS;
use crate::random::Random;
use crate::reader::read;

/// Lengths in elements.
#[derive(Clone, Copy, Debug, PartialEq, Eq)]
pub struct Lengths {
    pub frames: usize,
    pub objects: usize,
    pub statics: usize,
    /// The checker's bytes.
    pub memory: usize,
    /// The writer's bytes.
    pub text: usize,
    pub read_answer: usize,
    pub step_answer: usize,
    pub check_answer: usize,
    pub write_answer: usize,
}

/// The words that are written of an answer.
pub const ANSWER: usize = 5;

/// A run of more steps than this is long.
const LONG: u64 = 20_000;

/// A number of steps for a run that stops after so many.
pub fn steps(random: &mut Random, stops: u64) -> u64 {
    let edges = [MAX_STEPS + 1, 1 << 32, (1 << 32) + 1, (1 << 63) - 1, 1 << 63, u64::MAX];
    match random.below(64) {
        0..=1 => 0,
        2..=3 => 1,
        4..=5 => 2,
        6..=19 => random.within(0..=40) as u64,
        20..=35 => random.within(20..=400) as u64,
        36..=41 => random.within(200..=ground::PROBE as usize) as u64,
        42..=48 => (stops + random.below(3) as u64).saturating_sub(1),
        49..=51 => random.below(MAX_STEPS as usize + 1) as u64,
        52..=55 => MAX_STEPS,
        56..=58 => random.next_u64(),
        _ => random.pick(&edges),
    }
}

/// Large numbers of steps mostly go to runs that stop before long.
pub fn tame(random: &mut Random, text: &[u8], n: u64) -> u64 {
    let goes_on = || read(text).is_ok_and(|program| ground::steps(&program) >= ground::PROBE);
    if n > LONG && goes_on() && !random.once_in(50) {
        return random.within(0..=3_000) as u64;
    }
    n
}

/// Lengths for a program whose claims have texts of this length; none if it is
/// refused.
pub fn lengths(random: &mut Random, text: Option<usize>) -> Lengths {
    let more = [6, 9, 12];
    let mut stepper = [0, 1, 2].map(|which| LEAST[which] + one_of(random, more[which]));
    match random.below(16) {
        0 => smaller(random, &mut stepper, 0b001),
        1 => smaller(random, &mut stepper, 0b010),
        2 => smaller(random, &mut stepper, 0b100),
        3 => {
            let which = random.pick(&[0b011, 0b101, 0b110, 0b111]);
            smaller(random, &mut stepper, which);
        }
        _ => {}
    }
    let memory = match random.below(10) {
        0 => less(random, LEAST_MEMORY),
        1 if random.once_in(20) => 65_536,
        _ => LEAST_MEMORY + one_of(random, 40),
    };
    let [read_answer, step_answer, check_answer, write_answer] = [(); 4].map(|_| answer(random));
    let [frames, objects, statics] = stepper;
    let text = writers(random, text);
    Lengths {
        frames,
        objects,
        statics,
        memory,
        text,
        read_answer,
        step_answer,
        check_answer,
        write_answer,
    }
}

/// Words of an answer.
fn answer(random: &mut Random) -> usize {
    match random.below(8) {
        0 => random.below(ANSWER),
        1..=2 => ANSWER + 1 + random.below(4),
        _ => ANSWER,
    }
}

/// Bytes for the writer of a text of this length; of none if the program is
/// refused.
fn writers(random: &mut Random, text: Option<usize>) -> usize {
    let Some(length) = text else {
        return random.pick(&[0, 0, 1, 201, 300, 2_000]);
    };
    match random.below(16) {
        0 => 0,
        1 => length - 1,
        2 => less(random, length),
        3 => length + 1,
        4..=6 => length + random.within(2..=40),
        7 if random.once_in(40) => MOST_LENT,
        _ => length,
    }
}

/// Nothing in one of two cases, else up to so many.
fn one_of(random: &mut Random, most: usize) -> usize {
    if random.once_in(2) {
        0
    } else {
        random.within(1..=most)
    }
}

/// These of the three made too small.
fn smaller(random: &mut Random, lengths: &mut [usize; 3], which: usize) {
    for (place, length) in lengths.iter_mut().enumerate() {
        if which >> place & 1 == 1 {
            *length = less(random, LEAST[place]);
        }
    }
}

/// One less, none, or anything below.
fn less(random: &mut Random, least: usize) -> usize {
    match random.below(3) {
        0 => least - 1,
        1 => random.below(2),
        _ => random.below(least),
    }
}

#[cfg(test)]
mod tests {
    use super::*;
    use std::collections::BTreeSet;

    #[test]
    fn answers_of_none_to_nine_words_are_lent() {
        let mut random = Random::new(5);
        let lent: Vec<Lengths> = (0..2_000).map(|_| lengths(&mut random, None)).collect();
        let answers: [fn(&Lengths) -> usize; 4] = [
            |lent| lent.read_answer,
            |lent| lent.step_answer,
            |lent| lent.check_answer,
            |lent| lent.write_answer,
        ];
        for answer in answers {
            let words: BTreeSet<usize> = lent.iter().map(answer).collect();
            assert!(words.into_iter().eq(0..=9));
        }
    }

    #[test]
    fn the_writer_gets_none_less_just_enough_and_more() {
        let mut random = Random::new(6);
        let lent: BTreeSet<usize> =
            (0..4_000).map(|_| lengths(&mut random, Some(1_000)).text).collect();
        assert!([0, 1, 999, 1_000, 1_001, 1_040, MOST_LENT].iter().all(|l| lent.contains(l)));
        assert!(lent.iter().any(|length| (2..998).contains(length)));
        let lent: BTreeSet<usize> = (0..100).map(|_| lengths(&mut random, None).text).collect();
        assert!(lent.len() == 5 && lent.contains(&0), "{lent:?}");
    }
}
