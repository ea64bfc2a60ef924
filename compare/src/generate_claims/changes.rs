//! The least claims of written programs, with bits taken away and added.

use super::{written_programs, Case, Meant};
use crate::claim::read::read;
use crate::claim::write::{text, ClaimFrame};
use crate::claim::Claim;
use crate::least::{close, first_broken, greatest, least};
use crate::program::Program;
use crate::random::Random;
use std::collections::BTreeMap;

/// At most this many bits of a least claim are taken away, one a case.
const MOST_TAKEN: usize = 16;

/// At most this many bits are tried for a choice among them.
const TRIES: usize = 80;

pub fn cases() -> Vec<Case> {
    let mut random = Random::new(71);
    let mut cases = Vec::new();
    for program in &written_programs() {
        cases.extend(without_a_bit(&mut random, program, MOST_TAKEN));
        cases.extend(others(&mut random, program));
    }
    cases
}

/// A bit of a mask of a frame.
type Bit = (usize, usize, u32);

/// The bits that are `set` or not, of those allowed.
fn bits(program: &Program, frames: &[ClaimFrame], set: bool) -> Vec<Bit> {
    let mut bits = Vec::new();
    for (number, frame) in frames.iter().enumerate() {
        let allowed = frame.allowed(program);
        for (place, mask) in frame.masks.iter().enumerate() {
            let there = |bit: &u32| allowed >> bit & 1 == 1 && (mask >> bit & 1 == 1) == set;
            bits.extend((0..64).filter(there).map(|bit| (number, place, bit)));
        }
    }
    bits
}

/// The claim with one bit less (`set`) or more, at most `most` times: another
/// rule is broken from one to the next, as far as there are some, so that the
/// rare ones are not lost among the others.
fn with_one_changed(
    random: &mut Random,
    program: &Program,
    claim: &Claim,
    set: bool,
    most: usize,
) -> Vec<Case> {
    let frames = claim.frames(program);
    let mut bits = bits(program, &frames, set);
    while bits.len() > TRIES.max(most) {
        bits.swap_remove(random.below(bits.len()));
    }
    let mut by_rule: BTreeMap<Option<u8>, Vec<Case>> = BTreeMap::new();
    for (frame, place, bit) in bits {
        let mut frames = frames.clone();
        frames[frame].masks[place] ^= 1 << bit;
        let case = judged(program, &frames);
        by_rule.entry(case.meant.rule()).or_default().push(case);
    }
    let mut groups: Vec<Vec<Case>> = by_rule.into_values().collect();
    let mut cases = Vec::new();
    let mut turn = random.below(groups.len().max(1));
    while cases.len() < most && !groups.is_empty() {
        turn %= groups.len();
        let place = random.below(groups[turn].len());
        cases.push(groups[turn].swap_remove(place));
        if groups[turn].is_empty() {
            groups.remove(turn);
        } else {
            turn += 1;
        }
    }
    cases
}

/// A claim without fault of form, with the verdict that the rules one by one
/// give.
fn judged(program: &Program, frames: &[ClaimFrame]) -> Case {
    let case = Case::of(program, frames);
    let claim = read(&case.claim, program).expect("only allowed bits were changed");
    match first_broken(program, &claim) {
        None => case.meaning(Meant::Accepted),
        Some(broken) => case.violating(broken.rule, broken.method, broken.address),
    }
}

/// Every bit of a least claim is asked for: without it, a rule is broken.
pub fn without_a_bit(random: &mut Random, program: &Program, most: usize) -> Vec<Case> {
    let cases = with_one_changed(random, program, &least(program), true, most);
    assert!(cases.iter().all(|case| case.meant != Meant::Accepted));
    cases
}

/// The greatest claim without a bit: a rule may be broken or not.
pub fn less_than_greatest(random: &mut Random, program: &Program, most: usize) -> Vec<Case> {
    with_one_changed(random, program, &greatest(program), true, most)
}

/// The least claim, the greatest, claims in between and claims close to them.
pub fn others(random: &mut Random, program: &Program) -> Vec<Case> {
    let accepted =
        |claim: &Claim| Case::of(program, &claim.frames(program)).meaning(Meant::Accepted);
    let least = least(program);
    let mut cases = vec![accepted(&least), accepted(&greatest(program))];
    cases.extend(with_one_changed(random, program, &least, false, 4));
    cases.extend(less_than_greatest(random, program, 6));
    for _ in 0..2 {
        let between = between(random, program, &least);
        cases.push(accepted(&between));
        cases.extend(with_one_changed(random, program, &between, true, 2));
    }
    cases.extend([1, 2, 6].map(|seldom| judged(program, &random_masks(random, program, seldom))));
    cases
}

/// A claim that is accepted, with up to four bits more and what they ask for.
fn between(random: &mut Random, program: &Program, claim: &Claim) -> Claim {
    let mut frames = claim.frames(program);
    let free = bits(program, &frames, false);
    for _ in 0..random.within(1..=4) {
        if !free.is_empty() {
            let (frame, place, bit) = random.pick(&free);
            frames[frame].masks[place] |= 1 << bit;
        }
    }
    let claim = read(&text(&frames), program).expect("only allowed bits were added");
    close(program, claim)
}

/// Random bits in the masks of a least claim, in one of `seldom` masks.
fn random_masks(random: &mut Random, program: &Program, seldom: usize) -> Vec<ClaimFrame> {
    let mut frames = least(program).frames(program);
    for frame in &mut frames {
        let allowed = frame.allowed(program);
        for mask in &mut frame.masks {
            if random.once_in(seldom) {
                *mask |= random.next_u64() & allowed;
            }
        }
    }
    frames
}
