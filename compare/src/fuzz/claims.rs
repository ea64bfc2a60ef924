//! Claims for a ground: accepted ones, changed ones and damaged ones.

use super::damage::damaged;
use super::ground::Ground;
use crate::claim::{MAX_LENGTH, ZERO};
use crate::random::Random;

/// A claim for one of the grounds of a block, made in this way.
pub fn claim(random: &mut Random, grounds: &[Ground], which: usize, way: &str) -> Vec<u8> {
    let ground = &grounds[which];
    let other = &grounds[random.below(grounds.len())];
    let mut claim = match way {
        "greatest" | "greatest, bits less" | "greatest, random bits less" => &ground.greatest,
        "between" | "between, bits less" => &ground.between,
        "of another program" => &other.least,
        "a program's text" => &other.text,
        _ => &ground.least,
    }
    .clone();
    match way {
        "least, bits less" | "between, bits less" | "greatest, bits less" => {
            change_bits(random, ground, &mut claim, true);
        }
        "least, bits more" => change_bits(random, ground, &mut claim, false),
        "least, random bits more" => {
            change_masks(random, ground, &mut claim, |old, bits| old | bits)
        }
        "greatest, random bits less" => {
            change_masks(random, ground, &mut claim, |old, bits| old & bits)
        }
        "of random bits" => change_masks(random, ground, &mut claim, |_, bits| bits),
        "a bit not allowed" => forbidden_bit(random, ground, &mut claim),
        "empty" => claim.clear(),
        "too long" => claim = long_text(random, claim),
        "least" | "greatest" | "between" | "of another program" | "a program's text" => {}
        _ => claim = damaged(random, claim, way),
    }
    claim
}

/// One to three bits taken away (`set`) or added, of those allowed. That of
/// zero is mostly left: without it, rules 0 and 1 would be all that breaks.
fn change_bits(random: &mut Random, ground: &Ground, claim: &mut [u8], set: bool) {
    let left = if random.once_in(4) { 0 } else { ZERO };
    for _ in 0..random.pick(&[1, 1, 1, 2, 3]) {
        // Some masks have no such bit.
        for _ in 0..16 {
            let mask = ground.mask(random);
            let old = mask.get(claim);
            let bits = mask.allowed & !left & if set { old } else { !old };
            if bits != 0 {
                mask.set(claim, old ^ nth_bit(bits, random.below(bits.count_ones() as usize)));
                break;
            }
        }
    }
}

fn nth_bit(mut bits: u64, n: usize) -> u64 {
    for _ in 0..n {
        bits &= bits - 1;
    }
    bits & bits.wrapping_neg()
}

/// Changes some masks or all of them, by random bits.
fn change_masks(
    random: &mut Random,
    ground: &Ground,
    claim: &mut [u8],
    change: fn(u64, u64) -> u64,
) {
    let seldom = random.pick(&[1, 1, 2, 6, 20]);
    for mask in ground.masks() {
        if random.once_in(seldom) {
            let bits = random.next_u64() & mask.allowed;
            mask.set(claim, change(mask.get(claim), bits));
        }
    }
}

fn forbidden_bit(random: &mut Random, ground: &Ground, claim: &mut [u8]) {
    let mask = ground.mask(random);
    let bit = nth_bit(!mask.allowed, random.below(mask.allowed.count_zeros() as usize));
    let old = mask.get(claim);
    mask.set(claim, old | bit);
}

/// The claim and more, to the greatest length or one or two bytes over it.
fn long_text(random: &mut Random, mut claim: Vec<u8>) -> Vec<u8> {
    let length = MAX_LENGTH + random.pick(&[0, 1, 1, 2]);
    if random.once_in(2) {
        claim.extend(b"11");
    }
    claim.resize(length - 1, b'0');
    claim.push(random.pick(b"\n\n0"));
    claim
}
