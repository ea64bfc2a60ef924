//! Claim texts with frames in other places, too many or too few: mostly 12.

use super::texts::Ground;
use super::{sample, Case, Meant};
use crate::assembly::*;
use crate::claim::write::{text, ClaimFrame};
use crate::claim::{Claim, FIELD, LEAVING, RETURNED, STATE, STATIC, ZERO};
use crate::frame::line;
use crate::least::{greatest, least};

pub fn cases() -> Vec<Case> {
    let ground = Ground::new();
    let mut cases: Vec<Case> =
        (0..ground.frames.len()).flat_map(|place| moved(&ground, place)).collect();
    cases.extend(cut(&ground));
    cases.extend(too_many(&ground));
    cases.extend(empty(&ground));
    cases.extend(sixty_classes());
    cases
}

/// 12: a frame left out, repeated, or in the place of the next.
fn moved(ground: &Ground, place: usize) -> Vec<Case> {
    let number = place as u32 + 1;
    let mut missing = ground.lines();
    let taken = missing.remove(place);
    let mut repeated = ground.lines();
    repeated.insert(place, taken.clone());
    let mut at_the_end = missing.clone();
    at_the_end.push(taken);
    let mut swapped = ground.lines();
    let next = (place + 1) % swapped.len();
    swapped.swap(place, next);
    let mut empty_line = ground.lines();
    empty_line.insert(place, b"\n".to_vec());
    let is_last = place + 1 == ground.frames.len();
    let mut cases = vec![
        ground.case(&missing).refused(12, number),
        ground.case(&repeated).refused(12, number + 1),
        ground.case(&swapped).refused(12, if is_last { 1 } else { number }),
        ground.case(&empty_line).refused(10, number),
    ];
    if !is_last {
        cases.push(ground.case(&at_the_end).refused(12, number));
    }
    cases
}

/// The text cut after every so many bytes: 12 past the last line if the cut
/// is at the end of a line, else 10.
fn cut(ground: &Ground) -> Vec<Case> {
    let claim = ground.lines().concat();
    let ends: Vec<usize> = (0..claim.len()).filter(|&at| claim[at] == b'\n').collect();
    let places =
        ends.iter().flat_map(|&end| [end - 1, end, end + 1]).filter(|&at| at < claim.len());
    let cut = |at: usize| {
        let before = ends.iter().filter(|&&end| end < at).count() as u32;
        let whole = at == 0 || claim[at - 1] == b'\n';
        let case = Case::new(ground.program.text(), claim[..at].to_vec());
        case.refused(if whole { 12 } else { 10 }, before + 1)
    };
    (0..5).chain(places).map(cut).collect()
}

/// Lines after the last frame.
fn too_many(ground: &Ground) -> Vec<Case> {
    let after = |more: &[u8]| {
        let mut lines = ground.lines();
        lines.push(more.to_vec());
        ground.case(&lines)
    };
    let mut cases = Vec::new();
    for kind in [STATE, FIELD, STATIC, RETURNED, LEAVING] {
        cases.push(after(&line(&[kind])).refused(12, 14));
        let next = ClaimFrame::new(&[kind, 2], &[ZERO]);
        cases.push(after(&line(&next.bytes())).refused(12, 14));
    }
    for more in [&b"15020000000000000000"[..], b"\r\n", b"\n", b"1\n", b"15 \n", b"0", b"ff"] {
        cases.push(after(more).refused(10, 14));
    }
    for more in [&b"0100\n"[..], b"16\n", b"00\n", b"10\n\n", b"ff\nx"] {
        cases.push(after(more).refused(11, 14));
    }
    for more in [&b"15\n\n"[..], b"11\nff\n", b"15020000000000000000\nx"] {
        cases.push(after(more).refused(12, 14));
    }
    cases
}

/// Texts that are no claim at all, and claims of other programs.
fn empty(ground: &Ground) -> Vec<Case> {
    let case = |claim: &[u8]| Case::new(ground.program.text(), claim.to_vec());
    let sample = sample::frames();
    let other = program(&[0], &[], 0, vec![main_method(1, vec![return_void()])]);
    let mut cases = vec![
        case(b"").refused(12, 1),
        case(b"\n").refused(10, 1),
        case(b"\n\n").refused(10, 1),
        case(b"11").refused(10, 1),
        case(b"11\n").refused(12, 1),
        case(b"x").refused(10, 1),
        case(b"01ff\n").refused(11, 1),
        case(b"accepted\n").refused(10, 1),
        case(&ground.program.text()).refused(11, 1),
        case(&text(&sample)).refused(12, 1),
        Case::new(other.text(), text(&ground.frames)).refused(12, 1),
        Case::new(other.text(), text(&sample)).refused(12, 2),
    ];
    let all = greatest(&ground.program);
    cases.push(case(&all.text(&ground.program)).meaning(Meant::Accepted));
    cases
}

/// With 60 classes only bits 60 and 61 are not allowed.
fn sixty_classes() -> Vec<Case> {
    let program = program(&[0; 56], &[], 0, vec![main_method(1, vec![return_void()])]);
    let with_bit = |bit: u32| {
        let mut claim: Claim = least(&program);
        claim.row_mut(0, 0)[0] |= 1 << bit;
        Case::of(&program, &claim.frames(&program))
    };
    let mut cases = [58, 59, 62, 63].map(|bit| with_bit(bit).meaning(Meant::Accepted)).to_vec();
    cases.extend([60, 61].map(|bit| with_bit(bit).refused(13, 1)));
    cases
}
