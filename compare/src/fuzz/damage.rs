//! Damaged texts, of programs and of claims.

use crate::generate::mutations::{change_bytes, change_order};
use crate::random::Random;

/// Damages a text in this way.
pub fn damaged(random: &mut Random, text: Vec<u8>, way: &str) -> Vec<u8> {
    match way {
        "bytes changed" => change_bytes(random, text),
        "lines changed" => lines_changed(random, &text),
        "digits exchanged" => digits_exchanged(random, text),
        "cut short" => cut(random, text),
        "line ends changed" => line_ends(random, text),
        "kinds changed" => kinds(random, text),
        _ => unreachable!("{way} is no damage of a text"),
    }
}

fn lines_changed(random: &mut Random, text: &[u8]) -> Vec<u8> {
    let mut lines: Vec<&[u8]> = text.split_inclusive(|&byte| byte == b'\n').collect();
    change_order(random, &mut lines);
    lines.concat()
}

/// Two bytes beside each other, or anywhere.
fn digits_exchanged(random: &mut Random, mut text: Vec<u8>) -> Vec<u8> {
    for _ in 0..random.within(1..=2) {
        if text.len() > 1 {
            let place = random.below(text.len() - 1);
            let other = if random.once_in(2) { place + 1 } else { random.below(text.len()) };
            text.swap(place, other);
        }
    }
    text
}

/// Anywhere, at the end of a line, or just the last bytes.
fn cut(random: &mut Random, mut text: Vec<u8>) -> Vec<u8> {
    let place = random.below(text.len().max(1));
    let after_line = text[..place].iter().rposition(|&byte| byte == b'\n').map_or(0, |at| at + 1);
    let near_end = text.len().saturating_sub(random.within(1..=4));
    text.truncate(random.pick(&[place, after_line, near_end]));
    text
}

/// A line end left out, doubled or made another one.
fn line_ends(random: &mut Random, mut text: Vec<u8>) -> Vec<u8> {
    let ends: Vec<usize> = (0..text.len()).filter(|&place| text[place] == b'\n').collect();
    let Some(&last) = ends.last() else {
        return text;
    };
    let place = if random.once_in(2) { last } else { random.pick(&ends) };
    match random.below(5) {
        0..=1 => {
            text.remove(place);
        }
        2 => text.insert(place, b'\n'),
        3 => text.insert(place, b'\r'),
        _ => text[place] = random.pick(b"\r\0 0"),
    }
    text
}

/// A line with another kind, known or not, or with more or fewer bytes.
fn kinds(random: &mut Random, mut text: Vec<u8>) -> Vec<u8> {
    let mut starts = vec![0];
    starts.extend((0..text.len()).filter(|&place| text[place] == b'\n').map(|place| place + 1));
    let place = random.pick(&starts);
    let end = text[place..].iter().position(|&byte| byte == b'\n').map_or(0, |at| place + at);
    if end < place + 2 {
        return text;
    }
    match random.below(4) {
        0 => text[place..place + 2].copy_from_slice(&random.pick(&KINDS)),
        1 => text[place..place + 2].copy_from_slice(&crate::frame::digits(random.byte())),
        2 => drop(text.splice(end..end, *b"00")),
        _ => drop(text.drain(end - 2..end)),
    }
    text
}

const KINDS: [[u8; 2]; 14] = [
    *b"00", *b"01", *b"02", *b"03", *b"04", *b"05", *b"06", *b"07", *b"10", *b"11", *b"12", *b"13",
    *b"14", *b"15",
];
