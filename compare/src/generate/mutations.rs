//! Random changes of programs: of bytes, of lines, and of values.

use super::shapes::small_program;
use super::Case;
use crate::frame::text;
use crate::random::Random;

pub fn cases() -> Vec<Case> {
    let mut random = Random::new(3);
    (0..760)
        .map(|number| {
            let program = small_program(&mut random);
            // Values are changed most often: they have the most to be wrong.
            let changed = match number % 4 {
                0 => change_bytes(&mut random, program.text()),
                1 => change_lines(&mut random, program.frames()),
                _ => change_values(&mut random, program.frames()),
            };
            Case::open(changed)
        })
        .collect()
}

/// One to three bytes flipped, replaced, inserted or left out, or the end cut.
pub fn change_bytes(random: &mut Random, mut text: Vec<u8>) -> Vec<u8> {
    for _ in 0..random.within(1..=3) {
        if text.is_empty() {
            return text;
        }
        let place = random.below(text.len());
        match random.below(8) {
            0 => text[place] ^= 1 << random.below(8),
            1 => text[place] = random.byte(),
            2..=4 => text[place] = digit(random),
            5 => text.insert(place, random.pick(b"0f\n")),
            6 => {
                text.remove(place);
            }
            _ => text.truncate(place),
        }
    }
    text
}

fn digit(random: &mut Random) -> u8 {
    random.pick(b"0123456789abcdef")
}

/// One or two lines left out, repeated, swapped or moved, or the end cut.
pub fn change_lines(random: &mut Random, mut frames: Vec<Vec<u8>>) -> Vec<u8> {
    change_order(random, &mut frames);
    text(&frames)
}

/// The same of lines of any form.
pub fn change_order<T: Clone>(random: &mut Random, frames: &mut Vec<T>) {
    for _ in 0..random.within(1..=2) {
        if frames.is_empty() {
            break;
        }
        let from = random.below(frames.len());
        // Most often a near place: far ones are refused as out of order.
        let near = (from + random.within(1..=3)).min(frames.len() - 1);
        let to = if random.once_in(3) { random.below(frames.len()) } else { near };
        match random.below(5) {
            0 => {
                frames.remove(from);
            }
            1 => frames.insert(to, frames[from].clone()),
            2 => frames.swap(from, to),
            3 => {
                let frame = frames.remove(from);
                frames.insert(to, frame);
            }
            _ => frames.truncate(from.max(frames.len() / 2)),
        }
    }
}

/// One to three bytes after the kind made another, most often a small one.
pub fn change_values(random: &mut Random, mut frames: Vec<Vec<u8>>) -> Vec<u8> {
    for _ in 0..random.within(1..=3) {
        let number = random.below(frames.len());
        let frame = &mut frames[number];
        if frame.len() > 1 {
            let place = random.within(1..=frame.len() - 1);
            frame[place] = match random.below(4) {
                0 => frame[place].wrapping_add(1),
                1 => frame[place].wrapping_sub(1),
                2 => random.byte_below(20),
                _ => random.byte(),
            };
        }
    }
    text(&frames)
}
