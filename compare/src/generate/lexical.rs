//! Faults of length, line and frame: refusals 1, 2 and 3.

use super::build::{every_kind, smallest};
use super::Case;
use crate::frame::{line, text};

/// Bytes that are no digit; most lie next to one, or are one in other texts.
const NO_DIGITS: [u8; 14] =
    [b'A', b'F', b'G', b'g', b'`', b'/', b':', b'@', b' ', b'\t', b'\r', 0x00, 0x80, 0xff];

/// Kinds that no frame of a program has; some are a claim's.
const NO_KINDS: [u8; 12] = [0x00, 0x07, 0x08, 0x0f, 0x10, 0x11, 0x15, 0x40, 0x60, 0x80, 0xf6, 0xff];

pub fn cases() -> Vec<Case> {
    [lengths(), bytes(), digit_counts(), line_ends(), kinds(), frame_lengths(), long_lines()]
        .concat()
}

/// The lines of a program with all kinds of frames, line ends included.
fn lines() -> Vec<Vec<u8>> {
    every_kind().frames().iter().map(|frame| line(frame)).collect()
}

/// The text with one line (from 1) replaced.
fn replaced(number: usize, by: Vec<u8>) -> Vec<u8> {
    let mut lines = lines();
    lines[number - 1] = by;
    lines.concat()
}

/// A line of this many zeros.
fn zeros(digits: usize) -> Vec<u8> {
    let mut line = vec![b'0'; digits];
    line.push(b'\n');
    line
}

/// Texts of 65,536 bytes and more. The longest program is far shorter.
fn lengths() -> Vec<Case> {
    let program = smallest().text();
    let filled = |length: usize| {
        let fill = zeros(length - program.len() - 1);
        [program.clone(), fill].concat()
    };
    let classes = |length: usize| {
        let mut text = b"01ff\n".to_vec();
        text.extend(b"0100\n".iter().cycle().take(length - text.len()));
        text
    };
    vec![
        Case::refused([b"01ff\n".to_vec(), zeros(65_530)].concat(), 3, 2),
        Case::refused(classes(65_536), 4, 61),
        Case::refused(classes(65_537), 1, 0),
        Case::refused(filled(65_537), 1, 0),
        Case::refused(vec![b'\n'; 65_537], 1, 0),
        Case::refused(vec![0xff; 65_538], 1, 0),
        // Its length is the program's if only 16 bits are kept.
        Case::refused(filled(65_536 + program.len()), 1, 0),
    ]
}

/// A byte that is no digit, in place of one or besides.
fn bytes() -> Vec<Case> {
    let mut cases = Vec::new();
    for (which, byte) in NO_DIGITS.into_iter().enumerate() {
        for number in [1, 4 + which % 11, 15] {
            let line = lines()[number - 1].clone();
            let digits = line.len() - 1;
            for place in [0, digits / 2, digits - 1] {
                let mut changed = line.clone();
                changed[place] = byte;
                cases.push(Case::refused(replaced(number, changed), 2, number as u32));
            }
            let mut longer = line.clone();
            longer.insert(digits, byte);
            cases.push(Case::refused(replaced(number, longer), 2, number as u32));
        }
        cases.push(Case::refused(vec![byte], 2, 1));
        cases.push(Case::refused(vec![byte, byte, b'\n'], 2, 1));
        cases.push(Case::refused([every_kind().text(), vec![byte]].concat(), 2, 16));
    }
    let returns: Vec<u8> =
        lines().into_iter().flat_map(|l| [&l[..l.len() - 1], b"\r\n"].concat()).collect();
    cases.push(Case::refused(returns, 2, 1));
    cases
}

/// A digit too few, a digit too many, one digit alone.
fn digit_counts() -> Vec<Case> {
    let mut cases = Vec::new();
    for (index, line) in lines().into_iter().enumerate() {
        let number = index + 1;
        let fewer = line[1..].to_vec();
        let more = [b"0", &line[..]].concat();
        for changed in [fewer, more, b"0\n".to_vec()] {
            cases.push(Case::refused(replaced(number, changed), 2, number as u32));
        }
    }
    cases
}

/// Empty lines, split lines, and texts that stop inside or right after a line.
fn line_ends() -> Vec<Case> {
    let mut cases = vec![
        Case::refused(b"\n".to_vec(), 2, 1),
        Case::refused(b"\n\n\n".to_vec(), 2, 1),
        Case::refused(b"0".to_vec(), 2, 1),
        Case::refused(b"01ff".to_vec(), 2, 1),
        Case::refused(b"07".to_vec(), 2, 1),
        Case::refused(b"01ff\n0300".to_vec(), 2, 2),
        Case::refused(b"01ff\n03".to_vec(), 2, 2),
    ];
    let text = every_kind().text();
    cases.push(Case::refused([b"\xef\xbb\xbf", &text[..]].concat(), 2, 1));
    for (index, line) in lines().into_iter().enumerate() {
        let number = index as u32 + 1;
        cases.push(Case::refused(replaced(index + 1, b"\n".to_vec()), 2, number));
        cases.push(Case::refused(replaced(index + 1, [b"\n", &line[..]].concat()), 2, number));
        cases.push(Case::refused(replaced(index + 1, [&line[..], b"\n"].concat()), 2, number + 1));
        cases.push(Case::refused(replaced(index + 1, [b"0\n", &line[1..]].concat()), 2, number));
        let start: usize = lines()[..index].iter().map(Vec::len).sum();
        for end in [start + 1, start + line.len() - 1] {
            cases.push(Case::refused(text[..end].to_vec(), 2, number));
        }
    }
    cases
}

/// Unknown kinds, as long as a known frame and as long as none.
fn kinds() -> Vec<Case> {
    let mut cases = Vec::new();
    for (which, kind) in NO_KINDS.into_iter().enumerate() {
        for number in [1, 4 + which % 11, 15] {
            for length in [1, 2, 3 + which % 7] {
                let mut frame = vec![0; length];
                frame[0] = kind;
                cases.push(Case::refused(replaced(number, line(&frame)), 3, number as u32));
            }
        }
        cases.push(Case::refused([every_kind().text(), line(&[kind])].concat(), 3, 16));
    }
    cases
}

/// Every frame with bytes missing and bytes too many.
fn frame_lengths() -> Vec<Case> {
    let frames = every_kind().frames();
    let mut cases = Vec::new();
    for index in [0, 1, 3, 5, 7, 8, 9, 10, 11, 12, 14] {
        let right = frames[index].len();
        for length in (1..right + 3).chain([right + 128, right + 256]) {
            if length != right {
                let mut changed = frames.clone();
                changed[index].resize(length, 0);
                cases.push(Case::refused(text(&changed), 3, index as u32 + 1));
            }
        }
    }
    cases
}

/// Lines longer than any frame: kind 00, an odd count, a bad byte at the end.
fn long_lines() -> Vec<Case> {
    let mut cases = Vec::new();
    for (digits, number) in [(100, 1), (256, 3), (510, 15), (512, 7), (514, 8), (3000, 10)] {
        let at = number as u32;
        cases.push(Case::refused(replaced(number, zeros(digits)), 3, at));
        cases.push(Case::refused(replaced(number, zeros(digits + 1)), 2, at));
        let mut changed = zeros(digits);
        changed[digits - 1] = b'x';
        cases.push(Case::refused(replaced(number, changed), 2, at));
    }
    cases
}
