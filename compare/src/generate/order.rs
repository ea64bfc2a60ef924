//! The order and the counts of frames: refusal 4.

use super::build::flat_superclass;
use super::Case;
use crate::frame::{text, CLASS, FIELD, HANDLER, INSTRUCTION, METHOD, STATIC};
use crate::opcode::RETURN_VOID;

const KINDS: [u8; 6] = [CLASS, FIELD, STATIC, METHOD, HANDLER, INSTRUCTION];

/// Classes that there must be.
const LEAST_CLASSES: usize = 5;

/// Beginnings that can stand, as the digits of the kinds.
const BEGINNINGS: [&str; 17] = [
    "", "1", "11", "111", "1111", "c", "c2", "c3", "c23", "c4", "c234", "c46", "c465", "c4664",
    "c46646", "c465465", "c4654",
];

pub fn cases() -> Vec<Case> {
    let mut texts: Vec<Vec<u8>> = Vec::new();
    texts.extend(pairs());
    texts.extend(all_after("1111", 2));
    texts.extend(all_after("c", 2));
    texts.extend(all_after("c46", 3));
    texts.extend(class_counts());
    texts.extend(counts());
    texts.extend(method_counts());
    texts.iter().map(|kinds| case(kinds)).collect()
}

/// The kinds written as digits, and `c` for as many classes as there must be.
fn kinds(digits: &str) -> Vec<u8> {
    let kinds = |digit| match digit {
        b'c' => vec![CLASS; LEAST_CLASSES],
        _ => vec![digit - b'0'],
    };
    digits.bytes().flat_map(kinds).collect()
}

/// Each beginning, each kind after it, and then nothing, a method with code,
/// or the kind again.
fn pairs() -> Vec<Vec<u8>> {
    let mut texts = Vec::new();
    for beginning in BEGINNINGS {
        texts.push(kinds(beginning));
        for kind in KINDS {
            let next = [kinds(beginning), vec![kind]].concat();
            texts.push([&next[..], &[METHOD, INSTRUCTION]].concat());
            texts.push([&next[..], &[kind, INSTRUCTION]].concat());
            texts.push(next);
        }
    }
    texts
}

/// The beginning with every row of `length` kinds after it.
fn all_after(beginning: &str, length: u32) -> Vec<Vec<u8>> {
    (0..6usize.pow(length))
        .map(|number| {
            let row = (0..length).map(|place| KINDS[number / 6usize.pow(place) % 6]);
            kinds(beginning).into_iter().chain(row).collect()
        })
        .collect()
}

/// Too few and too many classes before each kind that may follow them.
fn class_counts() -> Vec<Vec<u8>> {
    let mut texts = Vec::new();
    for count in [0, 1, 2, 3, 4, 5, 6, 59, 60, 61, 62] {
        let classes = vec![CLASS; count];
        texts.push(classes.clone());
        for rest in ["46", "246", "346", "2346", "6", "5"] {
            texts.push([classes.clone(), kinds(rest)].concat());
        }
    }
    texts.push(vec![CLASS; 300]);
    texts
}

/// Fields, statics, instructions and handlers around their limits, in texts
/// that end there and in texts that go on.
fn counts() -> Vec<Vec<u8>> {
    let mut texts = Vec::new();
    for (kind, limit, before, after) in [
        (FIELD, 16, "c", "46"),
        (FIELD, 16, "c", "346"),
        (STATIC, 16, "c", "46"),
        (STATIC, 16, "c2", "46"),
        (INSTRUCTION, 32, "c4", ""),
        (INSTRUCTION, 32, "c4", "546"),
        (INSTRUCTION, 32, "c4654", "5"),
        (INSTRUCTION, 32, "c4654", "46"),
        (HANDLER, 8, "c46", ""),
        (HANDLER, 8, "c466", "46"),
        (HANDLER, 8, "c46466", ""),
        (HANDLER, 8, "c465466", "465"),
    ] {
        for count in [0, 1, limit - 1, limit, limit + 1, limit + 2] {
            texts.push([kinds(before), vec![kind; count], kinds(after)].concat());
        }
    }
    texts.push([kinds("c"), vec![STATIC; 257], kinds("46")].concat());
    texts.push([kinds("c"), vec![FIELD; 257], kinds("46")].concat());
    texts.push([kinds("c46"), vec![HANDLER; 257]].concat());
    texts
}

/// Methods around their limit, with different bodies and endings.
fn method_counts() -> Vec<Vec<u8>> {
    let mut texts = Vec::new();
    for body in ["46", "465", "466"] {
        for count in [0, 1, 2, 15, 16, 17, 18] {
            for after in ["", "4", "6", "5"] {
                texts.push([kinds("c"), kinds(body).repeat(count), kinds(after)].concat());
            }
        }
    }
    texts
}

/// The text of these kinds: every frame has allowed values wherever it may
/// stand, so that only its place can be refused.
fn case(kinds: &[u8]) -> Case {
    let mut methods = 0;
    let frames: Vec<Vec<u8>> = kinds
        .iter()
        .enumerate()
        .map(|(index, &kind)| match kind {
            CLASS => vec![CLASS, flat_superclass(index)],
            FIELD => vec![FIELD, 1],
            STATIC => vec![STATIC],
            METHOD => {
                methods += 1;
                vec![METHOD, 0, methods, 1, 1, 0]
            }
            HANDLER => vec![HANDLER, 0, 1, 0, 1],
            _ => vec![INSTRUCTION, RETURN_VOID, 0, 0, 0, 0, 0, 0, 0],
        })
        .collect();
    match first_misplaced(kinds) {
        None => Case::read(text(&frames)),
        Some(index) => Case::refused(text(&frames), 4, index as u32 + 1),
    }
}

/// The place of the first kind that cannot stand where it does, by the kind
/// before it and the number of these; the length if one is missing at the end.
fn first_misplaced(kinds: &[u8]) -> Option<usize> {
    let mut before = 0;
    let mut run = 0;
    let mut methods = 0;
    for (index, &kind) in kinds.iter().enumerate() {
        let stands = match (before, kind) {
            (0, CLASS) => true,
            (CLASS, CLASS) => run < 60,
            (CLASS, FIELD | STATIC | METHOD) => run >= LEAST_CLASSES,
            (FIELD, FIELD) | (STATIC, STATIC) => run < 16,
            (FIELD, STATIC | METHOD) | (STATIC, METHOD) => true,
            (METHOD, INSTRUCTION) | (INSTRUCTION, HANDLER) => true,
            (INSTRUCTION, INSTRUCTION) => run < 32,
            (HANDLER, HANDLER) => run < 8,
            (INSTRUCTION | HANDLER, METHOD) => methods < 16,
            _ => false,
        };
        if !stands {
            return Some(index);
        }
        run = if kind == before { run + 1 } else { 1 };
        methods += usize::from(kind == METHOD);
        before = kind;
    }
    match before {
        INSTRUCTION | HANDLER => None,
        _ => Some(kinds.len()),
    }
}
