//! The claim reader: the frame due, line by line, and refusals 9 to 13.

use compare::assembly::*;
use compare::claim::read::read;
use compare::claim::{Claim, MAX_LENGTH, NUMBERS, OTHER, ZERO};
use compare::least::greatest;
use compare::program::Program;
use compare::Refusal;

/// Seven classes; class 5 has field 1, class 6 below it all three fields; one
/// static; method 0 has one register and two instructions, method 1 two
/// registers and one.
fn small_program() -> Program {
    let methods = vec![
        main_method(1, vec![nop(), return_void()]),
        static_method(1, 2, 0, vec![return_void()]),
    ];
    whole_program(&[0, 1, 1, 1, 0, 5], &[6, 5, 6], 1, methods)
}

/// Every mask with a number of its own.
const LINES: [&str; 12] = [
    "11000040000000000000018000000000000002",
    "11000140000000000000030000000000000004",
    "110100000000000000000540000000000000060000000000000007",
    "1205010000000000000001",
    "1206000000000000000002",
    "1206010000000000000003",
    "1206020000000000000004",
    "1300c000000000000005",
    "14000000000000000006",
    "14018000000000000007",
    "15000000000000000001",
    "15010000000000000002",
];

fn text(lines: &[&str]) -> String {
    lines.iter().map(|line| format!("{line}\n")).collect()
}

fn refusal(text: &str) -> Option<(u8, u32)> {
    let answer = read(text.as_bytes(), &small_program());
    answer.err().map(|Refusal { number, line }| (number, line))
}

/// The refusal when one line, counted from 1, is another.
fn refusal_with(line: usize, other: &str) -> Option<(u8, u32)> {
    let mut lines = LINES;
    lines[line - 1] = other;
    refusal(&text(&lines))
}

#[test]
fn masks_come_from_their_lines() {
    let claim = read(text(&LINES).as_bytes(), &small_program()).unwrap();
    assert_eq!(claim.row(0, 0), [ZERO | 1, OTHER | 2]);
    assert_eq!(claim.row(0, 1), [ZERO | 3, 4]);
    assert_eq!(claim.row(1, 0), [5, ZERO | 6, 7]);
    let of_classes = [0, 1, 2].map(|field: usize| claim.fields[field][..7].to_vec());
    assert_eq!(of_classes[0], [0, 0, 0, 0, 0, 0, 2]);
    assert_eq!(of_classes[1], [0, 0, 0, 0, 0, 1, 3]);
    assert_eq!(of_classes[2], [0, 0, 0, 0, 0, 0, 4]);
    assert_eq!(claim.statics, [NUMBERS | 5]);
    assert_eq!(claim.returned, [6, OTHER | 7]);
    assert_eq!(claim.leaving, [1, 2]);
    assert_eq!(claim.text(&small_program()), text(&LINES).into_bytes());
}

#[test]
fn every_claim_reads_its_own_text() {
    let program = small_program();
    for claim in [Claim::empty(&program), greatest(&program)] {
        assert_eq!(read(&claim.text(&program), &program), Ok(claim));
    }
}

#[test]
fn length_is_9_at_line_0() {
    let mut long = text(&LINES);
    long.push_str(&"0".repeat(MAX_LENGTH + 1 - long.len()));
    assert_eq!(refusal(&long), Some((9, 0)));
    long.pop();
    assert_eq!(refusal(&long), Some((10, 13)));
}

#[test]
fn form_is_10() {
    for other in ["", "1", "11000", " ", "11 00", "1100004000000000000001800000000000000g"] {
        assert_eq!(refusal_with(1, other), Some((10, 1)), "{other}");
    }
    assert_eq!(refusal_with(8, &LINES[7].to_uppercase()), Some((10, 8)));
    assert_eq!(refusal_with(3, &format!("{}\r", LINES[2])), Some((10, 3)));
    assert_eq!(refusal_with(2, &format!("\n{}", LINES[1])), Some((10, 2)));
    assert_eq!(refusal(text(&LINES).trim_end()), Some((10, 12)));
    assert_eq!(refusal("11"), Some((10, 1)));
}

#[test]
fn unknown_kinds_are_11() {
    for kind in ["00", "01", "02", "03", "04", "05", "06", "10", "16", "ff"] {
        assert_eq!(refusal_with(1, kind), Some((11, 1)));
        assert_eq!(refusal_with(9, &format!("{kind}{}", &LINES[8][2..])), Some((11, 9)));
    }
}

#[test]
fn another_frame_is_12() {
    let good = LINES[2];
    for other in [
        "11",
        "1101",
        "110100",
        &good[..good.len() - 2],
        &good[..good.len() - 16],
        &format!("{good}00"),
        &format!("{good}0000000000000000"),
        &format!("110200{}", &good[6..]),
        &format!("110101{}", &good[6..]),
        &format!("120100{}", &good[6..]),
        LINES[1],
        LINES[3],
    ] {
        assert_eq!(refusal_with(3, other), Some((12, 3)), "{other}");
    }
}

#[test]
fn missing_and_too_many_frames_are_12() {
    assert_eq!(refusal(""), Some((12, 1)));
    for count in 0..LINES.len() {
        assert_eq!(refusal(&text(&LINES[..count])), Some((12, count as u32 + 1)));
    }
    let with = |more: &str| refusal(&format!("{}{more}", text(&LINES)));
    assert_eq!(with(""), None);
    assert_eq!(with("15020000000000000002\n"), Some((12, 13)));
    assert_eq!(with("11\n"), Some((12, 13)));
    assert_eq!(with("16\n"), Some((11, 13)));
    assert_eq!(with("\n"), Some((10, 13)));
    assert_eq!(with("11"), Some((10, 13)));
}

#[test]
fn order_is_by_method_address_class_field() {
    for line in 0..LINES.len() - 1 {
        let mut lines = LINES;
        lines.swap(line, line + 1);
        assert_eq!(refusal(&text(&lines)), Some((12, line as u32 + 1)));
    }
}

#[test]
fn bits_not_allowed_are_13() {
    let with_mask = |line: usize, mask: u64| {
        let good = LINES[line - 1];
        refusal_with(line, &format!("{}{mask:016x}", &good[..good.len() - 16]))
    };
    for line in 1..=LINES.len() {
        for bit in 7..62 {
            assert_eq!(with_mask(line, 1 << bit), Some((13, line as u32)), "bit {bit}");
        }
        assert_eq!(with_mask(line, 0b111_1111), None);
        let numbers = if line > 10 { Some((13, line as u32)) } else { None };
        assert_eq!([with_mask(line, ZERO), with_mask(line, OTHER)], [numbers; 2]);
    }
    // In a mask that is not the last of its line.
    assert_eq!(refusal_with(1, &LINES[0].replacen("4000", "4800", 1)), Some((13, 1)));
}

#[test]
fn sixty_classes_leave_bits_60_and_61() {
    let program = program(&[0; 56], &[], 0, vec![main_method(1, vec![return_void()])]);
    assert_eq!(program.classes.len(), 60);
    let claim = |bit: u32| {
        let mask: u64 = 1 << bit;
        format!("110000{mask:016x}0000000000000000\n14000000000000000000\n15000000000000000000\n")
    };
    let refused = |bit| read(claim(bit).as_bytes(), &program).err();
    assert_eq!([59, 62, 63].map(refused), [None; 3]);
    assert_eq!([60, 61].map(refused), [Some(Refusal::new(13, 1)); 2]);
}

#[test]
fn the_lowest_number_on_the_first_bad_line_counts() {
    let mut lines = LINES;
    lines[0] = "11000048000000000000018000000000000002";
    assert_eq!(refusal(&text(&lines)), Some((13, 1)));
    lines[1] = "x";
    assert_eq!(refusal(&text(&lines)), Some((13, 1)));
    lines[0] = "11000048000000000000018000000000000002ff";
    assert_eq!(refusal(&text(&lines)), Some((12, 1)));
    lines[0] = "06000048000000000000018000000000000002ff";
    assert_eq!(refusal(&text(&lines)), Some((11, 1)));
    lines[0] = "06000048000000000000018000000000000002f";
    assert_eq!(refusal(&text(&lines)), Some((10, 1)));
}
