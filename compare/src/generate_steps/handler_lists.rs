//! Lists of up to eight handlers: the first line that fits takes the object,
//! and each line's target is another one.

use super::Case;
use crate::catching::*;
use crate::machine::run::run_after;
use crate::machine::value::Value;
use crate::program::Program;

pub fn cases() -> Vec<Case> {
    [patterns(), callers(), returned(), classes(), addresses()].concat()
}

/// Enough steps to stand still at a target, or to end.
const STEPS: u64 = 40;

/// A run whose top frame, by method and address, stands still there; or one
/// that nobody catches.
fn standing(program: &Program, at: Option<(u8, u8)>) -> Case {
    let machine = run_after(program, STEPS);
    let top = machine.frames.last().map(|frame| (frame.method, frame.address));
    assert_eq!(top, at, "{}", String::from_utf8_lossy(&program.text()));
    Case::of(program, STEPS).giving(if at.is_some() { 22 } else { 33 })
}

/// Lines that all fit, those before the first that does, those after it, and
/// none.
fn patterns() -> Vec<Case> {
    let all = "xxxxxxxx";
    let none = "........";
    let mut patterns: Vec<String> = (0..=8).map(|count| all[..count].to_string()).collect();
    patterns.extend((1..=8).map(|first| none[..first].to_string() + &all[first..]));
    patterns.extend(["x.......", "...x....", ".x..x..x", ".x.x", "..xx.", "..."].map(String::from));
    let case =
        |pattern: &String| standing(&frames(&[pattern]), taken(pattern).map(|target| (0, target)));
    patterns.iter().map(case).collect()
}

/// Several frames, each with lines of its own.
fn callers() -> Vec<Case> {
    let all: [&[&str]; 8] = [
        &["xxxxxxxx", ""],
        &["..xx", "........"],
        &["......xx", "..."],
        &["xxx", ".xx"],
        &["x.x", "....x"],
        &["........", "....."],
        &[".x.x", "", "..."],
        &["xx", ".xx", "."],
    ];
    all.map(|patterns| standing(&frames(patterns), taken_in(patterns))).to_vec()
}

/// Runs that are done, with the line in a static.
fn returned() -> Vec<Case> {
    let case = |(pattern, line): (&str, i32)| {
        let program = returning(pattern);
        let statics = run_after(&program, STEPS).heap.statics;
        assert_eq!(statics[0], Value::Number(10 + line));
        Case::of(&program, STEPS).giving(32)
    };
    [("xxxxxx", 0), ("..x.x", 2), ("......xx", 6)].map(case).to_vec()
}

/// Classes one below the other, in several orders.
fn classes() -> Vec<Case> {
    let mut cases = Vec::new();
    for order in ORDERS {
        for &(class, line) in order.taken {
            let program = of(vec![throwing(0, class, lines_of_classes(order.lines))]);
            cases.push(standing(&program, Some((0, target(order.lines.len(), line)))));
        }
    }
    cases
}

/// Ranges one in the other, side by side and overlapping.
fn addresses() -> Vec<Case> {
    let mut cases = Vec::new();
    for ranges in RANGES {
        for &(at, line) in ranges.taken {
            let program = of(vec![raising(0, at..at + 1, ranges.lines)]);
            let target = raising_target(ranges.lines.len(), line);
            cases.push(standing(&program, Some((0, target))));
        }
    }
    cases
}
