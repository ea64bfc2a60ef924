//! The names of the table's lines.

use super::lines::{Line, Part, Size, Steps};

impl Line {
    pub fn name(self) -> String {
        match self {
            Line::Cases => "cases".to_string(),
            Line::Program(way) => format!("program {way}"),
            Line::Claim(way) => format!("claim {way}"),
            Line::Steps(steps) => format!("n {}", steps.name()),
            Line::Length(part, size) => format!("{} {}", part.name(), size.name()),
            Line::Read(0) => "reader: read".to_string(),
            Line::Read(number) => format!("reader: {number}"),
            Line::Short(false) => "stepper: 23, one length".to_string(),
            Line::Short(true) => "stepper: 23, several lengths".to_string(),
            Line::Stopped(number, pending) => format!("stepper: {}", stopped(number, pending)),
            Line::MostSteps => "stepper: 1,000,000 steps made".to_string(),
            Line::Opcode(o) => format!("opcode {o:02x} executed, runs"),
            Line::Returned => "frames popped by a return to a caller, runs".to_string(),
            Line::Dropped => "frames dropped by an exception, runs".to_string(),
            Line::CaughtHere => "handler taken in the frame of the exception, runs".to_string(),
            Line::CaughtBelow => "handler taken across frames, runs".to_string(),
            Line::Raised(class, fate) => format!("class {class} raised, {}, runs", fate.name()),
            Line::FullRaising => "stepper: 20 where an exception would be raised".to_string(),
            Line::Refused(number) => format!("checker: {number}"),
            Line::Violated(rule) => format!("checker: violated, rule {rule}"),
            Line::Accepted => "checker: accepted".to_string(),
            Line::Calls => "calls in lists".to_string(),
            Line::LongestList => "calls in the longest list".to_string(),
            Line::Followed => "accepted claims followed".to_string(),
            Line::StepsFollowed => "steps followed in masks and lists".to_string(),
            Line::Unwritten(number) => format!("writer: {number}"),
            Line::NoText(false) => "writer: no memory, the program is refused".to_string(),
            Line::NoText(true) => "writer: no memory, the program is read".to_string(),
            Line::Written => "writer: written, accepted by both checkers".to_string(),
            Line::LongestText => "bytes of the longest text written".to_string(),
            Line::WrittenCalls => "calls in lists of written claims".to_string(),
            Line::Least(true) => "accepted claims that are the written one".to_string(),
            Line::Least(false) => "accepted claims above the written one".to_string(),
        }
    }
}

fn stopped(number: u8, pending: bool) -> String {
    match (number, pending) {
        (22, true) => "22, an object pending".to_string(),
        (22, false) => "22, none pending".to_string(),
        (24, _) => "24 (no program that is read gives it)".to_string(),
        (32, _) => "32, done".to_string(),
        (33, _) => "33, uncaught".to_string(),
        (41.., _) => format!("{number}, fault {}", number - 40),
        _ => number.to_string(),
    }
}

impl Steps {
    fn name(self) -> &'static str {
        match self {
            Steps::Zero => "= 0",
            Steps::One => "= 1",
            Steps::Two => "= 2",
            Steps::Few => "from 3 to 9,999",
            Steps::Many => "from 10,000 to 999,999",
            Steps::Most => "= 1,000,000",
            Steps::Above => "above 1,000,000, below 2^63",
            Steps::Highest => "2^63 and above",
        }
    }
}

impl Part {
    fn name(self) -> &'static str {
        match self {
            Part::Frames => "frames lent:",
            Part::Objects => "objects lent:",
            Part::Statics => "statics lent:",
            Part::Memory => "memory of the checker lent:",
            Part::Text => "memory of the writer lent:",
            Part::ReadAnswer => "answer of the reader lent:",
            Part::StepAnswer => "answer of the stepper lent:",
            Part::CheckAnswer => "answer of the checker lent:",
            Part::WriteAnswer => "answer of the writer lent:",
        }
    }
}

impl Size {
    fn name(self) -> &'static str {
        match self {
            Size::Smaller => "smaller",
            Size::Exact => "exact",
            Size::Larger => "larger",
        }
    }
}
