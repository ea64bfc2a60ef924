//! The lines of the table, and their order.

use super::ways;
use crate::machine::fate::Fate;
use crate::machine::MAX_STEPS;
use crate::opcode;
use crate::program::{CAST, NULL};

#[derive(Clone, Copy, Debug, PartialEq, Eq, Hash)]
pub enum Line {
    Cases,
    /// How the program was made, and the claim.
    Program(&'static str),
    Claim(&'static str),
    Steps(Steps),
    Length(Part, Size),
    /// The reader's number, 0 for a program.
    Read(u8),
    /// The stepper's 23, for several lengths or for one.
    Short(bool),
    /// The stepper's other numbers, with a pending object at 22 or not.
    Stopped(u8, bool),
    MostSteps,
    Opcode(u8),
    Returned,
    Dropped,
    CaughtHere,
    CaughtBelow,
    /// What became of an object of this class that was raised.
    Raised(u8, Fate),
    /// The stepper's 20 where an exception would be raised.
    FullRaising,
    /// The checker's refusals.
    Refused(u8),
    Violated(u8),
    Accepted,
    Calls,
    LongestList,
    Followed,
    StepsFollowed,
    Written,
    /// The writer's refusals.
    Unwritten(u8),
    /// No memory for the writer, of a program that is read or refused.
    NoText(bool),
    LongestText,
    /// Calls that the checker lists of written claims.
    WrittenCalls,
    /// Accepted claims that are the written one, and that are greater.
    Least(bool),
}

#[derive(Clone, Copy, Debug, PartialEq, Eq, Hash)]
pub enum Steps {
    Zero,
    One,
    Two,
    Few,
    Many,
    Most,
    Above,
    Highest,
}

impl Steps {
    pub fn of(n: u64) -> Steps {
        match n {
            0 => Steps::Zero,
            1 => Steps::One,
            2 => Steps::Two,
            MAX_STEPS => Steps::Most,
            3..=9_999 => Steps::Few,
            10_000..=MAX_STEPS => Steps::Many,
            _ if n >> 63 == 0 => Steps::Above,
            _ => Steps::Highest,
        }
    }
}

#[derive(Clone, Copy, Debug, PartialEq, Eq, Hash)]
pub enum Part {
    Frames,
    Objects,
    Statics,
    Memory,
    Text,
    ReadAnswer,
    StepAnswer,
    CheckAnswer,
    WriteAnswer,
}

#[derive(Clone, Copy, Debug, PartialEq, Eq, Hash)]
pub enum Size {
    Smaller,
    Exact,
    Larger,
}

impl Size {
    pub fn of(length: usize, least: usize) -> Size {
        match length.cmp(&least) {
            std::cmp::Ordering::Less => Size::Smaller,
            std::cmp::Ordering::Equal => Size::Exact,
            std::cmp::Ordering::Greater => Size::Larger,
        }
    }
}

/// All lines, in the order of the table.
pub fn all() -> Vec<Line> {
    use {Line::*, Part::*};
    let mut all = vec![Cases];
    all.extend(ways::PROGRAMS.iter().map(|(way, _)| Program(way)));
    all.extend(ways::CLAIMS.iter().map(|(way, _)| Claim(way)));
    let steps = {
        use self::Steps::*;
        [Zero, One, Two, Few, Many, Most, Above, Highest]
    };
    all.extend(steps.map(Steps));
    let memory = [Frames, Objects, Statics, Memory, Text];
    let answers = [ReadAnswer, StepAnswer, CheckAnswer, WriteAnswer];
    for part in memory.into_iter().chain(answers) {
        all.extend([Size::Smaller, Size::Exact, Size::Larger].map(|size| Length(part, size)));
    }
    all.extend((0..=6).map(Read));
    all.extend([false, true].map(Short));
    let stopped = [(20, false), (21, false), (22, false), (22, true), (24, false)];
    all.extend(stopped.map(|(number, pending)| Stopped(number, pending)));
    all.extend([32, 33, 42, 43, 45, 46, 47].map(|number| Stopped(number, false)));
    all.extend([FullRaising, MostSteps]);
    all.extend((0..=opcode::LAST).map(Opcode));
    all.extend([Returned, Dropped, CaughtHere, CaughtBelow]);
    all.extend((NULL..=CAST).flat_map(|class| Fate::ALL.map(|fate| Raised(class, fate))));
    all.extend((1..=6).chain(9..=13).chain([23]).map(Refused));
    all.extend((0..=10).map(Violated));
    all.extend([Accepted, Calls, LongestList, Followed, StepsFollowed]);
    all.extend((1..=6).chain([23]).map(Unwritten));
    all.extend([false, true].map(NoText));
    all.extend([Written, LongestText, WrittenCalls, Least(true), Least(false)]);
    all
}

impl Line {
    /// Whether no case can reach it.
    pub fn is_impossible(self) -> bool {
        matches!(self, Line::Stopped(24, _))
    }
}
