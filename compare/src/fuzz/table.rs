//! The table of what the cases reached.

use super::left::Expected;
use super::lengths::{Lengths, ANSWER};
use super::lines::{all, Line, Part, Size, Steps};
use super::watch::{watch, Seen};
use super::Case;
use crate::checker::{Verdict, LEAST_MEMORY};
use crate::machine::fate::Fate;
use crate::machine::structs::LEAST;
use crate::machine::{Answer, Report, MAX_STEPS};
use crate::opcode::NEW_INSTANCE;
use crate::program::NULL;
use crate::writer::{text_length, Written};
use std::collections::HashMap;

/// What was found of the claims of a case.
#[derive(Clone, Debug, Default, PartialEq, Eq)]
pub struct Found {
    /// Steps followed of an accepted claim's run.
    pub followed: Option<u64>,
    /// Calls that both checkers list of the written claim.
    pub written_calls: usize,
    /// Whether an accepted claim is the written one.
    pub is_least: Option<bool>,
}

#[derive(Default)]
pub struct Table {
    counts: HashMap<Line, u64>,
}

impl Table {
    fn add(&mut self, line: Line, count: u64) {
        *self.counts.entry(line).or_default() += count;
    }

    fn one(&mut self, line: Line) {
        self.add(line, 1);
    }

    pub fn count(&self, line: Line) -> u64 {
        self.counts.get(&line).copied().unwrap_or(0)
    }

    /// Adds a case, with what was found of its claims.
    pub fn add_case(&mut self, case: &Case, expected: &Expected, found: &Found) {
        self.one(Line::Cases);
        self.one(Line::Program(case.made[0]));
        self.one(Line::Claim(case.made[1]));
        self.one(Line::Steps(Steps::of(case.n)));
        self.one(Line::Read(expected.left.numbers[0] as u8));
        self.add_lengths(&case.lent);
        self.add_answer(case, expected);
        self.add_verdict(&expected.verdict);
        self.add_written(case, expected);
        self.add_found(found);
    }

    fn add_found(&mut self, found: &Found) {
        if let Some(steps) = found.followed {
            self.one(Line::Followed);
            self.add(Line::StepsFollowed, steps);
        }
        self.add(Line::WrittenCalls, found.written_calls as u64);
        if let Some(is_least) = found.is_least {
            self.one(Line::Least(is_least));
        }
    }

    fn add_lengths(&mut self, lent: &Lengths) {
        let parts = [
            (Part::Frames, lent.frames, LEAST[0]),
            (Part::Objects, lent.objects, LEAST[1]),
            (Part::Statics, lent.statics, LEAST[2]),
            (Part::Memory, lent.memory, LEAST_MEMORY),
            (Part::ReadAnswer, lent.read_answer, ANSWER),
            (Part::StepAnswer, lent.step_answer, ANSWER),
            (Part::CheckAnswer, lent.check_answer, ANSWER),
            (Part::WriteAnswer, lent.write_answer, ANSWER),
        ];
        for (part, length, least) in parts {
            self.one(Line::Length(part, Size::of(length, least)));
        }
    }

    fn add_answer(&mut self, case: &Case, expected: &Expected) {
        let report = match expected.answer {
            Answer::Refused(refusal) if refusal.number == 23 => {
                let lent = [case.lent.frames, case.lent.objects, case.lent.statics];
                let smaller = lent.iter().zip(LEAST).filter(|(&length, least)| length < *least);
                return self.one(Line::Short(smaller.count() > 1));
            }
            Answer::Refused(_) => return,
            Answer::Started(report) => report,
        };
        let pending = report.number == 22 && report.pending.is_some();
        self.one(Line::Stopped(report.number, pending));
        if report.steps == MAX_STEPS {
            self.one(Line::MostSteps);
        }
        if is_raising(expected, &report) && report.number == 20 {
            self.one(Line::FullRaising);
        }
        if let Some(program) = &expected.program {
            self.add_seen(&watch(program, case.n));
        }
    }

    fn add_seen(&mut self, seen: &Seen) {
        for opcode in (0..32).filter(|opcode| seen.opcodes >> opcode & 1 == 1) {
            self.one(Line::Opcode(opcode));
        }
        let events = [
            (seen.returned, Line::Returned),
            (seen.dropped, Line::Dropped),
            (seen.caught_here, Line::CaughtHere),
            (seen.caught_below, Line::CaughtBelow),
        ];
        events.into_iter().filter(|(seen, _)| *seen).for_each(|(_, line)| self.one(line));
        for (class, fates) in (NULL..).zip(seen.raised) {
            let seen = Fate::ALL.into_iter().zip(fates).filter(|(_, seen)| *seen);
            seen.for_each(|(fate, _)| self.one(Line::Raised(class, fate)));
        }
    }

    fn add_verdict(&mut self, verdict: &Verdict) {
        match *verdict {
            Verdict::Violated(violation) => self.one(Line::Violated(violation.rule)),
            Verdict::Refused(refusal) => self.one(Line::Refused(refusal.number)),
            Verdict::Accepted(count) => {
                self.one(Line::Accepted);
                self.add(Line::Calls, count as u64);
                self.at_least(Line::LongestList, count as u64);
            }
        }
    }

    fn add_written(&mut self, case: &Case, expected: &Expected) {
        match expected.written {
            Written::Refused(refusal) => self.one(Line::Unwritten(refusal.number)),
            Written::Text(length) => {
                self.one(Line::Written);
                self.at_least(Line::LongestText, length as u64);
            }
        }
        if let Some(program) = &expected.program {
            let size = Size::of(case.lent.text, text_length(program));
            self.one(Line::Length(Part::Text, size));
        }
        if case.lent.text == 0 {
            self.one(Line::NoText(expected.program.is_some()));
        }
    }

    fn at_least(&mut self, line: Line, count: u64) {
        let most = self.counts.entry(line).or_default();
        *most = count.max(*most);
    }

    /// The names of the lines that no case reached and one could have.
    pub fn missing(&self) -> Vec<String> {
        let missing = |line: &Line| self.count(*line) == 0 && !line.is_impossible();
        all().into_iter().filter(missing).map(|line| line.name()).collect()
    }

    /// One line each, in columns.
    pub fn text(&self) -> String {
        let line = |line: Line| match self.count(line) {
            0 => format!("{:<58} {:>12}\n", line.name(), "never"),
            count => format!("{:<58} {count:>12}\n", line.name()),
        };
        all().into_iter().map(line).collect()
    }
}

/// Whether the top frame stands at another instruction than new-instance: with
/// 20 one that would raise an exception.
fn is_raising(expected: &Expected, report: &Report) -> bool {
    let frames = &expected.left.frames.lent()[..report.frames];
    let (Some(top), Some(program)) = (frames.last(), &expected.program) else {
        return false;
    };
    program.methods[top.method as usize].code[top.address as usize].o != NEW_INSTANCE
}
