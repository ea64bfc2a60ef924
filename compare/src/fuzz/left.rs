//! What the calls of a case leave: numbers, answers, memory and texts.

use super::lent::{Lent, Pattern};
use super::Case;
use crate::checker::{check, Verdict};
use crate::machine::structs::{Frame, Object, Structs, Value};
use crate::machine::{step_in_structs, Answer};
use crate::program::Program;
use crate::reader::{read, words};
use crate::writer::{write_claim, Written};

#[derive(Clone)]
pub struct Left {
    /// Given by the reader (0 for a program), the stepper, the checker and the
    /// writer.
    pub numbers: [u64; 4],
    pub frames: Lent<Frame>,
    pub objects: Lent<Object>,
    pub statics: Lent<Value>,
    /// The checker's.
    pub memory: Lent<u8>,
    /// The writer's.
    pub text: Lent<u8>,
    pub read_answer: Lent<u64>,
    pub step_answer: Lent<u64>,
    pub check_answer: Lent<u64>,
    pub write_answer: Lent<u64>,
    pub program: Lent<u8>,
    pub claim: Lent<u8>,
}

impl Left {
    /// As it is before the calls.
    pub fn before(case: &Case) -> Left {
        let pattern = Pattern::new(case.salt);
        let lent = &case.lent;
        Left {
            numbers: [u64::MAX; 4],
            frames: Lent::filled(pattern, lent.frames, 0),
            objects: Lent::filled(pattern, lent.objects, 0),
            statics: Lent::filled(pattern, lent.statics, 0),
            memory: Lent::filled(pattern, lent.memory, case.salt as usize >> 8 & 7),
            text: Lent::filled(pattern, lent.text, case.salt as usize >> 16 & 7),
            read_answer: Lent::filled(pattern, lent.read_answer, 0),
            step_answer: Lent::filled(pattern, lent.step_answer, 0),
            check_answer: Lent::filled(pattern, lent.check_answer, 0),
            write_answer: Lent::filled(pattern, lent.write_answer, 0),
            program: Lent::text(&case.program, case.salt),
            claim: Lent::text(&case.claim, case.salt),
        }
    }
}

/// What this implementation gives and leaves.
pub struct Expected {
    /// If the text is one.
    pub program: Option<Program>,
    pub answer: Answer,
    pub verdict: Verdict,
    pub written: Written,
    pub left: Left,
}

impl Expected {
    /// Makes the calls; `left` is as before them.
    pub fn of(case: &Case, mut left: Left) -> Expected {
        let program = read(left.program.lent());
        let memory = Structs {
            frames: left.frames.lent_mut(),
            objects: left.objects.lent_mut(),
            statics: left.statics.lent_mut(),
        };
        let answer = step_in_structs(left.program.lent(), case.n, memory);
        let verdict = check(left.program.lent(), left.claim.lent(), left.memory.lent_mut());
        let written = write_claim(left.program.lent(), left.text.lent_mut());
        let all = [words(&program), answer.words(), verdict.words(), written.words()];
        left.numbers = all.map(|words| words[0]);
        let Left { read_answer, step_answer, check_answer, write_answer, .. } = &mut left;
        let answers = [read_answer, step_answer, check_answer, write_answer];
        answers.into_iter().zip(all).for_each(|(answer, words)| write(answer, words));
        Expected { program: program.ok(), answer, verdict, written, left }
    }
}

/// Five words into an answer that has as many; else none is written.
fn write(answer: &mut Lent<u64>, words: [u64; 5]) {
    if let Some(first) = answer.lent_mut().first_chunk_mut() {
        *first = words;
    }
}
