//! The stepper: makes steps of a program's run in lent memory.
//!
//! A read program is decoded ([`code`]) and run in structures of its own
//! ([`run`], with [`state`] and [`execute`]); the state reached is then laid
//! into the lent memory, in words ([`layout`]) or in structs of C
//! ([`structs`]). [`moment`] tells what a step did, and [`fate`] what becomes of
//! exceptions.

pub mod arithmetic;
pub mod code;
pub mod execute;
pub mod fate;
pub mod layout;
pub mod moment;
pub mod run;
pub mod state;
pub mod structs;
pub mod value;

use crate::reader;
use crate::Refusal;
use layout::Memory;
use run::Machine;
use state::{End, Limits, Stop};
use structs::Structs;

/// The most steps that one call makes.
pub const MAX_STEPS: u64 = 1_000_000;

#[derive(Clone, Copy, Debug, PartialEq, Eq)]
pub enum Answer {
    /// 1 to 6 for the text, 23 for too little memory; nothing was touched.
    Refused(Refusal),
    Started(Report),
}

/// What is said of the state left.
#[derive(Clone, Copy, Debug, PartialEq, Eq)]
pub struct Report {
    pub number: u8,
    pub steps: u64,
    pub pending: Option<u32>,
    /// Open frames.
    pub frames: usize,
    pub objects: usize,
}

impl Answer {
    /// Number, steps or line, pending object plus one or 0, open frames,
    /// objects.
    pub fn words(&self) -> [u64; 5] {
        match *self {
            Answer::Refused(refusal) => refusal.words(),
            Answer::Started(Report { number, steps, pending, frames, objects }) => {
                let pending = pending.map_or(0, |object| u64::from(object) + 1);
                [number.into(), steps, pending, frames as u64, objects as u64]
            }
        }
    }
}

/// Makes `n` steps of a text's run, or fewer if it ends or cannot go on.
pub fn step(
    text: &[u8],
    n: u64,
    frames: &mut [u64],
    objects: &mut [u64],
    statics: &mut [u64],
) -> Answer {
    let mut memory = Memory { frames, objects, statics };
    let enough = memory.is_enough();
    steps(text, n, enough, |machine| memory.lay(machine))
}

/// The same in memory of structs.
pub fn step_in_structs(text: &[u8], n: u64, mut memory: Structs) -> Answer {
    let enough = memory.is_enough();
    steps(text, n, enough, |machine| memory.lay(machine))
}

/// Makes the steps if the text is a program and memory is enough, and has the
/// state laid.
fn steps(text: &[u8], n: u64, enough: bool, lay: impl FnOnce(&Machine)) -> Answer {
    let program = match reader::read(text) {
        Ok(program) => program,
        Err(refusal) => return Answer::Refused(refusal),
    };
    if !enough {
        return Answer::Refused(Refusal::new(23, 0));
    }
    let mut machine = Machine::new(&program, Limits::STEPPER);
    let stop = machine.run(n.min(MAX_STEPS));
    lay(&machine);
    Answer::Started(Report {
        number: number(stop),
        steps: machine.steps,
        pending: machine.pending,
        frames: machine.frames.len(),
        objects: machine.heap.objects.len(),
    })
}

/// The number that a stop is given by.
pub fn number(stop: Stop) -> u8 {
    match stop {
        Stop::ObjectsFull => 20,
        Stop::FramesFull => 21,
        Stop::StepsMade => 22,
        Stop::AddressOutside => 24,
        Stop::End(End::Done) => 32,
        Stop::End(End::Uncaught) => 33,
        Stop::End(End::Fault(fault)) => 40 + fault as u8,
    }
}
