//! The run: frames that call, return and are dropped.

use super::code::Code;
use super::execute::{at_or_below, execute, Context, Leave};
use super::state::{Cells, End, Frame, Heap, Limits, Stop};
use super::value::Value;
use crate::handlers::search;
use crate::program::Program;

/// A program and the state of its run.
#[derive(Clone, Debug)]
pub struct Machine {
    pub code: Code,
    /// The open frames, bottom first.
    pub frames: Vec<Frame>,
    pub max_frames: usize,
    pub heap: Heap,
    /// An object thrown or raised that no handler has taken yet.
    pub pending: Option<u32>,
    pub end: Option<End>,
    /// Steps made so far.
    pub steps: u64,
}

/// The state after `steps` steps, which no limit stops. After an end it stays
/// as the end left it.
pub fn run_after(program: &Program, steps: u64) -> Machine {
    let mut machine = Machine::new(program, Limits::NONE);
    machine.run(steps);
    machine
}

impl Machine {
    /// One frame, of method 0 at address 0.
    pub fn new(program: &Program, limits: Limits) -> Machine {
        Machine {
            code: Code::new(program),
            frames: vec![Frame::new(0)],
            max_frames: limits.frames,
            heap: Heap { objects: vec![], max_objects: limits.objects, statics: Cells::ZERO },
            pending: None,
            end: None,
            steps: 0,
        }
    }

    /// Goes on until `n` steps have been made in all, the run ends, or a step
    /// cannot be made.
    pub fn run(&mut self, n: u64) -> Stop {
        loop {
            let stop = match (self.end, self.pending) {
                (Some(end), _) => Some(Stop::End(end)),
                (None, Some(object)) => self.unwind(object, n),
                (None, None) => self.run_frame(n),
            };
            if let Some(stop) = stop {
                return stop;
            }
        }
    }

    /// Whether the top frame has an address outside its method.
    fn outside(&self) -> bool {
        let length = |frame: &Frame| self.code.methods[usize::from(frame.method)].ops.len();
        self.frames.last().is_none_or(|frame| usize::from(frame.address) >= length(frame))
    }

    /// One step with an object pending.
    fn unwind(&mut self, object: u32, n: u64) -> Option<Stop> {
        if self.steps >= n {
            return Some(Stop::StepsMade);
        }
        if self.outside() {
            return Some(Stop::AddressOutside);
        }
        self.steps += 1;
        let frame = self.frames.last_mut()?;
        let handlers = &self.code.methods[usize::from(frame.method)].handlers;
        let taken = search(handlers.iter(), |handler| {
            handler.covers(frame.address)
                && at_or_below(&self.code, &self.heap, object, handler.class)
        });
        if let Some(number) = taken {
            frame.result = Value::Object(object);
            frame.address = handlers[number].target;
            self.pending = None;
        } else {
            self.frames.pop();
            if self.frames.is_empty() {
                self.end = Some(End::Uncaught);
            }
        }
        None
    }

    /// Steps of the top frame until control leaves it.
    fn run_frame(&mut self, n: u64) -> Option<Stop> {
        let frame = self.frames.last_mut()?;
        let left = n.saturating_sub(self.steps);
        let (leave, made) = stay(&self.code, frame, &mut self.heap, left);
        self.steps += made;
        match leave {
            Leave::StepsMade => return Some(Stop::StepsMade),
            Leave::AddressOutside => return Some(Stop::AddressOutside),
            Leave::ObjectsFull => return Some(Stop::ObjectsFull),
            Leave::Call { .. } if self.frames.len() >= self.max_frames => {
                return Some(Stop::FramesFull);
            }
            Leave::Call { callee, first } => self.call(callee, first),
            Leave::Return(value) => self.give_back(value),
            Leave::Throw(object) => self.pending = Some(object),
            Leave::Raise(exception) => match self.heap.make(exception as u8) {
                None => return Some(Stop::ObjectsFull),
                object => self.pending = object,
            },
            Leave::Fault(fault) => self.end = Some(End::Fault(fault)),
        }
        self.steps += 1;
        None
    }

    fn call(&mut self, callee: u8, first: u8) {
        let body = &self.code.methods[usize::from(callee)];
        self.frames.push(Frame::new(callee));
        if let [.., caller, frame] = &mut self.frames[..] {
            for argument in 0..body.arguments {
                frame.registers[body.parameters + argument] = caller.registers[first + argument];
            }
        }
    }

    fn give_back(&mut self, value: Value) {
        self.frames.truncate(self.frames.len() - 1);
        match self.frames.last_mut() {
            None => self.end = Some(End::Done),
            Some(caller) => {
                caller.result = value;
                caller.address += 1;
            }
        }
    }
}

/// Steps that stay in the frame, at most `left`: why no more, and their
/// number. The frame is left at the instruction that did not stay.
fn stay(code: &Code, frame: &mut Frame, heap: &mut Heap, left: u64) -> (Leave, u64) {
    let ops = &code.methods[usize::from(frame.method)].ops[..];
    let mut address = frame.address;
    let mut rest = left;
    let mut context = Context { code, frame, heap };
    let leave = loop {
        if rest == 0 {
            break Leave::StepsMade;
        }
        let Some(&op) = ops.get(usize::from(address)) else {
            break Leave::AddressOutside;
        };
        match execute(&mut context, op, address) {
            Ok(next) => address = next,
            Err(leave) => break leave,
        }
        rest -= 1;
    };
    frame.address = address;
    (leave, left - rest)
}
