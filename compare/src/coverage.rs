//! What the cases for the stepper reach, counted in cases.

use crate::generate_steps::Case;
use crate::machine::fate::{Exceptions, Fate};
use crate::machine::moment::Moment;
use crate::machine::run::Machine;
use crate::machine::state::{Limits, Stop};
use crate::machine::{self, MAX_STEPS};
use crate::opcode::*;
use crate::program::{Instruction, Program, ARITHMETIC, CAST, NULL};
use crate::reader::read;
use std::collections::{BTreeMap, BTreeSet};

/// The number of cases that reach each thing.
#[derive(Default)]
pub struct Coverage {
    pub reached: BTreeMap<String, usize>,
    pub steps: u64,
}

/// The names of everything that is to be reached.
pub fn wanted() -> Vec<String> {
    let mut names = vec![];
    let ends = [20, 21, 22, 23, 32, 33, 42, 43, 45, 46, 47];
    names.extend((1..=6).chain(ends).map(|number| format!("number {number}")));
    names.extend((0..=0x14).map(|o| format!("opcode {o:02x}")));
    names.extend((0..11).map(|d| format!("binop {d:02}")));
    names.extend((0..2).map(|c| format!("unop {c}")));
    for condition in 0..12 {
        names.extend(["left", "taken"].map(|way| format!("if {condition:02} {way}")));
    }
    for o in [IGET, IPUT, INVOKE_VIRTUAL, THROW, BINOP, CHECK_CAST] {
        names.extend(["raised", "20"].map(|what| format!("{what} by opcode {o:02x}")));
    }
    for class in [NULL, ARITHMETIC, CAST] {
        names.extend(Fate::ALL.map(|fate| fate_name(class, fate)));
    }
    let pending = ["caught", "dropped frame", "22 with an object pending"];
    names.extend(pending.map(String::from));
    names
}

impl Coverage {
    pub fn add(&mut self, case: &Case, number: u8) {
        let mut reached = BTreeSet::from([format!("number {number}")]);
        if let (Ok(program), true) = (read(&case.text), number >= 20 && number != 23) {
            let stop = self.follow(&program, case.n.min(MAX_STEPS), &mut reached);
            assert_eq!(machine::number(stop), number, "one step at a time");
        }
        for name in reached {
            *self.reached.entry(name).or_default() += 1;
        }
    }

    /// Makes the run again, one step at a time.
    fn follow(&mut self, program: &Program, n: u64, reached: &mut BTreeSet<String>) -> Stop {
        let mut machine = Machine::new(program, Limits::STEPPER);
        let mut kinds = BTreeSet::new();
        let mut exceptions = Exceptions::default();
        let stop = loop {
            let before = Moment::of(&machine);
            let stop = machine.run(n.min(machine.steps + 1));
            if let Some(before) = before {
                if before.executed(&machine) {
                    let i = instruction(program, &before);
                    let next = top_address(&machine) == Some(before.address + 1);
                    let way = machine.end.is_none().then_some(if next { "left" } else { "taken" });
                    kinds.insert((i.o, i.c, i.d as u8, way));
                    let raised = before.raised(&machine).map(|_| i.o);
                    reached.extend(raised.map(|o| format!("raised by opcode {o:02x}")));
                }
                if let Some((fate, Some(class))) = exceptions.step(&before, &machine) {
                    reached.insert(fate_name(class, fate));
                }
                let caught = before.caught(&machine).then_some("caught");
                let dropped = before.left(&machine).map(|_| "dropped frame");
                reached.extend(caught.or(dropped).map(String::from));
            }
            if stop != Stop::StepsMade || machine.steps >= n {
                break stop;
            }
        };
        if let (Stop::ObjectsFull, Some(top)) = (stop, Moment::of(&machine)) {
            reached.insert(format!("20 by opcode {:02x}", instruction(program, &top).o));
        }
        if machine.end.is_none() && machine.pending.is_some() {
            reached.insert("22 with an object pending".to_string());
        }
        self.steps += machine.steps;
        reached.extend(kinds.into_iter().flat_map(|(o, c, d, way)| names(o, c, d, way)));
        stop
    }
}

fn fate_name(class: u8, fate: Fate) -> String {
    format!("class {class} {}", fate.name())
}

/// The names of an instruction; `way` is how a branch went, without fault.
fn names(o: u8, c: u8, d: u8, way: Option<&str>) -> Vec<String> {
    let mut names = vec![format!("opcode {o:02x}")];
    match o {
        BINOP => names.push(format!("binop {d:02}")),
        UNOP => names.push(format!("unop {c}")),
        IF => names.extend(way.map(|way| format!("if {c:02} {way}"))),
        _ => {}
    }
    names
}

fn top_address(machine: &Machine) -> Option<u8> {
    machine.frames.last().map(|frame| frame.address)
}

/// The instruction of the top frame, whose address lies in its method.
pub fn instruction(program: &Program, moment: &Moment) -> Instruction {
    program.methods[usize::from(moment.method)].code[usize::from(moment.address)]
}
