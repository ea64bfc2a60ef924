//! Demand 3: the run of a program stays inside the masks of a claim that is
//! accepted, makes only listed calls, and exceptions leave only as claimed.

use crate::checker::CALL;
use crate::claim::{Claim, OTHER, ZERO};
use crate::machine::moment::Moment;
use crate::machine::run::Machine;
use crate::machine::state::Limits;
use crate::machine::value::Value;
use crate::program::Program;
use std::collections::HashSet;

/// A program, a claim that a checker accepted, and the call list it wrote.
pub struct Accepted {
    pub program: Program,
    pub claim: Claim,
    pub calls: HashSet<[u8; CALL]>,
}

/// The calls of a list in memory.
pub fn calls(list: &[u8]) -> HashSet<[u8; CALL]> {
    list.chunks_exact(CALL).map(|call| [call[0], call[1], call[2]]).collect()
}

impl Accepted {
    /// Follows the run for so many steps, or to its end, which no limit stops:
    /// the last state, or what lies outside.
    pub fn follow(&self, steps: u64) -> Result<Machine, String> {
        let mut machine = Machine::new(&self.program, Limits::NONE);
        self.state(&machine)?;
        while machine.steps < steps && machine.end.is_none() {
            let before = Moment::of(&machine);
            let n = machine.steps + 1;
            machine.run(n);
            let at_step = |what| format!("step {n}: {what}");
            self.state(&machine).map_err(at_step)?;
            before.map_or(Ok(()), |before| self.step(&before, &machine)).map_err(at_step)?;
        }
        Ok(machine)
    }

    /// Every value of the state lies in its mask.
    pub fn state(&self, machine: &Machine) -> Result<(), String> {
        for (number, frame) in machine.frames.iter().enumerate() {
            let row = self.claim.row(frame.method.into(), frame.address.into());
            let values = frame.registers.iter().take(row.len() - 1).chain([&frame.result]);
            if let Some(place) = outside(machine, values, row) {
                let (method, address) = (frame.method, frame.address);
                let what = if place + 1 == row.len() { "result" } else { "register" };
                return Err(format!(
                    "{what} (place {place}) of frame {number}, method {method} address {address}, \
                     lies outside its mask"
                ));
            }
        }
        for (number, object) in machine.heap.objects.iter().enumerate() {
            let class = usize::from(object.class);
            let fields = machine.code.classes[class].fields;
            let mut had = (0..self.program.fields.len()).filter(|field| fields >> field & 1 == 1);
            let lies = |field: &usize| {
                let mask = self.claim.fields[*field][class];
                lies_in(machine, object.cells[*field as u8], mask)
            };
            if let Some(field) = had.find(|field| !lies(field)) {
                return Err(format!("field {field} of object {number} lies outside its mask"));
            }
        }
        match outside(machine, machine.heap.statics.iter(), &self.claim.statics) {
            Some(place) => Err(format!("static {place} lies outside its mask")),
            None => Ok(()),
        }
    }

    /// The call that a step made is listed, and the exception that left a
    /// method is claimed.
    pub fn step(&self, before: &Moment, after: &Machine) -> Result<(), String> {
        if let Some(call) = before.call(after).filter(|call| !self.calls.contains(call)) {
            return Err(format!("the call {call:02x?} is not in the list"));
        }
        let leaving = self.claim.leaving[usize::from(before.method)];
        match before.left(after).map(|object| after.heap.class(object)) {
            Some(class) if leaving >> class & 1 == 0 => Err(format!(
                "an exception of class {class} left method {} and is not in its mask",
                before.method
            )),
            _ => Ok(()),
        }
    }
}

/// The first value that lies outside its mask, by its place.
fn outside<'v>(
    machine: &Machine,
    values: impl Iterator<Item = &'v Value>,
    masks: &[u64],
) -> Option<usize> {
    values.zip(masks).position(|(&value, &mask)| !lies_in(machine, value, mask))
}

fn lies_in(machine: &Machine, value: Value, mask: u64) -> bool {
    let bit = match value {
        Value::Number(0) => ZERO,
        Value::Number(_) => OTHER,
        Value::Object(object) => 1 << machine.heap.class(object),
    };
    mask & bit != 0
}
