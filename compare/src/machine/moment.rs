//! What a step did, told from the state before it and the one after.

use super::run::Machine;

/// What is remembered of a state, that of a run with an open frame.
#[derive(Clone, Copy, Debug)]
pub struct Moment {
    /// Method and address of the top frame.
    pub method: u8,
    pub address: u8,
    pub pending: Option<u32>,
    frames: usize,
    objects: usize,
    steps: u64,
}

impl Moment {
    /// None if no frame is open.
    pub fn of(machine: &Machine) -> Option<Moment> {
        machine.frames.last().map(|top| Moment {
            method: top.method,
            address: top.address,
            pending: machine.pending,
            frames: machine.frames.len(),
            objects: machine.heap.objects.len(),
            steps: machine.steps,
        })
    }

    /// Whether the step executed the instruction at the address.
    pub fn executed(&self, after: &Machine) -> bool {
        self.pending.is_none() && after.steps > self.steps
    }

    /// The class of the object that the instruction raised: one that the step
    /// made and left pending.
    pub fn raised(&self, after: &Machine) -> Option<u8> {
        let object = after.pending.filter(|_| after.heap.objects.len() > self.objects)?;
        Some(after.heap.class(object) as u8)
    }

    /// The call that the step made: caller, address, callee.
    pub fn call(&self, after: &Machine) -> Option<[u8; 3]> {
        let callee = after.frames.last().filter(|_| after.frames.len() > self.frames)?;
        Some([self.method, self.address, callee.method])
    }

    /// Whether the step closed a frame.
    pub fn closed(&self, after: &Machine) -> bool {
        after.frames.len() < self.frames
    }

    /// The object that left the method, if the step dropped its frame.
    pub fn left(&self, after: &Machine) -> Option<u32> {
        self.pending.filter(|_| self.closed(after))
    }

    /// Whether a handler took the pending object.
    pub fn caught(&self, after: &Machine) -> bool {
        self.pending.is_some() && after.pending.is_none()
    }
}

#[cfg(test)]
mod tests {
    use super::*;
    use crate::assembly::*;
    use crate::machine::state::Limits;
    use crate::program::{Handler, ARITHMETIC};

    /// Method 0 calls 1, which throws and, in its handler, divides by zero; 0
    /// catches that and returns.
    #[test]
    fn each_kind_of_step_is_told() {
        let main = main_method(1, vec![invoke_static(1, 0, 0), return_void()]);
        let callee = vec![new_instance(0, 1), throw(0), binop(DIV, 1, 1, 1), goto(2)];
        let callee = static_method(1, 2, 0, callee).with_handlers(vec![Handler::new(1, 2, 2, 1)]);
        let methods = vec![main.with_handlers(vec![Handler::new(0, 1, 1, 1)]), callee];
        let mut machine = Machine::new(&program(&[0], &[], 0, methods), Limits::NONE);
        let mut told = Vec::new();
        while let Some(before) = Moment::of(&machine) {
            let n = machine.steps + 1;
            machine.run(n);
            let flags =
                [before.executed(&machine), before.closed(&machine), before.caught(&machine)];
            let (call, left) = (before.call(&machine), before.left(&machine));
            told.push((flags, call, before.raised(&machine), left));
        }
        let [executes, closes, drops, catches] =
            [[1, 0, 0], [1, 1, 0], [0, 1, 0], [0, 0, 1]].map(|flags| flags.map(|flag| flag == 1));
        let expected = [
            (executes, Some([0, 0, 1]), None, None),
            (executes, None, None, None),
            (executes, None, None, None),
            (catches, None, None, None),
            (executes, None, Some(ARITHMETIC), None),
            (drops, None, None, Some(1)),
            (catches, None, None, None),
            (closes, None, None, None),
        ];
        assert_eq!(told, expected);
    }
}
