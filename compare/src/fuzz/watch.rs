//! What a run reaches, seen one step at a time.

use crate::coverage::instruction;
use crate::machine::fate::{Exceptions, Fate};
use crate::machine::moment::Moment;
use crate::machine::run::Machine;
use crate::machine::state::{Limits, Stop};
use crate::program::{Program, NULL};

/// So many steps of a run are watched.
pub const WATCHED: u64 = 512;

#[derive(Clone, Copy, Debug, Default, PartialEq, Eq)]
pub struct Seen {
    /// A bit for each opcode that was executed.
    pub opcodes: u32,
    /// A frame was closed by a return to its caller, or dropped by an
    /// exception.
    pub returned: bool,
    pub dropped: bool,
    /// A handler took an object in the frame that threw or raised it, or below.
    pub caught_here: bool,
    pub caught_below: bool,
    /// For each of classes 2 to 4 the fates of what was raised.
    pub raised: [[bool; Fate::ALL.len()]; 3],
}

/// The first steps of a run, at most `n`.
pub fn watch(program: &Program, n: u64) -> Seen {
    let mut seen = Seen::default();
    let mut machine = Machine::new(program, Limits::STEPPER);
    let mut exceptions = Exceptions::default();
    let most = n.min(WATCHED);
    while let Some(before) = Moment::of(&machine).filter(|_| machine.steps < most) {
        let stop = machine.run(machine.steps + 1);
        if before.executed(&machine) {
            seen.opcodes |= 1 << instruction(program, &before).o;
            seen.returned |= before.closed(&machine) && !machine.frames.is_empty();
        }
        seen.dropped |= before.left(&machine).is_some();
        if let Some((fate, raised)) = exceptions.step(&before, &machine) {
            seen.caught_here |= fate == Fate::CaughtHere;
            seen.caught_below |= fate == Fate::CaughtBelow;
            if let Some(class) = raised {
                seen.raised[usize::from(class - NULL)][fate as usize] = true;
            }
        }
        if stop != Stop::StepsMade {
            break;
        }
    }
    seen
}

#[cfg(test)]
mod tests {
    use super::*;
    use crate::assembly::*;
    use crate::opcode::*;
    use crate::program::Handler;

    /// A throw that is caught where it is thrown, one in a callee, and a call
    /// that returns.
    fn throwing() -> Program {
        let main = vec![
            new_instance(0, 1),
            throw(0),
            invoke_static(1, 1, 0),
            invoke_static(2, 0, 0),
            return_void(),
        ];
        let handlers = vec![Handler::new(1, 2, 2, 1), Handler::new(2, 3, 3, 1)];
        let methods = vec![
            main_method(1, main).with_handlers(handlers),
            static_method(1, 1, 1, vec![throw(0)]),
            static_method(2, 1, 0, vec![return_void()]),
        ];
        program(&[0], &[], 0, methods)
    }

    #[test]
    fn handlers_are_told_apart() {
        let all = watch(&throwing(), 100);
        let opcodes = 1 << NEW_INSTANCE | 1 << THROW | 1 << INVOKE_STATIC | 1 << RETURN_VOID;
        assert_eq!(all.opcodes, opcodes);
        assert!(all.returned && all.dropped && all.caught_here && all.caught_below);
        let some = watch(&throwing(), 4);
        assert!(some.caught_here && !some.caught_below && !some.dropped && !some.returned);
        assert_eq!(watch(&throwing(), 0), Seen::default());
    }
}
