//! What becomes of the exceptions of a run, told step by step.

use super::moment::Moment;
use super::run::Machine;

/// The end of an exception: a handler took it in its own frame, after frames
/// were dropped, or none did.
#[derive(Clone, Copy, Debug, PartialEq, Eq, Hash)]
pub enum Fate {
    CaughtHere,
    CaughtBelow,
    Uncaught,
}

impl Fate {
    pub const ALL: [Fate; 3] = [Fate::CaughtHere, Fate::CaughtBelow, Fate::Uncaught];

    pub fn name(self) -> &'static str {
        match self {
            Fate::CaughtHere => "caught in its frame",
            Fate::CaughtBelow => "caught across frames",
            Fate::Uncaught => "uncaught",
        }
    }
}

/// The exception that is pending, if one is.
#[derive(Default)]
pub struct Exceptions {
    /// Its class, if an instruction raised it and it was not thrown.
    raised: Option<u8>,
    /// Whether it dropped a frame.
    dropped: bool,
}

impl Exceptions {
    /// Takes in a step: the fate of the exception that it ended, and the
    /// exception's class if it was raised.
    pub fn step(&mut self, before: &Moment, after: &Machine) -> Option<(Fate, Option<u8>)> {
        if before.executed(after) {
            *self = Exceptions { raised: before.raised(after), dropped: false };
        }
        if before.caught(after) {
            let fate = if self.dropped { Fate::CaughtBelow } else { Fate::CaughtHere };
            return Some((fate, self.raised));
        }
        self.dropped |= before.left(after).is_some();
        let uncaught = self.dropped && after.frames.is_empty();
        uncaught.then_some((Fate::Uncaught, self.raised))
    }
}

#[cfg(test)]
mod tests {
    use super::*;
    use crate::assembly::{new_instance, throw};
    use crate::machine::state::Limits;
    use crate::program::{Program, CAST, NULL};
    use crate::raising::{chain, raisers};

    fn fates(program: &Program) -> Vec<(Fate, Option<u8>)> {
        let mut machine = Machine::new(program, Limits::NONE);
        let mut exceptions = Exceptions::default();
        let mut fates = Vec::new();
        while let Some(before) = Moment::of(&machine) {
            machine.run(machine.steps + 1);
            fates.extend(exceptions.step(&before, &machine));
        }
        fates
    }

    #[test]
    fn each_fate_is_told() {
        let [null, .., cast] = raisers()[..] else { panic!("several instructions raise") };
        assert_eq!(fates(&chain(0, null, &[(0, NULL)])), [(Fate::CaughtHere, Some(NULL))]);
        assert_eq!(fates(&chain(2, cast, &[(0, CAST)])), [(Fate::CaughtBelow, Some(CAST))]);
        assert_eq!(fates(&chain(1, cast, &[(0, NULL)])), [(Fate::Uncaught, Some(CAST))]);
        let mut thrown = chain(0, null, &[(0, NULL)]);
        thrown.methods[0].code[0] = new_instance(0, NULL);
        thrown.methods[0].code[2] = throw(0);
        assert_eq!(fates(&thrown), [(Fate::CaughtHere, None)]);
    }
}
