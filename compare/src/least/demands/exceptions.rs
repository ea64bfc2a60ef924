//! Rules 9 and 10: what an instruction raises, and who takes it.

use super::{Asking, Place};
use crate::assembly::{DIV, REM};
use crate::claim::ZERO;
use crate::least::classes::{has, is_below};
use crate::opcode::*;
use crate::program::{ARITHMETIC, CAST, NULL, THROWABLE};

impl Asking<'_> {
    /// What the instruction raises itself, one reason after the other.
    pub(super) fn exceptions(&mut self) {
        let i = self.instruction();
        if i.o == THROW {
            for class in self.classes() {
                if has(self.mask(i.a), class) && is_below(self.program, class, THROWABLE) {
                    self.raise(class);
                }
            }
        }
        let object = match i.o {
            THROW => Some(i.a),
            IGET | IPUT => Some(i.b),
            INVOKE_VIRTUAL => Some(i.c),
            _ => None,
        };
        if object.is_some_and(|register| self.may_be_zero(register)) {
            self.raise(NULL);
        }
        if i.o == BINOP && [DIV, REM].contains(&i.d) && self.may_be_zero(i.c) {
            self.raise(ARITHMETIC);
        }
        let fails = |class: u8| has(self.mask(i.a), class) && !is_below(self.program, class, i.b);
        if i.o == CHECK_CAST && self.classes().any(fails) {
            self.raise(CAST);
        }
    }

    fn may_be_zero(&self, register: u8) -> bool {
        self.mask(register) & ZERO != 0
    }

    /// Rules 9 and 10 for one class.
    pub(super) fn raise(&mut self, class: u8) {
        let Some(target) = self.target(class) else {
            return self.ask(10, Place::Leaving(self.method), 1 << class);
        };
        for register in 0..self.result() {
            self.ask(9, self.at(target, register), self.row[register]);
        }
        self.ask(9, self.at(target, self.result()), 1 << class);
    }

    /// The target of the handler that takes the class: of those that fit, the
    /// one with the highest number.
    fn target(&self, class: u8) -> Option<usize> {
        let method = &self.program.methods[self.method];
        let mut target = None;
        for number in 0..method.handlers.len() {
            let handler = method.handler(number);
            let range = usize::from(handler.from)..usize::from(handler.to);
            if range.contains(&self.address) && is_below(self.program, class, handler.class) {
                target = Some(usize::from(handler.target));
            }
        }
        target
    }
}
