//! Rules 6 and 7, and the exceptions of callees.

use super::{Asking, Place};
use crate::least::classes::{find, has};

impl Asking<'_> {
    pub(super) fn static_call(&mut self) {
        let i = self.instruction();
        let first = usize::from(i.c);
        let arguments = self.row[first..first + usize::from(i.b)].to_vec();
        self.call(usize::from(i.a), &arguments);
    }

    /// One class of the receiver at a time, which gives only its own bit.
    pub(super) fn virtual_call(&mut self) {
        let i = self.instruction();
        let first = usize::from(i.c);
        let mut arguments = self.row[first..first + usize::from(i.b)].to_vec();
        for class in self.classes() {
            let callee = find(self.program, class, i.a, i.b);
            if let (true, Some(callee)) = (has(self.mask(i.c), class), callee) {
                arguments[0] = 1 << class;
                self.call(callee, &arguments);
            }
        }
    }

    fn call(&mut self, callee: usize, arguments: &[u64]) {
        let registers = usize::from(self.program.methods[callee].registers);
        for (register, &bits) in (registers - arguments.len()..).zip(arguments) {
            self.ask(6, Place::Register(callee, 0, register), bits);
        }
        let returned = self.claim.returned[callee];
        self.ask(7, self.at(self.address + 1, self.result()), returned);
        for class in self.classes() {
            if has(self.claim.leaving[callee], class) {
                self.raise(class);
            }
        }
    }
}
