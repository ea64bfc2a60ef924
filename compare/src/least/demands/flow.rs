//! Rules 2 to 5 and 8.

use super::{Asking, Place};
use crate::claim::{NUMBERS, OTHER, ZERO};
use crate::least::classes::{classes_having, has, is_below};
use crate::opcode::*;
use crate::program::Instruction;

impl Asking<'_> {
    pub(super) fn instruction(&self) -> Instruction {
        self.program.methods[self.method].code[self.address]
    }

    /// Rules 2 and 3.
    pub(super) fn flow(&mut self) {
        let i = self.instruction();
        let is_call = matches!(i.o, INVOKE_VIRTUAL | INVOKE_STATIC);
        for (register, &bits) in self.row.iter().enumerate() {
            let is_written = writes(i.o) && register == usize::from(i.a);
            let is_lost = is_call && register == self.result();
            if !ends_code(i.o) && !is_written && !is_lost {
                self.ask(2, self.at(self.address + 1, register), bits);
            }
            if matches!(i.o, GOTO | IF) {
                self.ask(3, self.at(i.d as usize, register), bits);
            }
        }
    }

    /// Rules 4 to 10.
    pub(super) fn effects(&mut self) {
        let i = self.instruction();
        match i.o {
            IPUT => {
                for class in classes_having(self.program, usize::from(i.c)) {
                    if has(self.mask(i.b), class) {
                        let place = Place::Field(class, usize::from(i.c));
                        self.ask(5, place, self.mask(i.a));
                    }
                }
            }
            SPUT => self.ask(5, Place::Static(usize::from(i.b)), self.mask(i.a)),
            RETURN => self.ask(8, Place::Returned(self.method), self.mask(i.a)),
            RETURN_VOID => self.ask(8, Place::Returned(self.method), ZERO),
            INVOKE_VIRTUAL => self.virtual_call(),
            INVOKE_STATIC => self.static_call(),
            _ if writes(i.o) => {
                let place = self.at(self.address + 1, usize::from(i.a));
                self.ask(4, place, self.written());
            }
            _ => {}
        }
        self.exceptions();
    }

    /// Rule 4: what is written.
    fn written(&self) -> u64 {
        let Instruction { o, a, b, c, d } = self.instruction();
        let is_number = |register: u8| self.mask(register) & NUMBERS != 0;
        match o {
            MOVE => self.mask(b),
            CONST => [ZERO, OTHER][usize::from(d != 0)],
            BINOP if is_number(b) && is_number(c) => NUMBERS,
            UNOP if is_number(b) => NUMBERS,
            NEW_INSTANCE => 1 << b,
            IGET => {
                let field = usize::from(c);
                let objects =
                    classes_having(self.program, field).filter(|&class| has(self.mask(b), class));
                objects.fold(0, |bits, class| bits | self.claim.fields[field][usize::from(class)])
            }
            SGET => self.claim.statics[usize::from(b)],
            MOVE_RESULT | MOVE_EXCEPTION => self.row[self.result()],
            INSTANCE_OF => NUMBERS,
            CHECK_CAST => {
                let mask = self.mask(a);
                let passes = |&class: &u8| has(mask, class) && is_below(self.program, class, b);
                self.classes().filter(passes).fold(mask & ZERO, |bits, class| bits | 1 << class)
            }
            _ => 0,
        }
    }
}

/// Whether an instruction writes its register a.
fn writes(o: u8) -> bool {
    let copies = matches!(o, MOVE | SGET | IGET | MOVE_RESULT | MOVE_EXCEPTION | CHECK_CAST);
    copies || matches!(o, CONST | BINOP | UNOP | NEW_INSTANCE | INSTANCE_OF)
}
