//! Rules 1 to 10 at one address.

use super::sets::{elements, Methods, Sets};
use crate::claim::{Claim, NUMBERS, OTHER, ZERO};
use crate::opcode::*;
use crate::program::{Instruction, Program};

/// The number of a broken rule, as an error.
type Asked<T = ()> = Result<T, u8>;

pub struct Rules<'a> {
    pub program: &'a Program,
    pub claim: &'a Claim,
    pub sets: &'a Sets,
}

/// An address of a method, and the masks of its registers and result there.
#[derive(Clone, Copy)]
struct Here<'a> {
    method: usize,
    address: usize,
    row: &'a [u64],
}

/// One mask into another.
#[inline]
fn ask(rule: u8, mask: u64, into: u64) -> Asked {
    if mask & !into == 0 {
        Ok(())
    } else {
        Err(rule)
    }
}

/// Each mask into the one in its place.
#[inline]
fn ask_each(rule: u8, masks: &[u64], into: &[u64]) -> Asked {
    let lost = masks.iter().zip(into).fold(0, |lost, (mask, into)| lost | mask & !into);
    ask(rule, lost, 0)
}

impl Rules<'_> {
    /// Asks every rule of this address, lowest first: its callees, or the rule
    /// that is broken.
    #[inline]
    pub fn at(&self, method: usize, address: usize) -> Asked<Methods> {
        let here = Here { method, address, row: self.claim.row(method, address) };
        let row = here.row;
        if address == 0 {
            self.starts_with_zeros(here)?;
        }
        let instruction = self.program.methods[method].code[address];
        let Instruction { o, a, b, c, d } = instruction;
        let target = || ask_each(3, row, self.claim.row(method, d as usize));
        match o {
            GOTO => target()?,
            RETURN => ask(8, row[usize::from(a)], self.claim.returned[method])?,
            RETURN_VOID => ask(8, ZERO, self.claim.returned[method])?,
            THROW => {}
            INVOKE_VIRTUAL => return self.virtual_call(here, instruction),
            INVOKE_STATIC => return self.static_call(here, instruction),
            NOP | IF | IPUT | SPUT => {
                ask_each(2, row, self.next(here))?;
                match o {
                    IF => target()?,
                    IPUT => self.store_in_fields(row[usize::from(a)], row[usize::from(b)], c)?,
                    SPUT => ask(5, row[usize::from(a)], self.claim.statics[usize::from(b)])?,
                    _ => {}
                }
            }
            _ => self.write(here, usize::from(a), self.written(row, instruction))?,
        }
        self.leave(here, self.sets.raised(instruction, row)).map(|()| 0)
    }

    /// The masks at the next address.
    #[inline]
    fn next(&self, here: Here) -> &[u64] {
        self.claim.row(here.method, here.address + 1)
    }

    /// Rule 1.
    fn starts_with_zeros(&self, here: Here) -> Asked {
        let arguments = usize::from(self.program.methods[here.method].arguments);
        let (result, registers) = here.row.split_last().unwrap_or((&0, &[]));
        let zeros = &registers[..registers.len() - arguments];
        ask(1, ZERO, zeros.iter().fold(*result, |common, mask| common & mask))
    }

    /// Rules 2 and 4 of an instruction that writes this mask into a register.
    #[inline]
    fn write(&self, here: Here, to: usize, mask: u64) -> Asked {
        let next = self.next(here);
        ask_each(2, &here.row[..to], &next[..to])?;
        ask_each(2, &here.row[to + 1..], &next[to + 1..])?;
        ask(4, mask, next[to])
    }

    /// What an instruction writes into its register a.
    #[inline]
    fn written(&self, row: &[u64], Instruction { o, a, b, c, d }: Instruction) -> u64 {
        let (a, b, c) = (usize::from(a), usize::from(b), usize::from(c));
        let numbers = |holds: bool| if holds { NUMBERS } else { 0 };
        match o {
            MOVE => row[b],
            CONST if d == 0 => ZERO,
            CONST => OTHER,
            BINOP => numbers(row[b] & NUMBERS != 0 && row[c] & NUMBERS != 0),
            UNOP => numbers(row[b] & NUMBERS != 0),
            NEW_INSTANCE => 1 << b,
            IGET => {
                let having = row[b] & self.sets.having[c];
                elements(having).fold(0, |mask, class| mask | self.claim.fields[c][class])
            }
            SGET => self.claim.statics[b],
            MOVE_RESULT | MOVE_EXCEPTION => row[row.len() - 1],
            INSTANCE_OF => NUMBERS,
            CHECK_CAST => row[a] & (ZERO | self.sets.below[b]),
            _ => unreachable!("no other instruction writes a register"),
        }
    }

    /// Rule 5 of `iput`: into the field of each class that has it.
    fn store_in_fields(&self, mask: u64, objects: u64, field: u8) -> Asked {
        let field = usize::from(field);
        let having = objects & self.sets.having[field];
        let common = elements(having)
            .fold(u64::MAX, |common, class| common & self.claim.fields[field][class]);
        ask(5, mask, common)
    }

    fn static_call(&self, here: Here, instruction: Instruction) -> Asked<Methods> {
        let callee = usize::from(instruction.a);
        self.registers_flow(here)?;
        let first = usize::from(instruction.c);
        let arguments = &here.row[first..first + usize::from(instruction.b)];
        ask_each(6, arguments, self.parameters(callee))?;
        self.come_back(here, self.claim.returned[callee], self.claim.leaving[callee])?;
        Ok(1 << callee)
    }

    fn virtual_call(&self, here: Here, instruction: Instruction) -> Asked<Methods> {
        let Instruction { a: name, b: count, c: first, .. } = instruction;
        self.registers_flow(here)?;
        let first = usize::from(first);
        let others = &here.row[first + 1..first + usize::from(count)];
        let (mut callees, mut returned) = (0, 0);
        let mut leaving = self.sets.raised(instruction, here.row);
        for (callee, classes) in self.sets.callees(name, count, here.row[first]) {
            let parameters = self.parameters(callee);
            ask(6, classes, parameters[0])?;
            ask_each(6, others, &parameters[1..])?;
            callees |= 1 << callee;
            returned |= self.claim.returned[callee];
            leaving |= self.claim.leaving[callee];
        }
        self.come_back(here, returned, leaving)?;
        Ok(callees)
    }

    /// Rule 2 of a call: all but the result.
    fn registers_flow(&self, here: Here) -> Asked {
        let registers = here.row.len() - 1;
        ask_each(2, &here.row[..registers], &self.next(here)[..registers])
    }

    /// The masks of a method's argument registers at its address 0.
    fn parameters(&self, method: usize) -> &[u64] {
        let registers = usize::from(self.program.methods[method].registers);
        let arguments = usize::from(self.program.methods[method].arguments);
        &self.claim.row(method, 0)[registers - arguments..registers]
    }

    /// Rules 7, 9 and 10 of a call, for all its callees and null together.
    fn come_back(&self, here: Here, returned: u64, leaving: u64) -> Asked {
        let next = self.next(here);
        ask(7, returned, next[next.len() - 1])?;
        self.leave(here, leaving)
    }

    /// Rules 9 and 10 for exceptions of these classes. A handler takes those
    /// that it catches of what the ones with higher numbers have left.
    fn leave(&self, here: Here, mut classes: u64) -> Asked {
        if classes == 0 {
            return Ok(());
        }
        for handler in self.program.methods[here.method].by_number().rev() {
            let caught = classes & self.sets.below[usize::from(handler.class)];
            if caught != 0 && handler.covers(here.address as u8) {
                let target = self.claim.row(here.method, usize::from(handler.target));
                let registers = here.row.len() - 1;
                ask_each(9, &here.row[..registers], &target[..registers])?;
                ask(9, caught, target[registers])?;
                classes &= !caught;
            }
        }
        ask(10, classes, self.claim.leaving[here.method])
    }
}
