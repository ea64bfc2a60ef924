//! The rules one by one, each kept and broken, with masks written by hand.

mod calls;
mod exceptions;
mod flow;
mod raised;
mod storage;
mod tempting;

use compare::assembly::*;
use compare::checker::{check, LEAST_MEMORY};
use compare::claim::{Claim, OTHER, ZERO};
use compare::program::{Handler, Instruction, Program};
use compare::report::report;

/// Bits 62 and 63, both, and those of a few classes by their numbers in
/// `program`: of class 2 there and so on.
const Z: u64 = ZERO;
const N: u64 = OTHER;
const ZN: u64 = ZERO | OTHER;
const C0: u64 = 1;
const C1: u64 = 2;
const C2: u64 = 1 << 5;
const C3: u64 = 1 << 6;
const C4: u64 = 1 << 7;

/// The bits of the classes that instructions raise.
const NULL: u64 = 1 << 2;
const ARITHMETIC: u64 = 1 << 3;
const CAST: u64 = 1 << 4;

/// A program and a claim.
#[derive(Clone)]
struct Given {
    program: Program,
    claim: Claim,
}

/// A program with the masks of each method by address: registers, then the
/// result. Fields and statics have bit 62; methods return it, and no exception
/// leaves them.
fn given(program: &Program, rows: &[&[&[u64]]]) -> Given {
    let mut claim = Claim::empty(program);
    for (method, rows) in rows.iter().enumerate() {
        assert_eq!(rows.len(), program.methods[method].code.len());
        for (address, row) in rows.iter().enumerate() {
            claim.row_mut(method, address).copy_from_slice(row);
        }
    }
    for masks in &mut claim.fields {
        masks[..program.classes.len()].fill(Z);
    }
    claim.statics.fill(Z);
    claim.returned.fill(Z);
    Given { program: program.clone(), claim }
}

impl Given {
    /// The same with exceptions of these classes leaving method 0.
    fn leaving(mut self, classes: u64) -> Given {
        self.claim.leaving[0] |= classes;
        self
    }

    /// What the tool prints, without the last line end.
    fn verdict(&self) -> String {
        let mut memory = vec![0xee; LEAST_MEMORY + 1];
        let claim = self.claim.text(&self.program);
        let verdict = check(&self.program.text(), &claim, &mut memory);
        let text = String::from_utf8(report(&verdict, &memory)).unwrap();
        let listed = 3 * (text.lines().count() - 1);
        assert!(memory[listed..].iter().all(|&byte| byte == 0xee));
        text.trim_end().to_string()
    }

    /// The verdict with a change of the claim.
    fn with(&self, change: impl Fn(&mut Claim)) -> String {
        let mut other = self.clone();
        change(&mut other.claim);
        other.verdict()
    }

    /// The verdict with another mask of a register or, after these, result.
    fn with_mask(&self, method: usize, address: usize, register: usize, mask: u64) -> String {
        self.with(|claim| claim.row_mut(method, address)[register] = mask)
    }
}

/// Method 0 alone, of a program with classes 2 below 0, 3 below 2 and 4 below
/// Throwable; field 0 is of class 2; two statics.
fn alone(registers: u8, code: Vec<Instruction>) -> Program {
    alone_with(registers, code, vec![])
}

fn alone_with(registers: u8, code: Vec<Instruction>, handlers: Vec<Handler>) -> Program {
    let method = main_method(registers, code).with_handlers(handlers);
    program(&[0, 0, 2, 1], &[2], 2, vec![method])
}

const ACCEPTED: &str = "accepted";
