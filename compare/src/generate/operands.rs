//! Every operand of every opcode at its edges, one operand at a time.

mod hosts;

use super::build::{distinct, edge_bytes, instruction_line};
use super::Case;
use crate::opcode::*;
use crate::program::{Instruction, Program, STATIC};
use hosts::{full, middle, narrow, wide};

/// A program with one place whose instruction is changed.
struct Host {
    program: Program,
    method: usize,
    address: usize,
}

/// What one operand may be while the others stay; none if `low > high`.
#[derive(Clone, Copy, PartialEq, Eq)]
struct Range {
    low: u32,
    high: u32,
}

/// An instruction, and the ranges of its fields `a`, `b`, `c` and `d`.
struct Operands {
    base: Instruction,
    ranges: [Range; 4],
}

pub fn cases() -> Vec<Case> {
    let mut cases = Vec::new();
    for host in [narrow(), middle(), wide()] {
        for operands in host.operands() {
            cases.extend((0..4).flat_map(|operand| host.sweep(&operands, operand)));
        }
        cases.extend(
            (LAST + 1..=0x20)
                .chain([0x7f, 0x80, 0x81, 0x91, 0xff])
                .map(|o| host.case(Instruction::new(o, 0, 0, 0, 0), false)),
        );
    }
    cases.extend(conditions(&middle()));
    // Every table at its largest: the operands that name a row of one.
    let host = full();
    for operands in host.operands() {
        for (operand, range) in operands.ranges.iter().enumerate() {
            if (15..60).contains(&range.high) {
                cases.extend(host.sweep(&operands, operand));
            }
        }
    }
    cases
}

/// Every condition of `if` with every register as `b`, and one past each.
fn conditions(host: &Host) -> Vec<Case> {
    let mut cases = Vec::new();
    for c in 0..=CONDITIONS {
        for b in 0..=host.registers() {
            let allowed = if c < 6 { b < host.registers() } else { c < 12 && b == 0 };
            cases.push(host.case(Instruction::new(IF, 1, b as u8, c, 3), allowed));
        }
    }
    cases
}

impl Host {
    /// The program with this instruction in its place.
    fn case(&self, instruction: Instruction, allowed: bool) -> Case {
        let mut program = self.program.clone();
        program.methods[self.method].code[self.address] = instruction;
        let line = instruction_line(&program, self.method, self.address);
        let last = self.address + 1 == self.length();
        if allowed && last && !ends_code(instruction.o) {
            return Case::refused(program.text(), 6, line);
        }
        Case::allowed(program.text(), allowed, line)
    }

    /// The base with one operand at each of its edges.
    fn sweep(&self, operands: &Operands, operand: usize) -> Vec<Case> {
        let Range { low, high } = operands.ranges[operand];
        let values = match operand {
            3 => edge_words(low, high),
            _ => edge_bytes(low as u8, high as u8).into_iter().map(u32::from).collect(),
        };
        values
            .into_iter()
            .map(|value| {
                let Instruction { o, a, b, c, d } = operands.base;
                let mut fields = [a.into(), b.into(), c.into(), d];
                fields[operand] = value;
                let allowed = fields
                    .iter()
                    .zip(&operands.ranges)
                    .all(|(field, range)| (range.low..=range.high).contains(field));
                let [a, b, c, d] = fields;
                self.case(Instruction::new(o, a as u8, b as u8, c as u8, d), allowed)
            })
            .collect()
    }

    fn length(&self) -> usize {
        self.program.methods[self.method].code.len()
    }

    fn registers(&self) -> u32 {
        self.program.methods[self.method].registers.into()
    }

    fn none(&self) -> Range {
        Range { low: 0, high: 0 }
    }

    fn register(&self) -> Range {
        up_to(self.registers() as usize)
    }

    fn any_word(&self) -> Range {
        Range { low: 0, high: u32::MAX }
    }

    /// Each opcode once or more, with bases at different ends.
    fn operands(&self) -> Vec<Operands> {
        let (none, register) = (self.none(), self.register());
        let last = register.high as u8;
        let class = up_to(self.program.classes.len());
        let field = up_to(self.program.fields.len());
        let a_static = up_to(self.program.statics);
        let target = up_to(self.length());
        let mut all = Vec::new();
        let mut add = |o, [a, b, c]: [u8; 3], d, ranges| {
            all.push(Operands { base: Instruction::new(o, a, b, c, d), ranges });
        };
        for o in [NOP, RETURN_VOID] {
            add(o, [0, 0, 0], 0, [none; 4]);
        }
        add(MOVE, [0, last, 0], 0, [register, register, none, none]);
        add(CONST, [last, 0, 0], 7, [register, none, none, self.any_word()]);
        add(GOTO, [0, 0, 0], 0, [none, none, none, target]);
        // With b = 0 every condition is allowed, else only the first six.
        let conditions = Range { low: 0, high: if last == 0 { 11 } else { 5 } };
        add(IF, [0, last, 5], 0, [register, register, conditions, target]);
        let conditions = Range { low: 0, high: 11 };
        add(IF, [last, 0, 6], target.high, [register, none, conditions, target]);
        let operations = Range { low: 0, high: 10 };
        add(BINOP, [last, 0, last], 10, [register, register, register, operations]);
        add(UNOP, [0, last, 1], 0, [register, register, Range { low: 0, high: 1 }, none]);
        for o in [NEW_INSTANCE, CHECK_CAST] {
            add(o, [last, class.high as u8, 0], 0, [register, class, none, none]);
        }
        for o in [IGET, IPUT] {
            add(o, [0, last, 0], 0, [register, register, field, none]);
        }
        for o in [SGET, SPUT] {
            add(o, [last, 0, 0], 0, [register, a_static, none, none]);
        }
        let names = Range { low: 0, high: 255 };
        let counts = Range { low: 1, high: self.registers() };
        add(INVOKE_VIRTUAL, [7, 1, 0], 0, [names, counts, register, none]);
        for (number, callee) in self.program.methods.iter().enumerate() {
            let count = u32::from(callee.arguments);
            if callee.kind == STATIC && count <= self.registers() {
                // No two static methods of a host have the same count.
                let number = number as u32;
                let itself = Range { low: number, high: number };
                let exactly = Range { low: count, high: count };
                let first = if count == 0 { 0 } else { self.registers() - count };
                let firsts = Range { low: 0, high: first };
                let base = [number as u8, callee.arguments, first as u8];
                add(INVOKE_STATIC, base, 0, [itself, exactly, firsts, none]);
            }
        }
        for o in [MOVE_RESULT, MOVE_EXCEPTION, RETURN, THROW] {
            add(o, [last, 0, 0], 0, [register, none, none, none]);
        }
        add(INSTANCE_OF, [0, last, class.high as u8], 0, [register, register, class, none]);
        all
    }
}

/// The rows of a table of this size; an empty one has none.
fn up_to(size: usize) -> Range {
    match size {
        0 => Range { low: 1, high: 0 },
        _ => Range { low: 0, high: size as u32 - 1 },
    }
}

/// As `edge_bytes`, and a bit in each of the four bytes.
fn edge_words(low: u32, high: u32) -> Vec<u32> {
    let bits = [0, 8, 16, 24, 31].map(|shift| low | 1 << shift);
    let ends = [low, high, low.wrapping_sub(1), high.wrapping_add(1), u32::MAX];
    distinct([&bits[..], &ends[..]].concat())
}
