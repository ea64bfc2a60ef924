//! The addresses of a program, each with what it reads and where that goes.

use super::addresses::Addresses;
use crate::claim::Claim;
use crate::opcode::*;
use crate::program::{Instruction, Method, Program};

/// A set of registers of a frame as bits; its result comes after them.
pub type Slots = u32;

/// Beside the slots: what a callee returns, and the classes that leave it.
pub const CALLEES: Slots = 1 << 31;

/// The most methods, and the most instructions of one.
pub const METHODS: usize = 16;
const LENGTH: usize = 32;

#[derive(Clone, Copy)]
pub struct Site {
    pub instruction: Instruction,
    /// Slots that flow to the next address, and to the target.
    pub next: Slots,
    pub jump: Slots,
    /// Slots that the instruction's own rules read.
    pub reads: Slots,
    /// The site of the target.
    pub target: u16,
    /// The place of the first mask of its row.
    pub row: u16,
    /// The slot of the result.
    pub result: u8,
    pub method: u8,
    /// The handlers that cover the address, as bits by number.
    pub handlers: u8,
}

impl Site {
    /// All slots but the result's.
    #[inline]
    pub fn registers(&self) -> Slots {
        (1 << self.result) - 1
    }
}

/// All addresses, and those that read fields and statics.
pub struct Sites {
    pub all: Vec<Site>,
    /// The site of each method's address 0.
    pub entries: [usize; METHODS],
    /// `iget` by field, `sget` by static.
    pub igets: Vec<Addresses>,
    pub sgets: Vec<Addresses>,
}

impl Sites {
    pub fn new(program: &Program, claim: &Claim) -> Sites {
        let mut sites = Sites {
            all: Vec::with_capacity(program.methods.len() * LENGTH),
            entries: [0; METHODS],
            igets: vec![Addresses::default(); program.fields.len()],
            sgets: vec![Addresses::default(); program.statics],
        };
        for (number, method) in program.methods.iter().enumerate() {
            let entry = sites.all.len();
            sites.entries[number] = entry;
            let rows = claim.rows[number];
            let covered = covered(method);
            for (address, &instruction) in method.code.iter().enumerate() {
                sites.note(entry + address, instruction);
                let [next, jump, reads] = flows(instruction, method.registers);
                let target = if jump == 0 { 0 } else { entry + instruction.d as usize };
                sites.all.push(Site {
                    instruction,
                    next,
                    jump,
                    reads,
                    target: target as u16,
                    row: (rows.start + rows.width * address) as u16,
                    result: method.registers,
                    method: number as u8,
                    handlers: covered[address],
                });
            }
        }
        sites
    }

    fn note(&mut self, site: usize, Instruction { o, b, c, .. }: Instruction) {
        match o {
            IGET => self.igets[usize::from(c)].insert(site),
            SGET => self.sgets[usize::from(b)].insert(site),
            _ => false,
        };
    }
}

/// For each address the handlers that cover it.
fn covered(method: &Method) -> [u8; LENGTH] {
    let mut covered = [0; LENGTH];
    for (number, handler) in method.by_number().enumerate() {
        for bits in &mut covered[usize::from(handler.from)..usize::from(handler.to)] {
            *bits |= 1 << number;
        }
    }
    covered
}

/// Slots that flow to the next address and to the target, and slots that the
/// instruction's own rules read.
fn flows(Instruction { o, a, b, c, .. }: Instruction, registers: u8) -> [Slots; 3] {
    let result = 1 << registers;
    let all = result | (result - 1);
    let slot = |register: u8| 1 << register;
    let unwritten = || all & !slot(a);
    match o {
        NOP => [all, 0, 0],
        GOTO => [0, all, 0],
        IF => [all, all, 0],
        IPUT => [all, 0, slot(a) | slot(b)],
        SPUT => [all, 0, slot(a)],
        RETURN | THROW => [0, 0, slot(a)],
        RETURN_VOID => [0, 0, 0],
        INVOKE_VIRTUAL | INVOKE_STATIC => {
            let arguments = ((1 << b) - 1) << c;
            [all & !result, 0, arguments | CALLEES]
        }
        MOVE | UNOP | IGET => [unwritten(), 0, slot(b)],
        BINOP => [unwritten(), 0, slot(b) | slot(c)],
        MOVE_RESULT | MOVE_EXCEPTION => [unwritten(), 0, result],
        CHECK_CAST => [unwritten(), 0, slot(a)],
        _ => [unwritten(), 0, 0],
    }
}
