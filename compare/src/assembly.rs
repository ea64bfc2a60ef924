//! Programs written down in Rust: one function for each instruction, and those
//! for methods and whole programs.

mod programs;

use crate::opcode::*;
use crate::program::Instruction;

pub use programs::*;

/// Operations of `binop`.
pub const ADD: u32 = 0;
pub const SUB: u32 = 1;
pub const MUL: u32 = 2;
pub const DIV: u32 = 3;
pub const REM: u32 = 4;
pub const AND: u32 = 5;
pub const OR: u32 = 6;
pub const XOR: u32 = 7;
pub const SHL: u32 = 8;
pub const SHR: u32 = 9;
pub const USHR: u32 = 10;

/// Operations of `unop`.
pub const NEG: u8 = 0;
pub const NOT: u8 = 1;

/// Conditions of `branch`; six more is the same of a register and zero.
pub const EQ: u8 = 0;
pub const NE: u8 = 1;
pub const LT: u8 = 2;
pub const GE: u8 = 3;
pub const GT: u8 = 4;
pub const LE: u8 = 5;

pub fn nop() -> Instruction {
    Instruction::new(NOP, 0, 0, 0, 0)
}

pub fn copy(to: u8, from: u8) -> Instruction {
    Instruction::new(MOVE, to, from, 0, 0)
}

pub fn constant(to: u8, number: i32) -> Instruction {
    Instruction::new(CONST, to, 0, 0, number as u32)
}

pub fn goto(target: usize) -> Instruction {
    Instruction::new(GOTO, 0, 0, 0, target as u32)
}

pub fn branch(condition: u8, left: u8, right: u8, target: usize) -> Instruction {
    Instruction::new(IF, left, right, condition, target as u32)
}

pub fn branch_zero(condition: u8, left: u8, target: usize) -> Instruction {
    branch(condition + TWO_REGISTER_CONDITIONS, left, 0, target)
}

pub fn binop(operation: u32, to: u8, left: u8, right: u8) -> Instruction {
    Instruction::new(BINOP, to, left, right, operation)
}

pub fn unop(operation: u8, to: u8, from: u8) -> Instruction {
    Instruction::new(UNOP, to, from, operation, 0)
}

pub fn new_instance(to: u8, class: u8) -> Instruction {
    Instruction::new(NEW_INSTANCE, to, class, 0, 0)
}

pub fn iget(to: u8, object: u8, field: u8) -> Instruction {
    Instruction::new(IGET, to, object, field, 0)
}

pub fn iput(from: u8, object: u8, field: u8) -> Instruction {
    Instruction::new(IPUT, from, object, field, 0)
}

pub fn sget(to: u8, place: u8) -> Instruction {
    Instruction::new(SGET, to, place, 0, 0)
}

pub fn sput(from: u8, place: u8) -> Instruction {
    Instruction::new(SPUT, from, place, 0, 0)
}

pub fn invoke_virtual(name: u8, count: u8, first: u8) -> Instruction {
    Instruction::new(INVOKE_VIRTUAL, name, count, first, 0)
}

pub fn invoke_static(method: u8, count: u8, first: u8) -> Instruction {
    Instruction::new(INVOKE_STATIC, method, count, first, 0)
}

pub fn move_result(to: u8) -> Instruction {
    Instruction::new(MOVE_RESULT, to, 0, 0, 0)
}

pub fn move_exception(to: u8) -> Instruction {
    Instruction::new(MOVE_EXCEPTION, to, 0, 0, 0)
}

pub fn give(from: u8) -> Instruction {
    Instruction::new(RETURN, from, 0, 0, 0)
}

pub fn return_void() -> Instruction {
    Instruction::new(RETURN_VOID, 0, 0, 0, 0)
}

pub fn throw(from: u8) -> Instruction {
    Instruction::new(THROW, from, 0, 0, 0)
}

pub fn instance_of(to: u8, from: u8, class: u8) -> Instruction {
    Instruction::new(INSTANCE_OF, to, from, class, 0)
}

pub fn check_cast(from: u8, class: u8) -> Instruction {
    Instruction::new(CHECK_CAST, from, class, 0, 0)
}

/// A generator of numbers in register 0, without end: four constants, and six
/// instructions from address 4 on that make the next number.
pub fn xorshift() -> Vec<Instruction> {
    vec![
        constant(0, 2_463_534_242u32 as i32),
        constant(1, 13),
        constant(2, 17),
        constant(3, 5),
        binop(SHL, 4, 0, 1),
        binop(XOR, 0, 0, 4),
        binop(USHR, 4, 0, 2),
        binop(XOR, 0, 0, 4),
        binop(SHL, 4, 0, 3),
        binop(XOR, 0, 0, 4),
    ]
}
