//! Small programs to start from, and the lines of their frames.

use crate::opcode::{INVOKE_STATIC, NOP, RETURN_VOID};
use crate::program::{Class, Field, Handler, Instruction, Method, Program};
use crate::program::{NO_SUPERCLASS, STATIC, THROWABLE};

pub fn nop() -> Instruction {
    Instruction::new(NOP, 0, 0, 0, 0)
}

pub fn return_void() -> Instruction {
    Instruction::new(RETURN_VOID, 0, 0, 0, 0)
}

/// Code of `length` instructions that ends in `return-void`.
pub fn idle_code(length: usize) -> Vec<Instruction> {
    let mut code = vec![nop(); length - 1];
    code.push(return_void());
    code
}

/// The superclass of a class in a text where most lie right below class 0.
pub fn flat_superclass(class: usize) -> u8 {
    match class {
        0 => NO_SUPERCLASS,
        2..=4 => THROWABLE,
        _ => 0,
    }
}

/// As many classes, each as near to class 0 as it may be.
pub fn flat_classes(count: usize) -> Vec<Class> {
    (0..count).map(|class| Class { superclass: flat_superclass(class) }).collect()
}

/// Method 0: static, without arguments.
pub fn main_method(registers: u8) -> Method {
    Method::new(0, 0, STATIC, registers, 0).with_code(idle_code(1))
}

/// A program with these counts, and method 0 alone.
pub fn tables(classes: usize, fields: usize, statics: usize) -> Program {
    Program {
        classes: flat_classes(classes),
        fields: vec![Field { class: 0 }; fields],
        statics,
        methods: vec![main_method(1)],
    }
}

/// The smallest program.
pub fn smallest() -> Program {
    tables(5, 0, 0)
}

/// A program with frames of all six kinds, 15 lines long.
pub fn every_kind() -> Program {
    let call = Instruction::new(INVOKE_STATIC, 1, 0, 0, 0);
    let mut program = tables(5, 1, 2);
    program.methods = vec![
        Method::new(0, 0, STATIC, 2, 0)
            .with_code(vec![call, return_void()])
            .with_handlers(vec![Handler::new(0, 1, 1, 1)]),
        Method::new(0, 1, STATIC, 1, 0)
            .with_code(idle_code(1))
            .with_handlers(vec![Handler::new(0, 1, 0, 0)]),
    ];
    program
}

/// The line of a method's own frame.
pub fn method_line(program: &Program, method: usize) -> u32 {
    let tables = program.classes.len() + program.fields.len() + program.statics;
    let earlier = &program.methods[..method];
    let before: usize = earlier.iter().map(|m| 1 + m.code.len() + m.handlers.len()).sum();
    (tables + before + 1) as u32
}

pub fn instruction_line(program: &Program, method: usize, address: usize) -> u32 {
    method_line(program, method) + 1 + address as u32
}

pub fn handler_line(program: &Program, method: usize, handler: usize) -> u32 {
    instruction_line(program, method, program.methods[method].code.len()) + handler as u32
}

/// The values tried for a field that may be `low..=high`: both ends, one past
/// each, and the ends and the middle of the byte.
pub fn edge_bytes(low: u8, high: u8) -> Vec<u8> {
    let below = low.wrapping_sub(1);
    let above = high.wrapping_add(1);
    distinct(vec![low, high, below, above, 0, 0x80, 0xff])
}

pub fn distinct<T: Ord>(mut values: Vec<T>) -> Vec<T> {
    values.sort();
    values.dedup();
    values
}
