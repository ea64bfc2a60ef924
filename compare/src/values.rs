//! Refusals 5 and 6: values that are not allowed, and code that falls through.

use crate::opcode::*;
use crate::program::{Handler, Instruction, Method, Program};
use crate::program::{NO_SUPERCLASS, STATIC, THROWABLE, VIRTUAL};
use crate::Refusal;

const MAX_REGISTERS: u8 = 16;

/// Walks the frames by line, in the order of the text; on one line 5 comes
/// before 6.
pub fn check(program: &Program) -> Result<(), Refusal> {
    let mut line = 0;
    let mut next_line = |allowed: bool, falls_through: bool| {
        line += 1;
        if !allowed {
            Err(Refusal::new(5, line))
        } else if falls_through {
            Err(Refusal::new(6, line))
        } else {
            Ok(())
        }
    };

    for (number, class) in program.classes.iter().enumerate() {
        next_line(superclass_allowed(number, class.superclass), false)?;
    }
    for field in &program.fields {
        next_line(has_class(program, field.class), false)?;
    }
    for _ in 0..program.statics {
        next_line(true, false)?;
    }
    for (number, method) in program.methods.iter().enumerate() {
        next_line(header_allowed(program, number), false)?;
        let last = method.code.len() - 1;
        for (address, instruction) in method.code.iter().enumerate() {
            let falls_through = address == last && !ends_code(instruction.o);
            next_line(instruction_allowed(program, method, *instruction), falls_through)?;
        }
        for handler in &method.handlers {
            next_line(handler_allowed(program, method, *handler), false)?;
        }
    }
    Ok(())
}

fn has_class(program: &Program, class: u8) -> bool {
    usize::from(class) < program.classes.len()
}

/// The classes that instructions raise lie right below Throwable.
fn superclass_allowed(number: usize, superclass: u8) -> bool {
    match number {
        0 => superclass == NO_SUPERCLASS,
        2..=4 => superclass == THROWABLE,
        _ => usize::from(superclass) < number,
    }
}

fn header_allowed(program: &Program, number: usize) -> bool {
    let method = &program.methods[number];
    let kind_allowed = match method.kind {
        VIRTUAL => number != 0 && method.arguments >= 1,
        STATIC => number != 0 || method.arguments == 0,
        _ => false,
    };
    let repeated = program.methods[..number]
        .iter()
        .any(|earlier| (earlier.class, earlier.name) == (method.class, method.name));
    has_class(program, method.class)
        && kind_allowed
        && (1..=MAX_REGISTERS).contains(&method.registers)
        && method.arguments <= method.registers
        && !repeated
}

fn instruction_allowed(program: &Program, method: &Method, instruction: Instruction) -> bool {
    let Instruction { o, a, b, c, d } = instruction;
    let register = |register: u8| register < method.registers;
    let class = |class: u8| has_class(program, class);
    let field = |field: u8| usize::from(field) < program.fields.len();
    let a_static = |number: u8| usize::from(number) < program.statics;
    let target = |address: u32| (address as usize) < method.code.len();
    // The argument registers of a call: `count` of them from `first` on.
    let arguments =
        |first: u8, count: u8| u16::from(first) + u16::from(count) <= u16::from(method.registers);
    match o {
        NOP | RETURN_VOID => a == 0 && b == 0 && c == 0 && d == 0,
        MOVE => register(a) && register(b) && c == 0 && d == 0,
        CONST => register(a) && b == 0 && c == 0,
        GOTO => a == 0 && b == 0 && c == 0 && target(d),
        IF if c < TWO_REGISTER_CONDITIONS => register(a) && register(b) && target(d),
        IF => register(a) && b == 0 && c < CONDITIONS && target(d),
        BINOP => register(a) && register(b) && register(c) && d < BINARY_OPERATIONS,
        UNOP => register(a) && register(b) && c < UNARY_OPERATIONS && d == 0,
        NEW_INSTANCE | CHECK_CAST => register(a) && class(b) && c == 0 && d == 0,
        IGET | IPUT => register(a) && register(b) && field(c) && d == 0,
        SGET | SPUT => register(a) && a_static(b) && c == 0 && d == 0,
        INVOKE_VIRTUAL => b >= 1 && arguments(c, b) && d == 0,
        INVOKE_STATIC => {
            let callee = program.methods.get(usize::from(a));
            callee.is_some_and(|callee| callee.kind == STATIC && callee.arguments == b)
                && arguments(c, b)
                && (b != 0 || c == 0)
                && d == 0
        }
        MOVE_RESULT | MOVE_EXCEPTION | RETURN | THROW => register(a) && b == 0 && c == 0 && d == 0,
        INSTANCE_OF => register(a) && register(b) && class(c) && d == 0,
        _ => false,
    }
}

fn handler_allowed(program: &Program, method: &Method, handler: Handler) -> bool {
    let length = method.code.len();
    handler.from < handler.to
        && usize::from(handler.to) <= length
        && usize::from(handler.target) < length
        && has_class(program, handler.class)
}
