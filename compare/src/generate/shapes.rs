//! Programs of many shapes, all of them allowed.

use super::build::{every_kind, flat_superclass, idle_code, smallest};
use super::Case;
use crate::opcode::*;
use crate::program::{Class, Field, Handler, Instruction, Method, Program};
use crate::program::{STATIC, VIRTUAL};
use crate::random::Random;
use std::ops::RangeInclusive;

/// The counts of a random program; code and handlers are those of a method.
pub struct Shape {
    pub classes: usize,
    pub fields: usize,
    pub statics: usize,
    pub methods: usize,
    pub code: RangeInclusive<usize>,
    pub handlers: RangeInclusive<usize>,
}

pub const LARGEST: Shape =
    Shape { classes: 60, fields: 16, statics: 16, methods: 16, code: 32..=32, handlers: 8..=8 };

pub fn cases() -> Vec<Case> {
    let mut random = Random::new(1);
    let mut programs = vec![smallest(), every_kind()];
    programs.extend(operations());
    programs.extend((0..400).map(|_| small_program(&mut random)));
    programs.extend((0..30).map(|_| {
        let shape = Shape { code: 1..=32, handlers: 0..=8, ..small_shape(&mut random) };
        program(&mut random, &shape)
    }));
    programs.extend((0..2).map(|_| program(&mut random, &LARGEST)));
    // The largest number of each kind of frame, the rest small.
    for shape in [
        Shape { classes: 60, ..small_shape(&mut random) },
        Shape { fields: 16, ..small_shape(&mut random) },
        Shape { statics: 16, ..small_shape(&mut random) },
        Shape { methods: 16, ..small_shape(&mut random) },
        Shape { methods: 1, code: 32..=32, ..small_shape(&mut random) },
        Shape { methods: 1, handlers: 8..=8, ..small_shape(&mut random) },
    ] {
        programs.extend((0..4).map(|_| program(&mut random, &shape)));
    }
    programs.iter().map(|program| Case::read(program.text())).collect()
}

/// One program for each condition, binary and unary operation.
fn operations() -> Vec<Program> {
    let conditions = (0..CONDITIONS).map(|c| Instruction::new(IF, 0, 0, c, 1));
    let binary = (0..BINARY_OPERATIONS).map(|d| Instruction::new(BINOP, 0, 0, 0, d));
    let unary = (0..UNARY_OPERATIONS).map(|c| Instruction::new(UNOP, 0, 0, c, 0));
    let with_instruction = |instruction| {
        let mut program = smallest();
        program.methods[0].code = idle_code(2);
        program.methods[0].code[0] = instruction;
        program
    };
    conditions.chain(binary).chain(unary).map(with_instruction).collect()
}

/// A random program of some ten to thirty lines.
pub fn small_program(random: &mut Random) -> Program {
    let shape = small_shape(random);
    program(random, &shape)
}

fn small_shape(random: &mut Random) -> Shape {
    Shape {
        classes: random.within(5..=8),
        fields: random.below(4),
        statics: random.below(4),
        methods: random.within(1..=4),
        code: 1..=random.within(1..=8),
        handlers: 0..=random.below(3),
    }
}

/// A random program of this shape.
pub fn program(random: &mut Random, shape: &Shape) -> Program {
    let classes = shape.classes as u8;
    let mut program = Program { statics: shape.statics, ..Program::default() };
    for number in 0..classes {
        let superclass = match number {
            0..=4 => flat_superclass(number.into()),
            _ => random.byte_below(number),
        };
        program.classes.push(Class { superclass });
    }
    for _ in 0..shape.fields {
        program.fields.push(Field { class: random.byte_below(classes) });
    }
    while program.methods.len() < shape.methods {
        let method = header(random, classes, program.methods.is_empty());
        if !program.methods.iter().any(|m| (m.class, m.name) == (method.class, method.name)) {
            program.methods.push(method);
        }
    }
    // Calls name any method, so code comes after all headers.
    for number in 0..shape.methods {
        let length = random.within(shape.code.clone());
        let registers = program.methods[number].registers;
        let code = (1..=length)
            .map(|place| instruction(random, &program, registers, length, place == length))
            .collect();
        let handlers = (0..random.within(shape.handlers.clone()))
            .map(|_| handler(random, classes, length as u8))
            .collect();
        program.methods[number].code = code;
        program.methods[number].handlers = handlers;
    }
    program
}

fn header(random: &mut Random, classes: u8, first: bool) -> Method {
    let class = random.byte_below(classes);
    let name = if random.once_in(4) { random.byte() } else { random.byte_below(4) };
    let registers = if random.once_in(8) { 16 } else { 1 + random.byte_below(8) };
    if first {
        return Method::new(class, name, STATIC, registers, 0);
    }
    let kind = random.pick(&[VIRTUAL, STATIC]);
    let least = if kind == VIRTUAL { 1 } else { 0 };
    let arguments = least + random.byte_below(registers + 1 - least);
    Method::new(class, name, kind, registers, arguments)
}

fn handler(random: &mut Random, classes: u8, length: u8) -> Handler {
    let from = random.byte_below(length);
    let to = from + 1 + random.byte_below(length - from);
    Handler::new(from, to, random.byte_below(length), random.byte_below(classes))
}

/// An allowed instruction for a method with these registers and this length.
fn instruction(
    random: &mut Random,
    program: &Program,
    registers: u8,
    length: usize,
    last: bool,
) -> Instruction {
    let classes = program.classes.len() as u8;
    let opcodes: Vec<u8> = (NOP..=LAST)
        .filter(|&o| !last || ends_code(o))
        .filter(|&o| !program.fields.is_empty() || !matches!(o, IGET | IPUT))
        .filter(|&o| program.statics != 0 || !matches!(o, SGET | SPUT))
        .collect();
    let o = random.pick(&opcodes);
    let a = random.byte_below(registers);
    let b = random.byte_below(registers);
    let c = random.byte_below(registers);
    let target = random.below(length) as u32;
    let new = |a, b, c, d| Instruction::new(o, a, b, c, d);
    match o {
        MOVE => new(a, b, 0, 0),
        CONST => new(a, 0, 0, constant(random)),
        GOTO => new(0, 0, 0, target),
        IF => match random.byte_below(CONDITIONS) {
            c if c < TWO_REGISTER_CONDITIONS => new(a, b, c, target),
            c => new(a, 0, c, target),
        },
        BINOP => new(a, b, c, random.below(BINARY_OPERATIONS as usize) as u32),
        UNOP => new(a, b, random.byte_below(UNARY_OPERATIONS), 0),
        NEW_INSTANCE | CHECK_CAST => new(a, random.byte_below(classes), 0, 0),
        IGET | IPUT => new(a, b, random.below(program.fields.len()) as u8, 0),
        SGET | SPUT => new(a, random.below(program.statics) as u8, 0, 0),
        INVOKE_VIRTUAL => {
            let count = 1 + random.byte_below(registers);
            let first = random.byte_below(registers - count + 1);
            new(random.byte(), count, first, 0)
        }
        INVOKE_STATIC => {
            // Method 0 always qualifies.
            let callees: Vec<u8> = (0..program.methods.len() as u8)
                .filter(|&m| program.methods[usize::from(m)].kind == STATIC)
                .filter(|&m| program.methods[usize::from(m)].arguments <= registers)
                .collect();
            let callee = random.pick(&callees);
            let count = program.methods[usize::from(callee)].arguments;
            let first = if count == 0 { 0 } else { random.byte_below(registers - count + 1) };
            new(callee, count, first, 0)
        }
        MOVE_RESULT | MOVE_EXCEPTION | RETURN | THROW => new(a, 0, 0, 0),
        INSTANCE_OF => new(a, b, random.byte_below(classes), 0),
        _ => new(0, 0, 0, 0),
    }
}

fn constant(random: &mut Random) -> u32 {
    let edges = [0, 1, 0x7fff_ffff, 0x8000_0000, 0xffff_ffff, 0xff, 0x100, 0xffff, 0x1_0000];
    match random.below(2) {
        0 => random.pick(&edges),
        _ => random.next_u64() as u32,
    }
}
