//! Faults, each with state around it, and the order of their tests. What raises
//! is left to other cases, but for values that are tested before it.

use super::Case;
use crate::assembly::*;
use crate::opcode::divides;
use crate::program::{Handler, Instruction, Method, Program};

/// Class 3 lies below 2, class 4 below Throwable.
const CLASSES: [u8; 4] = [0, 0, 2, 1];
const FIELDS: [u8; 2] = [2, 3];

/// Registers of the state around: zero, numbers, objects of 2, 3 and 4.
const ZERO: u8 = 0;
const ONE: u8 = 1;
const LEAST: u8 = 2;
const TWO_KIND: u8 = 3;
const THREE_KIND: u8 = 4;
const THROWABLE: u8 = 5;

pub fn cases() -> Vec<Case> {
    let mut cases = Vec::new();
    for (place, (instruction, number)) in (0..).zip(instructions()) {
        for around in [1, [0, 2, 3][place % 3]] {
            let program = around_it(instruction, around);
            let (given, last) = super::outcome(&program, 1_000);
            assert_eq!(given, if number == 0 { 32 } else { 40 + number }, "{instruction:?}");
            let case = |n| Case::of(&program, n);
            cases.push(case(if around == 1 { last } else { 1_000 }).giving(given));
            if around == 1 && place % 2 == 0 {
                cases.push(case(last - 1).giving(22));
            }
        }
    }
    cases
}

/// Instructions and their faults, 0 where all is well.
fn instructions() -> Vec<(Instruction, u8)> {
    let mut all = Vec::new();
    for field in [0, 1] {
        let had = if field == 0 { 0 } else { 5 };
        let objects = [(ONE, 2), (LEAST, 2), (TWO_KIND, had), (THREE_KIND, 0)];
        for (object, fault) in objects.into_iter().chain([(THROWABLE, 5)]) {
            all.extend([(iget(6, object, field), fault), (iput(6, object, field), fault)]);
            all.push((iget(object, object, field), fault));
        }
    }
    for operation in [ADD, DIV, REM, USHR] {
        let mut pairs = vec![(ZERO, ONE, 0), (TWO_KIND, ZERO, 3), (ZERO, TWO_KIND, 3)];
        pairs.push((THROWABLE, THREE_KIND, 3));
        if !divides(operation) {
            pairs.extend([(LEAST, ZERO, 0), (ZERO, ZERO, 0)]);
        }
        let instruction = |(left, right, fault)| (binop(operation, 6, left, right), fault);
        all.extend(pairs.into_iter().map(instruction));
    }
    all.extend([(unop(NEG, 6, LEAST), 0), (unop(NOT, 6, THROWABLE), 3)]);
    for (name, count, fault) in [(5, 1, 0), (5, 2, 6), (6, 1, 6), (0, 1, 6)] {
        let receivers = [(LEAST, 2), (ONE, 2), (THREE_KIND, fault), (THROWABLE, 6)];
        all.extend(receivers.map(|(first, fault)| (invoke_virtual(name, count, first), fault)));
    }
    all.extend([(ONE, 2), (LEAST, 2), (TWO_KIND, 7)].map(|(a, fault)| (throw(a), fault)));
    for (value, fault) in [(ZERO, 0), (ONE, 2), (LEAST, 2), (THREE_KIND, 0)] {
        all.extend([(check_cast(value, 3), fault), (instance_of(6, value, 3), fault)]);
    }
    all.extend([(check_cast(TWO_KIND, 0), 0), (instance_of(6, TWO_KIND, 3), 0)]);
    for condition in [LT, GE, GT, LE] {
        all.extend([(branch(condition, ONE, THROWABLE, 1), 3), (branch(condition, 4, 4, 1), 3)]);
        all.extend([(branch_zero(condition, TWO_KIND, 1), 3), (branch(condition, 3, 0, 1), 3)]);
    }
    all
}

/// The values the registers start with.
fn values() -> Vec<Instruction> {
    vec![
        constant(ONE, 1),
        constant(LEAST, i32::MIN),
        new_instance(TWO_KIND, 2),
        new_instance(THREE_KIND, 3),
        new_instance(THROWABLE, 4),
        iput(THROWABLE, TWO_KIND, 0),
        iput(ONE, THREE_KIND, 1),
        sput(THREE_KIND, 0),
        sput(LEAST, 1),
        constant(6, 66),
    ]
}

/// The instruction in method 0 (0), under handlers for everything (1), in a
/// callee (2), and in a callee's handler (3).
fn around_it(instruction: Instruction, around: u8) -> Program {
    let mut code = values();
    if around == 3 {
        code.extend([throw(THROWABLE), nop()]);
    }
    let target = code.len() as u8;
    code.extend([instruction, return_void()]);
    let length = code.len() as u8;
    let everything = vec![Handler::new(0, length, target, 0), Handler::new(0, length, 0, 1)];
    let tested = |name| {
        let method = Method::new(0, name, 1, 7, 0).with_code(code.clone());
        method.with_handlers(if around % 2 == 1 { everything.clone() } else { Vec::new() })
    };
    let callee = virtual_method((2, 5), 2, 1, vec![return_void()]);
    let other = virtual_method((4, 7), 2, 1, vec![return_void()]);
    let methods = if around < 2 {
        vec![tested(0), callee, other]
    } else {
        let main = vec![constant(0, 12), sput(0, 1), invoke_static(1, 0, 0), return_void()];
        vec![main_method(1, main), tested(1), callee, other]
    };
    program(&CLASSES, &FIELDS, 2, methods)
}
