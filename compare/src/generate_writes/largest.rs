//! The largest programs, and those whose masks grow in the most steps.

use super::{Case, MOST_LENT};
use crate::assembly::*;
use crate::generate::shapes::{program as random_program, LARGEST};
use crate::generate_claims::{calling_program, most_calls, storing_program};
use crate::program::{Handler, Instruction, Method, Program};
use crate::program::{CAST, NULL, STATIC, THROWABLE};
use crate::random::Random;

const REGISTERS: u8 = 16;
const METHODS: u8 = 16;
const LENGTH: usize = 32;
const CLASSES: u8 = 60;

/// The longest text there is.
const LONGEST: usize = 165_936;

pub fn cases() -> Vec<Case> {
    let mut random = Random::new(82);
    let storing = Case::of(&storing_program());
    assert_eq!(storing.lent, LONGEST);
    let mut cases: Vec<Case> = [0, LONGEST - 1, LONGEST, LONGEST + 1, MOST_LENT]
        .map(|lent| storing.clone().lending(lent))
        .to_vec();
    cases.extend([calling_program(), most_calls()].iter().map(Case::of));
    cases.extend(most_steps().iter().map(Case::of));
    cases.extend((0..4).map(|_| Case::of(&random_program(&mut random, &LARGEST))));
    let last = cases[cases.len() - 1].clone();
    let half = last.lent / 2;
    cases.push(last.lending(half));
    cases
}

/// Programs whose masks grow in many steps.
pub fn most_steps() -> Vec<Program> {
    vec![chain_program(), list_program(), throwing_program()]
}

/// A program of 60 classes, each but 2 to 4 right below the one given.
fn sixty(above: fn(u8) -> u8, fields: &[u8], methods: Vec<Method>) -> Program {
    let above = |class: u8| if (NULL..=CAST).contains(&class) { THROWABLE } else { above(class) };
    let superclasses: Vec<u8> = (1..CLASSES).map(above).collect();
    whole_program(&superclasses, fields, 0, methods)
}

/// Every jump goes one address back, and every call hands all registers on by
/// one and one back to the first, around fifteen methods: what main puts in takes
/// some 6,000 steps, one after the other, to be everywhere.
pub fn chain_program() -> Program {
    let method = |number: u8| {
        let callee = if number <= 1 { METHODS - 1 } else { number - 1 };
        let first = if number == 0 { new_instance(0, CLASSES - 1) } else { copy(0, REGISTERS - 2) };
        let call = invoke_static(callee, REGISTERS - 1, 0);
        let mut code = vec![first, goto(LENGTH - 1), call, give(REGISTERS - 1), goto(2)];
        code.extend((4..LENGTH - 1).map(goto));
        let arguments = if number == 0 { 0 } else { REGISTERS - 1 };
        Method::new(0, number, STATIC, REGISTERS, arguments).with_code(code)
    };
    sixty(|_| 0, &[], (0..METHODS).map(method).collect())
}

/// An object of each class holds one of the next class. A loop through eleven
/// methods takes the field of what it had: a class more each time around.
pub fn list_program() -> Program {
    let main = vec![
        new_instance(0, 0),
        invoke_static(5, 1, 0),
        move_result(0),
        branch_zero(NE, 0, 1),
        return_void(),
    ];
    let mut methods = vec![main_method(1, main)];
    methods.extend((0..4).map(|part| static_method(1 + part, 2, 0, links(15 * part))));
    methods.extend((5..METHODS).map(|number| static_method(number, REGISTERS, 1, carrier(number))));
    sixty(|_| 0, &[0; 16], methods)
}

/// Objects of fifteen classes from this one on, each put into field 0 of the
/// one before.
fn links(first: u8) -> Vec<Instruction> {
    let mut code = vec![new_instance(0, first)];
    for class in (first + 1..=first + 15).filter(|&class| class < CLASSES) {
        let this = (class - first) % 2;
        code.extend([new_instance(this, class), iput(this, 1 - this, 0)]);
    }
    code.push(return_void());
    code
}

/// Hands its argument through all registers to the next method and the result
/// back; the last one takes field 0 of it. Each puts it into a field of its
/// own, of every class that it has.
fn carrier(number: u8) -> Vec<Instruction> {
    let mut code: Vec<Instruction> =
        (1..15).rev().map(|register| copy(register, register + 1)).collect();
    code.push(iput(1, 15, number));
    match number {
        15 => code.push(iget(2, 1, 0)),
        _ => code.extend([invoke_static(number + 1, 1, 1), move_result(2)]),
    }
    code.extend((3..15).map(|register| copy(register, register - 1)));
    code.extend([iput(14, 15, number), give(14)]);
    code
}

/// Virtual calls on exceptions: a callee throws a class that the caller's
/// handler takes and calls again, until all classes have gone everywhere.
pub fn throwing_program() -> Program {
    let method = |number: u8| {
        let mut code = Vec::new();
        for round in 0..4 {
            let start = code.len();
            code.extend([
                new_instance(12, (4 * number + round + 2) % CLASSES),
                invoke_virtual(9, 4, 12),
                throw(12),
                move_exception(12),
                invoke_virtual(9, 4, 12),
                copy(13 + round % 3, 12),
                branch_zero(EQ, 12, (start + 8) % LENGTH),
                throw(13 + round % 3),
            ]);
        }
        let handler = |place: u8| {
            let from = 8 * (place % 4);
            Handler::new(from, from + 7, from + 3, 1 + 2 * (place / 4 * 4 + 3 - place % 4))
        };
        let handlers = (0..8).rev().map(handler).collect();
        let method = match number {
            0 => Method::new(0, 0, STATIC, REGISTERS, 0),
            _ => virtual_method((4 * number - 3, 9), REGISTERS, 4, vec![]),
        };
        method.with_code(code).with_handlers(handlers)
    };
    sixty(|class| class.saturating_sub(4), &[], (0..METHODS).map(method).collect())
}
