//! The largest claims: 165,936 bytes.

use super::{Case, Meant};
use crate::assembly::*;
use crate::checker::Verdict;
use crate::claim::write::{text, ClaimFrame};
use crate::claim::{MAX_LENGTH, RETURNED};
use crate::least::{greatest, least};
use crate::program::{Handler, Instruction, Method, Program, NULL, STATIC, THROWABLE};

const REGISTERS: u8 = 16;
const LENGTH: usize = 32;

/// Class 59 is the last of 60; fields are those of class 0, had by all.
fn largest(methods: Vec<Method>) -> Program {
    let above = |class: u8| if class == NULL { THROWABLE } else { (class - 1) / 2 };
    let superclasses: Vec<u8> = (1..60).map(above).collect();
    whole_program(&superclasses, &[0; 16], 16, methods)
}

/// The last instruction of every method.
fn ending(mut code: Vec<Instruction>) -> Vec<Instruction> {
    code.truncate(LENGTH - 1);
    code.push(give(3));
    code
}

/// Static calls, fields, statics and moves; objects of many classes in every
/// field.
pub fn storing_program() -> Program {
    let method = |number: u8| {
        let next = (number + 1) % 16;
        let count = if next == 0 { 0 } else { 4 };
        let mut code = Vec::new();
        for round in 0..4 {
            let (class, field) = (4 * number + round, (4 * number + round) % 16);
            code.extend([
                new_instance(12, class % 60),
                sput(12, field),
                sget(13, (field + 5) % 16),
                iput(13, 12, field),
                iget(14, 13, (field + 3) % 16),
                copy(15, 14),
                invoke_static(next, count, if count == 0 { 0 } else { 12 }),
                move_result(round),
            ]);
        }
        let arguments = if number == 0 { 0 } else { 4 };
        Method::new(0, number, STATIC, REGISTERS, arguments).with_code(ending(code))
    };
    largest((0..16).map(method).collect())
}

/// Virtual calls and throws of many classes, with eight handlers a method.
pub fn calling_program() -> Program {
    let method = |number: u8| {
        let mut code = Vec::new();
        for round in 0..8 {
            code.extend([
                new_instance(12, (7 * number + round) % 60),
                invoke_virtual(9, 4, 12),
                invoke_virtual(9, 4, 11),
                if round % 2 == 0 { throw(12) } else { move_result(13) },
            ]);
        }
        let handler = |place: u8| Handler::new(place, 32, 4 * place, 8 - place);
        let handlers = (0..8).map(handler).collect();
        let method = match number {
            0 => Method::new(0, 0, STATIC, REGISTERS, 0),
            _ => virtual_method((3 * number, 9), REGISTERS, 4, vec![]),
        };
        method.with_code(ending(code)).with_handlers(handlers)
    };
    largest((0..16).map(method).collect())
}

/// Calls of every virtual method at every address but the last of a method.
pub fn most_calls() -> Program {
    let mut code = vec![invoke_virtual(9, 1, 0); LENGTH - 1];
    code.push(throw(0));
    let mut methods = vec![main_method(1, code.clone())];
    methods.extend((0..15).map(|class| virtual_method((class, 9), 1, 1, code.clone())));
    let superclasses: Vec<u8> = (0..15).collect();
    program(&superclasses, &[], 0, methods)
}

pub fn cases() -> Vec<Case> {
    let most = most_calls();
    let all_calls = Case::of(&most, &greatest(&most).frames(&most));
    let storing = storing_program();
    let calling = calling_program();
    let all = greatest(&calling).frames(&calling);
    let mut last_broken = least(&storing).frames(&storing);
    let returned = last_broken.iter_mut().find(|frame| frame.head == [RETURNED, 15]);
    returned.expect("every method has a returned mask").masks[0] = 0;
    vec![
        all_calls.meaning(Meant::Exactly(Verdict::Accepted(16 * 31 * 15))),
        Case::of(&calling, &all).meaning(Meant::Accepted),
        Case::of(&storing, &last_broken).violating(8, 15, 31),
        at_the_limit(&calling, &all, MAX_LENGTH + 1).refused(9, 0),
        at_the_limit(&calling, &all, MAX_LENGTH).refused(10, 1521),
    ]
}

/// The claim, and one line more that makes the text this long.
fn at_the_limit(program: &Program, frames: &[ClaimFrame], length: usize) -> Case {
    let mut claim = text(frames);
    claim.extend(b"11");
    claim.resize(length - 1, b'0');
    claim.push(b'\n');
    Case::new(program.text(), claim)
}
