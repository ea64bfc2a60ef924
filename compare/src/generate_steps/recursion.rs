//! Runs at 31, 32 and 33 frames.

use super::{moments, Case};
use crate::assembly::*;
use crate::program::{Handler, Instruction, Program};
use crate::random::Random;

/// Objects 0 and 1 stand in statics 0 and 1, of classes 2 and 3 (below
/// Throwable).
const CLASSES: [u8; 3] = [0, 0, 1];

pub fn cases() -> Vec<Case> {
    let mut random = Random::new(46);
    let mut cases = Vec::new();
    for by_name in [false, true] {
        for open in [2, 31, 32] {
            let deep = deep(open, by_name, vec![constant(0, 5), give(0)], 0);
            cases.extend(moments(&deep, 32, 2, &mut random));
        }
        for open in [33, 34] {
            let deep = deep(open, by_name, vec![return_void()], 0);
            cases.extend(moments(&deep, 21, 2, &mut random));
        }
        cases.extend(at_the_end(by_name));
        cases.extend(thrown_at_the_end(by_name));
    }
    cases
}

/// A recursion of method 1 that reaches `open` frames and does `last` in the
/// last of them. Its argument and its receiver are kept in statics too.
fn deep(open: i32, by_name: bool, last: Vec<Instruction>, catching: usize) -> Program {
    let call = if by_name { invoke_virtual(1, 2, 2) } else { invoke_static(1, 2, 2) };
    let main = vec![
        new_instance(2, 2),
        sput(2, 0),
        new_instance(1, 3),
        sput(1, 1),
        constant(3, open - 2),
        call,
        move_result(0),
        sput(0, 2),
        return_void(),
    ];
    let mut code = vec![
        branch_zero(EQ, 3, 7),
        constant(0, 1),
        binop(SUB, 3, 3, 0),
        call,
        move_result(0),
        binop(ADD, 0, 0, 3),
        give(0),
    ];
    code.extend(last);
    let mut methods = vec![main_method(4, main)];
    methods.push(match by_name {
        true => virtual_method((2, 1), 4, 2, code),
        false => static_method(1, 4, 2, code),
    });
    if catching > 0 {
        methods[catching - 1].handlers = vec![Handler::new(3, 6, 6, 1)];
    }
    program(&CLASSES, &[3], 3, methods)
}

/// Each thing that can happen at 31 and 32 frames: faults and exceptions before
/// 21, 21, objects made.
fn at_the_end(by_name: bool) -> Vec<Case> {
    let endings = [
        (vec![invoke_virtual(1, 1, 2), return_void()], 46),
        (vec![invoke_virtual(2, 2, 2), return_void()], 46),
        (vec![sget(0, 1), invoke_virtual(1, 2, 0), return_void()], 46),
        (vec![constant(0, 0), invoke_virtual(1, 2, 0), return_void()], 33),
        (vec![constant(0, -1), invoke_virtual(1, 2, 0), return_void()], 42),
        (vec![constant(0, 1), invoke_virtual(9, 1, 0), return_void()], 42),
        (vec![invoke_static(0, 0, 0), return_void()], 21),
        (vec![new_instance(0, 1), return_void()], 32),
        (vec![iget(0, 2, 0), return_void()], 45),
        (vec![sget(0, 2), goto(7)], 22),
    ];
    let mut cases = Vec::new();
    for (last, number) in endings {
        for open in [31, 32] {
            let program = deep(open, by_name, last.clone(), 0);
            cases.push(Case::of(&program, 3_000).giving(number));
        }
    }
    cases
}

/// A throw in the last frame, not caught, caught at once or in method 0.
fn thrown_at_the_end(by_name: bool) -> Vec<Case> {
    let mut random = Random::new(47);
    let mut cases = Vec::new();
    for open in [3, 32] {
        for (catching, number) in [(0, 33), (1, 32), (2, 32)] {
            let last = vec![sget(0, 1), throw(0)];
            let program = deep(open, by_name, last, catching);
            cases.extend(moments(&program, number, 5, &mut random));
        }
    }
    cases
}
