//! Programs as one would write them: loops and recursion.

use super::object_programs::{list, search, shapes};
use super::{endless, moments, Case};
use crate::assembly::*;
use crate::program::Program;
use crate::random::Random;

pub fn cases() -> Vec<Case> {
    let mut random = Random::new(42);
    let mut cases = Vec::new();
    for program in [
        factorial(1),
        factorial(12),
        common_divisor(1071, 462),
        common_divisor(-48, 36),
        collatz(27),
        bits(0x5a5a_0ff1u32 as i32),
        fibonacci(1),
        fibonacci(9),
        parity(20),
        parity(27),
        list(12),
        list(255),
        shapes(9),
        search(7),
    ] {
        cases.extend(moments(&program, 32, 4, &mut random));
    }
    cases.extend(moments(&parity(31), 21, 6, &mut random));
    cases.extend(moments(&list(257), 20, 6, &mut random));
    cases.extend(endless(&xorshift(), &[1, 2, 5, 8, 9, 10, 100, 1_000, 54_321]));
    cases
}

/// Static 0 becomes 1 * 2 * ... * x.
pub fn factorial(x: i32) -> Program {
    let code = vec![
        constant(0, x),
        constant(1, 1),
        constant(2, 1),
        binop(MUL, 1, 1, 0),
        binop(SUB, 0, 0, 2),
        branch_zero(GT, 0, 3),
        sput(1, 0),
        return_void(),
    ];
    program(&[0], &[], 1, vec![main_method(3, code)])
}

fn common_divisor(x: i32, y: i32) -> Program {
    let code = vec![
        constant(0, x),
        constant(1, y),
        branch_zero(EQ, 1, 7),
        binop(REM, 2, 0, 1),
        copy(0, 1),
        copy(1, 2),
        goto(2),
        sput(0, 1),
        return_void(),
    ];
    program(&[0], &[], 2, vec![main_method(3, code)])
}

/// Static 0 becomes the number of steps from x to 1.
fn collatz(x: i32) -> Program {
    let code = vec![
        constant(0, x),
        constant(1, 1),
        constant(3, 3),
        branch(EQ, 0, 1, 12),
        binop(AND, 4, 0, 1),
        branch_zero(NE, 4, 8),
        binop(SHR, 0, 0, 1),
        goto(10),
        binop(MUL, 0, 0, 3),
        binop(ADD, 0, 0, 1),
        binop(ADD, 2, 2, 1),
        goto(3),
        sput(2, 0),
        return_void(),
    ];
    program(&[0], &[], 1, vec![main_method(5, code)])
}

/// Counts the bits that are one.
fn bits(x: i32) -> Program {
    let code = vec![
        constant(0, x),
        constant(1, 1),
        branch_zero(EQ, 0, 7),
        binop(AND, 2, 0, 1),
        binop(ADD, 3, 3, 2),
        binop(USHR, 0, 0, 1),
        goto(2),
        sput(3, 0),
        return_void(),
    ];
    program(&[0], &[], 1, vec![main_method(4, code)])
}

fn xorshift() -> Program {
    let mut code = crate::assembly::xorshift();
    code.push(goto(4));
    program(&[0], &[], 0, vec![main_method(5, code)])
}

fn fibonacci(x: i32) -> Program {
    let main =
        vec![constant(1, x), invoke_static(1, 1, 1), move_result(0), sput(0, 0), return_void()];
    let code = vec![
        constant(0, 2),
        branch(GE, 3, 0, 3),
        give(3),
        constant(0, 1),
        binop(SUB, 1, 3, 0),
        invoke_static(1, 1, 1),
        move_result(2),
        binop(SUB, 1, 1, 0),
        invoke_static(1, 1, 1),
        move_result(1),
        binop(ADD, 1, 1, 2),
        give(1),
    ];
    program(&[0], &[], 1, vec![main_method(2, main), static_method(1, 4, 1, code)])
}

/// Even and odd, each by the other.
fn parity(x: i32) -> Program {
    let main = vec![constant(0, x), invoke_static(1, 1, 0), move_result(0), sput(0, 0), give(0)];
    let half = |other, at_zero| {
        vec![
            branch_zero(EQ, 1, 6),
            constant(0, -1),
            binop(ADD, 1, 1, 0),
            invoke_static(other, 1, 1),
            move_result(0),
            give(0),
            constant(0, at_zero),
            give(0),
        ]
    };
    let (even, odd) = (static_method(1, 2, 1, half(2, 1)), static_method(2, 2, 1, half(1, 0)));
    program(&[0], &[], 1, vec![main_method(1, main), even, odd])
}
