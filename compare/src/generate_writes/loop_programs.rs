//! Programs with loops: what goes around, backward and many times.

use crate::assembly::*;
use crate::program::{Handler, Instruction, Program};

pub fn all() -> Vec<Program> {
    vec![
        every_opcode(),
        backward(),
        rotating(),
        two_loops(),
        numbers_around(),
        casts_around(),
        results_around(),
        behind_a_goto(),
        to_itself(),
    ]
}

/// Class 2 lies below 0, class 3 below 2, class 4 below Throwable.
const CLASSES: [u8; 4] = [0, 0, 2, 1];

fn alone(registers: u8, code: Vec<Instruction>) -> Program {
    program(&CLASSES, &[], 1, vec![main_method(registers, code)])
}

/// All 21 instructions, those of two ways in both.
fn every_opcode() -> Program {
    let main = vec![
        nop(),
        new_instance(0, 3),
        copy(1, 0),
        constant(2, 9),
        branch(LT, 2, 3, 8),
        binop(ADD, 3, 2, 3),
        unop(NOT, 3, 3),
        iput(3, 0, 0),
        iget(3, 0, 0),
        sput(1, 0),
        sget(1, 0),
        invoke_virtual(1, 2, 0),
        move_result(1),
        invoke_static(2, 1, 3),
        move_exception(2),
        instance_of(3, 1, 2),
        check_cast(1, 2),
        branch_zero(NE, 3, 2),
        goto(19),
        give(1),
    ];
    let methods = vec![
        main_method(4, main).with_handlers(vec![Handler::new(13, 14, 14, 1)]),
        virtual_method((2, 1), 3, 2, vec![branch_zero(EQ, 2, 2), return_void(), give(2)]),
        static_method(2, 2, 1, vec![new_instance(0, 4), throw(0)]),
    ];
    program(&CLASSES, &[2], 1, methods)
}

/// Each jump goes one address back.
fn backward() -> Program {
    let mut code = vec![new_instance(0, 3), goto(9), give(0), goto(2)];
    code.extend((3..9).map(goto));
    alone(2, code)
}

/// Registers handed on by one place each time around.
fn rotating() -> Program {
    let code = vec![
        copy(0, 1),
        copy(1, 2),
        copy(2, 3),
        copy(3, 4),
        new_instance(4, 3),
        branch_zero(EQ, 0, 0),
        constant(4, -3),
        branch_zero(NE, 1, 0),
        give(0),
    ];
    alone(5, code)
}

/// One loop in another, with a class of each that the other takes up.
fn two_loops() -> Program {
    let code = vec![
        new_instance(0, 2),
        copy(1, 3),
        copy(2, 0),
        branch_zero(EQ, 1, 2),
        new_instance(3, 4),
        copy(0, 1),
        branch_zero(NE, 2, 1),
        throw(0),
    ];
    alone(4, code)
}

/// A sum is a number only where each of its parts may be one.
fn numbers_around() -> Program {
    let code = vec![
        new_instance(0, 2),
        new_instance(1, 3),
        binop(MUL, 2, 0, 1),
        unop(NEG, 3, 2),
        binop(XOR, 1, 3, 4),
        branch_zero(LT, 4, 3),
        constant(0, 0),
        branch_zero(GE, 4, 2),
        give(2),
    ];
    alone(5, code)
}

/// Casts let through less each time around, never more.
fn casts_around() -> Program {
    let code = vec![
        new_instance(0, 2),
        branch_zero(EQ, 1, 4),
        new_instance(0, 3),
        branch_zero(NE, 1, 0),
        copy(1, 0),
        check_cast(1, 3),
        copy(2, 1),
        check_cast(0, 2),
        check_cast(2, 1),
        branch(EQ, 0, 1, 1),
        give(2),
    ];
    alone(3, code)
}

/// The result stays where nothing is called, and does not where it is.
fn results_around() -> Program {
    let main = vec![
        invoke_static(1, 0, 0),
        nop(),
        move_result(0),
        branch_zero(EQ, 0, 1),
        invoke_static(2, 1, 0),
        branch_zero(EQ, 0, 2),
        move_result(1),
        give(1),
    ];
    let methods = vec![
        main_method(2, main),
        static_method(1, 1, 0, vec![new_instance(0, 2), give(0)]),
        static_method(2, 1, 1, vec![give(0)]),
    ];
    program(&CLASSES, &[], 0, methods)
}

/// Code that no run comes to: what it writes itself is all it has.
fn behind_a_goto() -> Program {
    let code = vec![
        goto(5),
        new_instance(1, 4),
        copy(0, 2),
        binop(ADD, 2, 2, 2),
        sput(1, 0),
        sget(2, 0),
        give(2),
    ];
    alone(3, code)
}

/// Jumps to their own address.
fn to_itself() -> Program {
    let code = vec![constant(0, 1), branch_zero(EQ, 0, 1), new_instance(0, 2), goto(3)];
    alone(1, code)
}
