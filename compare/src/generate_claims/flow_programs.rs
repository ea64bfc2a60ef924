//! Programs without calls: what flows on, and what is written.

use crate::assembly::*;
use crate::program::{Instruction, Program};

pub fn all() -> Vec<Program> {
    vec![
        count_down(),
        branches(),
        moves(),
        numbers(),
        casts(),
        instances(),
        unreachable_code(),
        returns(),
    ]
}

/// Class 2 lies below 0, class 3 below 2, class 4 below Throwable.
fn alone(registers: u8, statics: usize, code: Vec<Instruction>) -> Program {
    program(&[0, 0, 2, 1], &[], statics, vec![main_method(registers, code)])
}

fn count_down() -> Program {
    let code = vec![
        constant(0, 9),
        constant(1, 1),
        binop(SUB, 0, 0, 1),
        branch_zero(GT, 0, 2),
        sput(0, 0),
        return_void(),
    ];
    alone(2, 1, code)
}

/// Ways that part and meet again, with another class on each.
fn branches() -> Program {
    let code = vec![
        branch(EQ, 0, 1, 3),
        new_instance(0, 2),
        goto(5),
        new_instance(0, 3),
        branch_zero(NE, 0, 0),
        copy(1, 0),
        branch(NE, 0, 1, 0),
        give(1),
    ];
    alone(2, 0, code)
}

/// Registers that are written over, one by itself, and a result that stays.
fn moves() -> Program {
    let code = vec![
        new_instance(0, 3),
        copy(0, 0),
        copy(1, 0),
        constant(0, 0),
        copy(2, 1),
        move_result(1),
        copy(1, 1),
        move_exception(2),
        constant(2, -1),
        give(2),
    ];
    alone(3, 0, code)
}

/// Operands that are numbers, objects, or may be both.
fn numbers() -> Program {
    let code = vec![
        new_instance(0, 2),
        binop(ADD, 1, 0, 2),
        unop(NEG, 1, 0),
        unop(NOT, 1, 2),
        branch_zero(EQ, 1, 6),
        constant(0, 5),
        binop(XOR, 2, 0, 1),
        unop(NEG, 0, 0),
        give(0),
    ];
    alone(3, 0, code)
}

/// A cast lets null and the classes at or below it through.
fn casts() -> Program {
    let code = vec![
        branch_zero(EQ, 1, 3),
        new_instance(0, 3),
        goto(6),
        branch_zero(EQ, 1, 5),
        new_instance(0, 4),
        branch_zero(NE, 1, 0),
        constant(1, 3),
        copy(1, 0),
        check_cast(0, 2),
        check_cast(1, 1),
        check_cast(1, 3),
        give(0),
    ];
    alone(2, 0, code)
}

fn instances() -> Program {
    let code = vec![
        new_instance(0, 4),
        instance_of(1, 0, 1),
        branch_zero(EQ, 1, 5),
        instance_of(0, 0, 4),
        sput(0, 0),
        sget(1, 1),
        sput(1, 0),
        sget(0, 0),
        throw(0),
    ];
    alone(2, 2, code)
}

/// Code that no run comes to has rules all the same.
fn unreachable_code() -> Program {
    let code = vec![
        goto(4),
        new_instance(0, 2),
        sput(0, 0),
        throw(0),
        return_void(),
        new_instance(1, 4),
        throw(1),
        constant(0, 7),
        invoke_static(0, 0, 0),
        give(0),
    ];
    alone(2, 1, code)
}

fn returns() -> Program {
    let code = vec![
        branch_zero(EQ, 0, 3),
        constant(0, 6),
        give(0),
        new_instance(0, 2),
        branch_zero(EQ, 0, 6),
        give(0),
        return_void(),
    ];
    alone(1, 0, code)
}
