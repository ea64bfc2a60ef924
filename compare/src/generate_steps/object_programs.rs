//! Programs as one would write them, with objects.

use crate::assembly::*;
use crate::program::{Handler, Program};

/// A list of x nodes that hold 1 to x, and their sum.
pub fn list(x: i32) -> Program {
    let code = vec![
        constant(0, x),
        constant(1, 1),
        new_instance(3, 2),
        iput(0, 3, 0),
        iput(2, 3, 1),
        copy(2, 3),
        sput(2, 0),
        binop(SUB, 0, 0, 1),
        branch_zero(GT, 0, 2),
        iget(4, 2, 0),
        binop(ADD, 5, 5, 4),
        iget(2, 2, 1),
        branch_zero(NE, 2, 9),
        sput(5, 1),
        return_void(),
    ];
    program(&[0, 0], &[2, 2], 2, vec![main_method(6, code)])
}

/// Objects of two classes in turn, asked for a number by a virtual call.
pub fn shapes(x: i32) -> Program {
    let main = vec![
        constant(0, x),
        constant(1, 1),
        binop(AND, 2, 0, 1),
        branch_zero(EQ, 2, 6),
        new_instance(3, 3),
        goto(7),
        new_instance(3, 4),
        copy(4, 0),
        invoke_virtual(5, 2, 3),
        move_result(2),
        binop(ADD, 5, 5, 2),
        binop(SUB, 0, 0, 1),
        branch_zero(NE, 0, 2),
        sput(5, 0),
        return_void(),
    ];
    let square = vec![binop(MUL, 0, 2, 2), iput(0, 1, 0), give(0)];
    let double = vec![iput(2, 1, 0), binop(ADD, 0, 2, 2), give(0)];
    let methods = vec![
        main_method(6, main),
        virtual_method((2, 5), 3, 2, square),
        virtual_method((4, 5), 3, 2, double),
    ];
    program(&[0, 0, 2, 2], &[2], 1, methods)
}

/// A search that leaves its loop in a callee by a throw.
pub fn search(x: i32) -> Program {
    let main = vec![
        constant(0, x),
        invoke_static(1, 1, 0),
        goto(0),
        move_exception(1),
        iget(0, 1, 0),
        sput(0, 0),
        return_void(),
    ];
    let code = vec![
        binop(MUL, 2, 1, 1),
        constant(0, 1),
        binop(ADD, 1, 1, 0),
        branch(LT, 2, 3, 0),
        new_instance(0, 2),
        iput(1, 0, 0),
        throw(0),
    ];
    let caught = vec![Handler::new(1, 2, 3, 1)];
    let methods = vec![main_method(2, main).with_handlers(caught), static_method(1, 4, 1, code)];
    program(&[0, 1], &[2], 1, methods)
}
