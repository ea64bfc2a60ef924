//! Programs with virtual calls: who is called, and with what.

use crate::assembly::*;
use crate::program::{Method, Program, STATIC};

pub fn all() -> Vec<Program> {
    vec![
        over_classes(),
        other_counts(),
        statics_in_between(),
        many_callees(),
        no_callee(),
        three_arguments(),
        two_callers(),
    ]
}

/// A receiver of several classes: 3 and 5 lead to method 1, 4 to method 2.
fn over_classes() -> Program {
    let main = vec![
        new_instance(0, 3),
        branch_zero(EQ, 1, 5),
        new_instance(0, 4),
        branch_zero(EQ, 1, 5),
        new_instance(0, 5),
        invoke_virtual(7, 1, 0),
        move_result(1),
        return_void(),
    ];
    let methods = vec![
        main_method(2, main),
        virtual_method((2, 7), 1, 1, vec![give(0)]),
        virtual_method((4, 7), 2, 1, vec![constant(0, 8), give(0)]),
    ];
    program(&[0, 0, 2, 2, 3], &[], 0, methods)
}

/// The name with another count does not end the search.
fn other_counts() -> Program {
    let main = vec![
        new_instance(0, 4),
        copy(1, 0),
        invoke_virtual(9, 1, 0),
        invoke_virtual(9, 2, 0),
        return_void(),
    ];
    let methods = vec![
        main_method(2, main),
        virtual_method((2, 9), 1, 1, vec![give(0)]),
        virtual_method((3, 9), 2, 2, vec![give(1)]),
        virtual_method((4, 9), 3, 3, vec![return_void()]),
    ];
    program(&[0, 0, 2, 3], &[], 0, methods)
}

/// A static method of the same name and count does not end it either.
fn statics_in_between() -> Program {
    let main = vec![
        new_instance(0, 4),
        invoke_virtual(9, 1, 0),
        invoke_static(2, 1, 0),
        move_result(0),
        return_void(),
    ];
    let methods = vec![
        main_method(1, main),
        virtual_method((2, 9), 1, 1, vec![give(0)]),
        Method::new(3, 9, STATIC, 2, 1).with_code(vec![give(1)]),
        Method::new(4, 9, STATIC, 1, 1).with_code(vec![return_void()]),
    ];
    program(&[0, 0, 2, 3], &[], 0, methods)
}

/// arguments that each of them gets.
fn many_callees() -> Program {
    let main = vec![
        sget(0, 0),
        constant(1, 0),
        invoke_virtual(5, 2, 0),
        new_instance(0, 2),
        sput(0, 0),
        new_instance(0, 3),
        sput(0, 0),
        new_instance(0, 1),
        sput(0, 0),
        goto(0),
    ];
    let methods = vec![
        main_method(2, main),
        virtual_method((3, 5), 2, 2, vec![give(0)]),
        virtual_method((2, 5), 2, 2, vec![give(1)]),
        virtual_method((0, 5), 2, 2, vec![invoke_virtual(5, 1, 0), return_void()]),
    ];
    program(&[0, 1, 2], &[], 1, methods)
}

/// Calls that lead nowhere: nothing is asked of the result after them.
fn no_callee() -> Program {
    let main = vec![
        invoke_virtual(5, 1, 0),
        new_instance(0, 1),
        invoke_virtual(5, 1, 0),
        invoke_virtual(6, 1, 0),
        move_result(1),
        give(1),
    ];
    let methods = vec![main_method(2, main), virtual_method((2, 5), 1, 1, vec![give(0)])];
    program(&[0, 0], &[], 0, methods)
}

/// Three arguments in order, to a static and to a virtual method.
fn three_arguments() -> Program {
    let main = vec![
        new_instance(0, 2),
        constant(1, 5),
        invoke_static(1, 3, 0),
        invoke_virtual(4, 3, 0),
        return_void(),
    ];
    let methods = vec![
        main_method(3, main),
        static_method(1, 3, 3, vec![give(1)]),
        virtual_method((0, 4), 4, 3, vec![give(3)]),
    ];
    program(&[0, 1], &[], 0, methods)
}

/// what both bring.
fn two_callers() -> Program {
    let main = vec![
        new_instance(0, 2),
        new_instance(1, 3),
        invoke_virtual(4, 2, 0),
        copy(0, 1),
        invoke_virtual(4, 2, 0),
        move_result(0),
        throw(0),
    ];
    let methods = vec![main_method(2, main), virtual_method((0, 4), 2, 2, vec![give(1)])];
    program(&[0, 1, 2], &[], 0, methods)
}
