//! Programs with static calls: parameters and results.

use crate::assembly::*;
use crate::program::Program;

pub fn all() -> Vec<Program> {
    vec![arguments(), without_arguments(), itself(), uncalled(), handed_on()]
}

/// Two arguments, with registers before them, and a result.
fn arguments() -> Program {
    let main = vec![
        new_instance(0, 2),
        constant(1, 4),
        invoke_static(1, 2, 0),
        move_result(0),
        invoke_static(1, 2, 0),
        give(0),
    ];
    let second = vec![copy(0, 2), branch_zero(EQ, 0, 3), give(1), give(0)];
    let methods = vec![main_method(2, main), static_method(1, 3, 2, second)];
    program(&[0, 0], &[], 0, methods)
}

/// Calls without arguments, and a result that a second call replaces.
fn without_arguments() -> Program {
    let main = vec![
        invoke_static(1, 0, 0),
        invoke_static(2, 0, 0),
        move_result(0),
        invoke_static(1, 0, 0),
        move_result(0),
        return_void(),
    ];
    let methods = vec![
        main_method(1, main),
        static_method(1, 1, 0, vec![new_instance(0, 1), give(0)]),
        static_method(2, 1, 0, vec![return_void()]),
    ];
    program(&[0], &[], 0, methods)
}

/// Methods that call themselves and method 0.
fn itself() -> Program {
    let main = vec![constant(0, 3), invoke_static(1, 1, 0), return_void()];
    let callee = vec![
        branch_zero(EQ, 1, 4),
        new_instance(0, 2),
        invoke_static(1, 1, 0),
        invoke_static(0, 0, 0),
        give(1),
    ];
    let methods = vec![main_method(1, main), static_method(1, 2, 1, callee)];
    program(&[0, 0], &[], 0, methods)
}

/// Methods that nobody calls have rules too.
fn uncalled() -> Program {
    let unused = vec![new_instance(0, 2), invoke_virtual(3, 1, 0), throw(0)];
    let methods = vec![
        main_method(1, vec![return_void()]),
        static_method(1, 2, 1, unused),
        virtual_method((1, 3), 2, 1, vec![sput(1, 0), goto(0)]),
    ];
    program(&[0, 1], &[], 1, methods)
}

/// Two classes handed on from method to method, forward and back.
fn handed_on() -> Program {
    let main = vec![
        new_instance(0, 2),
        invoke_static(3, 1, 0),
        new_instance(0, 1),
        invoke_static(1, 1, 0),
        return_void(),
    ];
    let methods = vec![
        main_method(1, main),
        static_method(1, 1, 1, vec![invoke_static(2, 1, 0), give(0)]),
        static_method(2, 1, 1, vec![return_void()]),
        static_method(3, 1, 1, vec![invoke_static(1, 1, 0), return_void()]),
    ];
    program(&[0, 0], &[], 0, methods)
}
