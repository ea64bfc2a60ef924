//! Programs with exceptions: which handler takes a class, and what leaves.

use crate::assembly::*;
use crate::program::{Handler, Instruction, Method, Program};

pub fn all() -> Vec<Program> {
    vec![
        caught(),
        first_that_fits(),
        nested(),
        not_thrown(),
        through_callers(),
        caught_in_part(),
        from_several_callees(),
        back_to_itself(),
        again(),
    ]
}

/// Class 2 is no Throwable; 4 lies below 3 below Throwable, and 5 beside 3.
const CLASSES: [u8; 5] = [0, 0, 1, 3, 1];

fn of(methods: Vec<Method>) -> Program {
    program(&CLASSES, &[], 1, methods)
}

/// The registers at the throw and the class go to the handler, the result
/// does not.
fn caught() -> Program {
    let code = vec![
        constant(1, 5),
        new_instance(0, 3),
        throw(0),
        move_exception(1),
        move_result(0),
        give(1),
    ];
    of(vec![main_method(2, code).with_handlers(vec![Handler::new(2, 3, 3, 1)])])
}

/// Throws one of three classes.
fn three_thrown() -> Vec<Instruction> {
    vec![
        new_instance(0, 3),
        branch_zero(EQ, 1, 5),
        new_instance(0, 4),
        branch_zero(EQ, 1, 5),
        new_instance(0, 5),
        throw(0),
        move_exception(1),
        give(1),
        move_exception(0),
        give(0),
    ]
}

/// Class 4 goes to the first, 3 to the second, 5 leaves.
fn first_that_fits() -> Program {
    let handlers = vec![
        Handler::new(0, 5, 0, 0),
        Handler::new(5, 6, 6, 4),
        Handler::new(0, 10, 8, 3),
        Handler::new(5, 6, 0, 4),
    ];
    of(vec![main_method(2, three_thrown()).with_handlers(handlers)])
}

/// One range in another, and the same classes in both.
fn nested() -> Program {
    let handlers =
        vec![Handler::new(5, 6, 6, 3), Handler::new(3, 8, 8, 3), Handler::new(0, 9, 7, 1)];
    of(vec![main_method(2, three_thrown()).with_handlers(handlers)])
}

/// Numbers other than zero and objects that are no Throwable raise nothing.
fn not_thrown() -> Program {
    let code = vec![
        branch_zero(EQ, 0, 3),
        new_instance(0, 2),
        branch_zero(NE, 0, 4),
        constant(0, 9),
        throw(0),
        move_exception(0),
        return_void(),
    ];
    of(vec![main_method(1, code).with_handlers(vec![Handler::new(0, 7, 5, 0)])])
}

/// Makes an object and throws it.
fn thrower(class: u8) -> Vec<Instruction> {
    vec![new_instance(0, class), throw(0)]
}

/// An exception that leaves three methods, and a register of each.
fn through_callers() -> Program {
    let calling = |number: u8, callee: u8| {
        let code = vec![constant(0, 1), invoke_static(callee, 0, 0), give(0)];
        static_method(number, 1, 0, code)
    };
    let main = vec![invoke_static(1, 0, 0), return_void()];
    let methods = vec![
        main_method(1, main),
        calling(1, 2),
        calling(2, 3),
        static_method(3, 1, 0, thrower(4)),
    ];
    of(methods)
}

/// Of the classes that leave a callee, one is caught and one goes on.
fn caught_in_part() -> Program {
    let main = vec![new_instance(0, 2), invoke_static(1, 1, 0), return_void(), give(0)];
    let callee =
        vec![branch_zero(EQ, 0, 3), new_instance(0, 5), throw(0), new_instance(0, 4), throw(0)];
    let methods = vec![
        main_method(1, main).with_handlers(vec![Handler::new(1, 2, 3, 3)]),
        static_method(1, 1, 1, callee),
    ];
    of(methods)
}

/// A virtual call whose callees throw other classes.
fn from_several_callees() -> Program {
    let main = vec![
        new_instance(0, 3),
        branch_zero(EQ, 1, 3),
        new_instance(0, 5),
        invoke_virtual(2, 1, 0),
        return_void(),
        move_exception(0),
        throw(0),
        move_exception(1),
        throw(1),
    ];
    let handlers = vec![Handler::new(3, 4, 5, 3), Handler::new(3, 4, 7, 5)];
    let methods = vec![
        main_method(2, main).with_handlers(handlers),
        virtual_method((3, 2), 2, 1, thrower(4)),
        virtual_method((1, 2), 1, 1, vec![throw(0)]),
    ];
    of(methods)
}

/// Handlers at the throw, before it, and of a call's own address.
fn back_to_itself() -> Program {
    let main =
        vec![move_exception(0), throw(0), new_instance(0, 4), invoke_static(1, 1, 0), goto(0)];
    let handlers = vec![Handler::new(1, 2, 1, 4), Handler::new(0, 5, 3, 0)];
    let methods = vec![
        main_method(1, main).with_handlers(handlers),
        static_method(1, 1, 1, vec![throw(0)]).with_handlers(vec![Handler::new(0, 1, 0, 5)]),
    ];
    of(methods)
}

/// Caught, changed for another object and thrown again.
fn again() -> Program {
    let code = vec![
        new_instance(0, 5),
        throw(0),
        move_exception(1),
        new_instance(0, 4),
        throw(0),
        move_exception(0),
        throw(1),
    ];
    let handlers =
        vec![Handler::new(1, 2, 2, 5), Handler::new(4, 5, 5, 3), Handler::new(6, 7, 2, 3)];
    of(vec![main_method(2, code).with_handlers(handlers)])
}
