//! Programs with exceptions: across callers, around handlers, into storage.

use crate::assembly::*;
use crate::program::{Handler, Method, Program};

pub fn all() -> Vec<Program> {
    vec![
        across_callers(),
        thrown_again(),
        first_of_several(),
        handler_of_itself(),
        registers_at_the_call(),
        from_virtual_callees(),
        recursive_throw(),
        kept_in_a_static(),
        not_throwable(),
    ]
}

/// Class 2 is no Throwable; 4 lies below 3 below Throwable, and 5 beside 3.
const CLASSES: [u8; 5] = [0, 0, 1, 3, 1];

fn of(methods: Vec<Method>) -> Program {
    program(&CLASSES, &[], 1, methods)
}

/// Three classes leave the last method; each caller takes one of them.
fn across_callers() -> Program {
    let caller = |number: u8, class: u8| {
        let code = vec![invoke_static(number + 1, 0, 0), give(0), move_exception(0), give(0)];
        static_method(number, 2, 0, code).with_handlers(vec![Handler::new(0, 1, 2, class)])
    };
    let throwing = vec![
        new_instance(0, 4),
        branch_zero(EQ, 1, 5),
        new_instance(0, 5),
        branch_zero(EQ, 1, 5),
        new_instance(0, 1),
        throw(0),
    ];
    let main = vec![invoke_static(1, 0, 0), move_result(0), give(0)];
    let methods = vec![
        main_method(1, main),
        caller(1, 3),
        caller(2, 5),
        caller(3, 4),
        static_method(4, 2, 0, throwing),
    ];
    of(methods)
}

/// A handler throws another class, which the next handler takes.
fn thrown_again() -> Program {
    let code = vec![
        new_instance(0, 4),
        throw(0),
        new_instance(1, 5),
        throw(1),
        move_exception(0),
        new_instance(1, 3),
        throw(1),
        throw(0),
    ];
    let handlers =
        vec![Handler::new(0, 2, 2, 4), Handler::new(3, 4, 4, 1), Handler::new(6, 8, 7, 3)];
    of(vec![main_method(2, code).with_handlers(handlers)])
}

/// Of handlers that fit a class only the first takes it.
fn first_of_several() -> Program {
    let main = vec![
        invoke_static(1, 1, 0),
        return_void(),
        move_exception(0),
        give(0),
        move_exception(1),
        give(1),
        nop(),
        goto(6),
    ];
    let handlers = vec![
        Handler::new(1, 2, 6, 1),
        Handler::new(0, 1, 2, 4),
        Handler::new(0, 2, 4, 3),
        Handler::new(0, 1, 6, 4),
        Handler::new(0, 1, 6, 2),
    ];
    let throwing = vec![new_instance(0, 3), branch_zero(EQ, 1, 3), new_instance(0, 4), throw(0)];
    let methods =
        vec![main_method(2, main).with_handlers(handlers), static_method(1, 2, 1, throwing)];
    of(methods)
}

/// The target of a handler is the throw itself, or the call.
fn handler_of_itself() -> Program {
    let main = vec![move_exception(0), invoke_static(1, 1, 0), throw(0)];
    let callee = vec![new_instance(0, 5), throw(0), throw(1)];
    let methods = vec![
        main_method(1, main)
            .with_handlers(vec![Handler::new(1, 3, 1, 3), Handler::new(1, 2, 0, 1)]),
        static_method(1, 2, 1, callee).with_handlers(vec![Handler::new(0, 2, 2, 5)]),
    ];
    of(methods)
}

/// The caller's registers at the call go to the handler, not the callee's, and
/// not the result.
fn registers_at_the_call() -> Program {
    let main = vec![
        new_instance(0, 2),
        invoke_static(2, 0, 0),
        constant(1, 5),
        invoke_static(1, 2, 0),
        new_instance(1, 4),
        give(1),
        move_result(2),
        give(0),
    ];
    let callee = vec![new_instance(0, 3), constant(1, 0), throw(0)];
    let methods = vec![
        main_method(3, main).with_handlers(vec![Handler::new(1, 5, 6, 0)]),
        static_method(1, 3, 2, callee),
        static_method(2, 1, 0, vec![new_instance(0, 5), give(0)]),
    ];
    of(methods)
}

/// Each caught exception is the receiver of a call that throws another.
fn from_virtual_callees() -> Program {
    let main = vec![
        new_instance(0, 3),
        invoke_virtual(7, 1, 0),
        return_void(),
        move_exception(0),
        goto(1),
    ];
    let throwing = |class: u8| vec![new_instance(0, class), throw(0)];
    let methods = vec![
        main_method(1, main).with_handlers(vec![Handler::new(1, 2, 3, 1)]),
        virtual_method((3, 7), 2, 1, throwing(4)),
        virtual_method((4, 7), 2, 1, throwing(5)),
        virtual_method((5, 7), 2, 1, throwing(1)),
        virtual_method((1, 7), 2, 1, vec![throw(1)]),
    ];
    of(methods)
}

/// A method that calls itself lets out what it takes from itself.
fn recursive_throw() -> Program {
    let callee = vec![
        branch_zero(EQ, 1, 3),
        invoke_static(1, 1, 0),
        return_void(),
        new_instance(0, 4),
        throw(0),
        move_exception(0),
        invoke_static(1, 1, 0),
        throw(0),
    ];
    let methods = vec![
        main_method(1, vec![constant(0, 2), invoke_static(1, 1, 0), return_void()]),
        static_method(1, 2, 1, callee).with_handlers(vec![Handler::new(1, 2, 5, 3)]),
    ];
    of(methods)
}

/// Caught, put into a static, and thrown by another method.
fn kept_in_a_static() -> Program {
    let main = vec![invoke_static(1, 0, 0), return_void(), move_exception(0), sput(0, 0), goto(0)];
    let callee = vec![sget(0, 0), branch_zero(NE, 0, 3), new_instance(0, 5), throw(0)];
    let methods = vec![
        main_method(1, main).with_handlers(vec![Handler::new(0, 1, 2, 5)]),
        static_method(1, 1, 0, callee),
    ];
    of(methods)
}

/// Numbers other than zero and objects of other classes raise nothing, whatever
/// is covered.
fn not_throwable() -> Program {
    let code = vec![
        new_instance(0, 2),
        branch_zero(EQ, 1, 3),
        constant(0, 3),
        throw(0),
        move_exception(1),
        give(1),
    ];
    of(vec![main_method(2, code).with_handlers(vec![Handler::new(0, 6, 4, 0)])])
}
