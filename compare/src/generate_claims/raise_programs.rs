//! Programs whose instructions raise or may raise, and programs that make and
//! throw objects of classes 2 to 4.

use crate::assembly::*;
use crate::program::{Handler, Instruction, Method, Program};
use crate::program::{ARITHMETIC, CAST, NULL, THROWABLE};
use crate::raising::{below, FIELDS, NAME, OTHER, SUPERCLASSES};

pub fn all() -> Vec<Program> {
    vec![
        null_or_object(),
        only_raising(),
        receivers(),
        divisors(),
        casts(),
        through_callers(),
        handlers_that_do_not_fit(),
        ordinary_classes(),
        in_handlers(),
        never_reached(),
    ]
}

fn of(methods: Vec<Method>) -> Program {
    whole_program(&SUPERCLASSES, &FIELDS, 1, methods)
}

fn alone(registers: u8, code: Vec<Instruction>, handlers: Vec<Handler>) -> Program {
    of(vec![main_method(registers, code).with_handlers(handlers)])
}

/// Fields of what is null or an object: both ways have what is in registers.
fn null_or_object() -> Program {
    let code = vec![
        branch_zero(EQ, 1, 2),
        new_instance(0, OTHER),
        iget(1, 0, 0),
        iput(0, 0, 1),
        give(1),
        move_exception(1),
        give(0),
    ];
    alone(2, code, vec![Handler::new(2, 3, 5, NULL), Handler::new(3, 4, 5, THROWABLE)])
}

/// Each instruction but the last has a next, which it never goes to.
fn only_raising() -> Program {
    let code = vec![
        new_instance(1, OTHER),
        iget(2, 0, 0),
        iput(1, 0, 0),
        invoke_virtual(NAME, 2, 0),
        binop(REM, 2, 0, 0),
        check_cast(1, CAST),
        throw(0),
        give(1),
    ];
    alone(3, code, vec![Handler::new(1, 2, 7, NULL), Handler::new(5, 6, 7, CAST)])
}

/// A receiver that may be null; its callee lets another class out.
fn receivers() -> Program {
    let main = vec![
        branch_zero(EQ, 1, 2),
        new_instance(0, OTHER),
        invoke_virtual(NAME, 1, 0),
        give(0),
        move_exception(1),
        give(1),
        move_exception(0),
        throw(0),
    ];
    let handlers = vec![Handler::new(2, 3, 4, NULL), Handler::new(0, 8, 6, ARITHMETIC)];
    let callee = vec![binop(DIV, 0, 0, 0), throw(0)];
    let methods = vec![
        main_method(2, main).with_handlers(handlers),
        virtual_method((OTHER, NAME), 2, 1, callee),
    ];
    of(methods)
}

/// Division by zero, by what may be zero, by another number and by an object;
/// and of an object by zero.
fn divisors() -> Program {
    let code = vec![
        constant(0, 8),
        binop(DIV, 1, 0, 1),
        binop(REM, 1, 1, 0),
        binop(DIV, 1, 1, 1),
        new_instance(0, OTHER),
        binop(REM, 1, 1, 0),
        binop(DIV, 1, 0, 2),
        give(1),
        move_exception(1),
        give(1),
    ];
    alone(3, code, vec![Handler::new(1, 3, 8, ARITHMETIC), Handler::new(5, 7, 8, ARITHMETIC)])
}

/// Casts that fail for some classes: the handler sees what did not pass too.
fn casts() -> Program {
    let code = vec![
        branch_zero(EQ, 1, 2),
        new_instance(0, below(NULL)),
        branch_zero(EQ, 1, 4),
        new_instance(0, OTHER),
        check_cast(0, 0),
        check_cast(0, NULL),
        check_cast(0, OTHER),
        constant(0, 3),
        check_cast(0, CAST),
        return_void(),
        give(0),
    ];
    alone(2, code, vec![Handler::new(4, 6, 10, CAST), Handler::new(8, 9, 10, CAST)])
}

/// Raised in a callee, out of two methods, and taken as a Throwable.
fn through_callers() -> Program {
    let main = vec![invoke_static(1, 0, 0), give(0), move_exception(0), give(0)];
    let between = vec![new_instance(0, OTHER), invoke_static(2, 1, 0), give(0)];
    let callee = vec![check_cast(0, THROWABLE), binop(DIV, 0, 0, 0), iget(0, 0, 0), give(0)];
    let methods = vec![
        main_method(1, main).with_handlers(vec![Handler::new(0, 1, 2, THROWABLE)]),
        static_method(1, 1, 0, between).with_handlers(vec![Handler::new(1, 2, 2, ARITHMETIC)]),
        static_method(2, 1, 1, callee),
    ];
    of(methods)
}

/// Handlers of classes below and beside, and of ranges before and after.
fn handlers_that_do_not_fit() -> Program {
    let code = vec![
        constant(1, 1),
        iput(1, 0, 1),
        binop(REM, 1, 1, 0),
        throw(0),
        move_exception(0),
        give(0),
    ];
    let handlers = vec![
        Handler::new(0, 1, 4, 0),
        Handler::new(1, 2, 4, below(NULL)),
        Handler::new(2, 3, 4, NULL),
        Handler::new(3, 4, 4, OTHER),
        Handler::new(4, 6, 4, THROWABLE),
        Handler::new(3, 4, 5, 0),
    ];
    alone(2, code, handlers)
}

/// Objects of classes 2 and 6 made, with fields and methods, and thrown.
fn ordinary_classes() -> Program {
    let main = vec![
        new_instance(0, below(NULL)),
        branch_zero(EQ, 1, 3),
        new_instance(0, NULL),
        iput(0, 0, 0),
        invoke_virtual(NAME, 1, 0),
        throw(0),
        move_exception(1),
        iget(1, 1, 0),
        throw(1),
    ];
    let handlers = vec![Handler::new(5, 6, 6, below(NULL)), Handler::new(4, 6, 7, NULL)];
    let methods = vec![
        main_method(2, main).with_handlers(handlers),
        virtual_method((NULL, NAME), 1, 1, vec![throw(0)]),
        virtual_method((below(NULL), NAME), 1, 1, vec![iget(0, 0, 0), throw(0)]),
    ];
    whole_program(&SUPERCLASSES, &[NULL], 0, methods)
}

/// What is raised in a handler goes to another, and back.
fn in_handlers() -> Program {
    let code = vec![
        iget(1, 0, 0),
        move_exception(1),
        check_cast(1, ARITHMETIC),
        move_exception(0),
        binop(DIV, 1, 0, 2),
        throw(0),
    ];
    let handlers = vec![
        Handler::new(0, 1, 1, NULL),
        Handler::new(2, 3, 3, THROWABLE),
        Handler::new(4, 6, 2, THROWABLE),
    ];
    alone(3, code, handlers)
}

/// Behind a goto and in a method that nobody calls: zeros raise there too, and
/// what holds nothing does not.
fn never_reached() -> Program {
    let main = vec![goto(2), iget(0, 1, 0), return_void(), constant(1, 0), throw(1)];
    let unused = vec![binop(DIV, 0, 0, 1), iput(0, 1, 0), invoke_virtual(NAME, 1, 0), throw(1)];
    of(vec![main_method(2, main), static_method(1, 2, 1, unused)])
}
