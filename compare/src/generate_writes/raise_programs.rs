//! Programs in which something is raised only after masks have grown: around
//! loops, through fields, and by what was raised before.

use crate::assembly::*;
use crate::program::{Handler, Instruction, Method, Program};
use crate::program::{ARITHMETIC, CAST, NULL, THROWABLE};
use crate::raising::{below, NAME, OTHER, SUPERCLASSES};

pub fn all() -> Vec<Program> {
    vec![
        null_around_a_loop(),
        classes_around_a_loop(),
        divisor_later(),
        raised_receivers(),
        fields_of_what_is_raised(),
        null_of_a_field(),
        handed_to_the_callee(),
        recursion(),
        thrown_and_raised(),
    ]
}

/// Field 0 is of class 2, field 1 of class 5.
const FIELDS: [u8; 2] = [NULL, OTHER];

fn of(methods: Vec<Method>) -> Program {
    whole_program(&SUPERCLASSES, &FIELDS, 1, methods)
}

fn alone(registers: u8, code: Vec<Instruction>, handlers: Vec<Handler>) -> Program {
    of(vec![main_method(registers, code).with_handlers(handlers)])
}

/// An object at first, of the class that null raises there later.
fn null_around_a_loop() -> Program {
    let code = vec![
        new_instance(0, NULL),
        iput(1, 0, 0),
        iget(1, 0, 0),
        constant(0, 0),
        branch_zero(EQ, 2, 1),
        give(1),
        move_exception(2),
        goto(4),
    ];
    alone(3, code, vec![Handler::new(2, 3, 6, NULL)])
}

/// A cast that fails for what its own handler brings.
fn classes_around_a_loop() -> Program {
    let code = vec![
        new_instance(0, below(NULL)),
        check_cast(0, NULL),
        copy(1, 0),
        check_cast(1, below(NULL)),
        new_instance(0, NULL),
        goto(1),
        move_exception(0),
        goto(1),
    ];
    alone(2, code, vec![Handler::new(3, 4, 6, CAST), Handler::new(1, 2, 6, CAST)])
}

/// Another number at first, then whatever the operation gives.
fn divisor_later() -> Program {
    let code = vec![
        constant(0, 6),
        constant(1, 2),
        binop(DIV, 2, 0, 1),
        copy(1, 2),
        branch_zero(NE, 0, 2),
        give(1),
        move_exception(0),
        binop(REM, 1, 1, 0),
        goto(2),
    ];
    alone(3, code, vec![Handler::new(2, 3, 6, THROWABLE)])
}

/// What is caught is the next receiver, and each callee raises another class.
fn raised_receivers() -> Program {
    let main = vec![invoke_virtual(NAME, 1, 0), give(0), move_exception(0), goto(0)];
    let methods = vec![
        main_method(1, main).with_handlers(vec![Handler::new(0, 1, 2, THROWABLE)]),
        virtual_method((NULL, NAME), 2, 1, vec![binop(DIV, 0, 0, 0), give(0)]),
        virtual_method((ARITHMETIC, NAME), 1, 1, vec![check_cast(0, CAST), give(0)]),
        virtual_method((CAST, NAME), 2, 1, vec![new_instance(0, 7), throw(0)]),
        virtual_method((7, NAME), 1, 1, vec![throw(0)]),
    ];
    of(methods)
}

/// The class that is raised is one whose field is looked at, at one address.
fn fields_of_what_is_raised() -> Program {
    let code = vec![
        iget(1, 0, 0),
        iput(0, 0, 0),
        goto(0),
        move_exception(0),
        sput(0, 0),
        sget(0, 0),
        goto(0),
    ];
    alone(2, code, vec![Handler::new(0, 1, 3, NULL), Handler::new(1, 2, 5, below(NULL))])
}

/// A list without end is walked: the next object may be null.
fn null_of_a_field() -> Program {
    let main = vec![
        new_instance(0, OTHER),
        iput(0, 0, 1),
        invoke_static(1, 1, 0),
        give(0),
        move_exception(0),
        throw(0),
    ];
    let walk = vec![iget(0, 0, 1), goto(0)];
    let methods = vec![
        main_method(1, main).with_handlers(vec![Handler::new(2, 3, 4, NULL)]),
        static_method(1, 1, 1, walk),
    ];
    of(methods)
}

/// The exception of a callee is its next argument.
fn handed_to_the_callee() -> Program {
    let main = vec![
        new_instance(0, OTHER),
        invoke_static(1, 1, 0),
        return_void(),
        move_exception(0),
        goto(1),
    ];
    let callee = vec![check_cast(1, OTHER), iget(0, 1, 1), throw(0)];
    let methods = vec![
        main_method(1, main).with_handlers(vec![Handler::new(1, 2, 3, THROWABLE)]),
        static_method(1, 2, 1, callee).with_handlers(vec![Handler::new(2, 3, 0, below(NULL))]),
    ];
    of(methods)
}

/// A method calls itself with null and with what it catches.
fn recursion() -> Program {
    let callee = vec![
        iget(0, 1, 1),
        invoke_static(1, 1, 0),
        give(0),
        move_exception(0),
        invoke_static(1, 1, 0),
        binop(REM, 0, 0, 0),
        throw(0),
    ];
    let main = vec![new_instance(0, OTHER), invoke_static(1, 1, 0), return_void()];
    let methods = vec![
        main_method(1, main),
        static_method(1, 2, 1, callee).with_handlers(vec![Handler::new(0, 2, 3, NULL)]),
    ];
    of(methods)
}

/// One throw of null and of objects of classes 2, 4 and 6.
fn thrown_and_raised() -> Program {
    let code = vec![
        branch_zero(EQ, 1, 6),
        new_instance(0, below(NULL)),
        branch_zero(EQ, 1, 6),
        new_instance(0, CAST),
        branch_zero(EQ, 1, 6),
        new_instance(0, NULL),
        throw(0),
        move_exception(1),
        give(1),
    ];
    alone(2, code, vec![Handler::new(6, 7, 7, below(NULL)), Handler::new(6, 7, 8, NULL)])
}
