//! Programs without end, each busy with one kind of instruction, those of
//! exceptions that are raised, and one that does nothing.

use compare::assembly::*;
use compare::program::{Handler, Instruction, Method, Program};
use compare::program::{ARITHMETIC, NULL, STATIC};

pub fn all() -> Vec<(&'static str, Program)> {
    vec![
        ("arithmetic", arithmetic()),
        ("static calls", static_calls()),
        ("virtual calls", virtual_calls()),
        ("fields and statics", storage()),
        ("throw and catch in a frame", in_a_frame()),
        ("throw and catch across a caller", across_a_caller()),
        ("mixed", mixed()),
    ]
}

/// A generator of numbers, and sums by what they are.
fn arithmetic() -> Program {
    let mut code = xorshift();
    code.extend([
        branch_zero(LT, 0, 14),
        binop(ADD, 5, 5, 0),
        binop(REM, 6, 5, 2),
        goto(4),
        unop(NOT, 4, 0),
        binop(MUL, 4, 4, 3),
        binop(SUB, 5, 5, 4),
        goto(4),
    ]);
    program(&[0], &[], 0, vec![main_method(7, code)])
}

fn static_calls() -> Program {
    let main = vec![
        constant(0, 3),
        constant(1, 1),
        invoke_static(1, 2, 0),
        move_result(0),
        invoke_static(2, 1, 1),
        goto(2),
    ];
    let sum = vec![binop(ADD, 0, 1, 2), invoke_static(2, 1, 0), give(0)];
    let nothing = vec![return_void()];
    let methods =
        vec![main_method(2, main), static_method(1, 3, 2, sum), static_method(2, 2, 1, nothing)];
    program(&[0], &[], 0, methods)
}

fn virtual_calls() -> Program {
    let main = vec![
        new_instance(0, 2),
        new_instance(2, 4),
        constant(1, 1),
        copy(3, 1),
        invoke_virtual(7, 2, 0),
        invoke_virtual(7, 2, 2),
        move_result(1),
        goto(4),
    ];
    let methods = vec![
        main_method(4, main),
        virtual_method((2, 7), 3, 2, vec![binop(ADD, 0, 2, 2), give(0)]),
        virtual_method((3, 7), 3, 2, vec![invoke_virtual(8, 1, 1), move_result(0), give(0)]),
        virtual_method((0, 8), 2, 1, vec![constant(0, 5), give(0)]),
    ];
    program(&[0, 0, 2, 3], &[], 0, methods)
}

fn storage() -> Program {
    let code = vec![
        new_instance(0, 2),
        new_instance(1, 3),
        constant(2, 1),
        iget(3, 0, 0),
        binop(ADD, 3, 3, 2),
        iput(3, 0, 0),
        iput(0, 1, 1),
        iget(4, 1, 1),
        iget(5, 4, 0),
        sget(6, 3),
        binop(XOR, 6, 6, 5),
        sput(6, 3),
        sput(4, 0),
        sget(0, 0),
        goto(3),
    ];
    program(&[0, 0, 2], &[2, 3], 4, vec![main_method(7, code)])
}

fn in_a_frame() -> Program {
    let code = vec![new_instance(0, 3), throw(0), nop(), move_exception(1), goto(1)];
    let handlers =
        vec![Handler::new(0, 1, 0, 1), Handler::new(0, 5, 0, 2), Handler::new(1, 2, 3, 1)];
    program(&[0, 0, 1], &[], 0, vec![main_method(2, code).with_handlers(handlers)])
}

fn across_a_caller() -> Program {
    let main = vec![new_instance(0, 3), invoke_static(1, 1, 0), nop(), move_exception(1), goto(1)];
    let methods = vec![
        main_method(2, main).with_handlers(vec![Handler::new(1, 2, 3, 1)]),
        static_method(1, 1, 1, vec![invoke_static(2, 1, 0), return_void()]),
        static_method(2, 1, 1, vec![throw(0)]),
    ];
    program(&[0, 0, 1], &[], 0, methods)
}

/// A loop that calls, stores, asks for classes and now and then throws.
pub fn mixed() -> Program {
    let main = vec![
        new_instance(0, 2),
        new_instance(2, 4),
        constant(3, 7),
        constant(4, 1),
        binop(ADD, 5, 5, 4),
        copy(1, 5),
        invoke_virtual(7, 2, 0),
        move_result(6),
        instance_of(1, 0, 2),
        branch_zero(EQ, 1, 4),
        iput(6, 0, 0),
        binop(REM, 1, 5, 3),
        branch_zero(NE, 1, 4),
        invoke_static(2, 1, 2),
        goto(4),
        move_exception(2),
        check_cast(2, 1),
        sput(5, 0),
        goto(4),
    ];
    let twice = vec![binop(ADD, 0, 3, 3), iget(1, 2, 0), binop(XOR, 0, 0, 1), give(0)];
    let methods = vec![
        main_method(7, main).with_handlers(vec![Handler::new(13, 14, 15, 1)]),
        virtual_method((2, 7), 4, 2, twice),
        static_method(2, 1, 1, vec![throw(0)]),
    ];
    program(&[0, 0, 0, 1], &[2], 1, methods)
}

/// Each makes an object in every third step, so that only the first 768 can be
/// measured.
pub fn raising() -> Vec<(&'static str, Program)> {
    vec![
        ("null raised and caught", raised_and_caught(iget(1, 0, 0), NULL)),
        ("zero division raised and caught", raised_and_caught(binop(DIV, 1, 1, 0), ARITHMETIC)),
    ]
}

fn raised_and_caught(instruction: Instruction, class: u8) -> Program {
    let main = main_method(2, vec![instruction, nop(), goto(0)]);
    let methods = vec![main.with_handlers(vec![Handler::new(0, 1, 2, class)])];
    whole_program(&[0, 1, 1, 1], &[0], 0, methods)
}

/// As many masks as there can be, and nothing but zero in them.
pub fn idle() -> Program {
    let method = |number: u8| {
        let code = [vec![nop(); 31], vec![return_void()]].concat();
        Method::new(0, number, STATIC, 16, 0).with_code(code)
    };
    program(&[0; 56], &[0; 16], 16, (0..16).map(method).collect())
}
