//! Classes 2 to 4 as ordinary classes: made, thrown, caught, extended, with
//! fields and methods; and what an object that was raised is good for.

use super::{after, moments, Case};
use crate::assembly::*;
use crate::program::{Handler, Instruction, Program, ARITHMETIC, CAST, NULL, THROWABLE};
use crate::raising::{below, few, Raiser, NAME, OTHER, SUPERCLASSES};
use crate::random::Random;

/// Field 0 is of class 2, field 1 of the class below it, field 2 of class 4.
const FIELDS: [u8; 3] = [NULL, 6, CAST];

pub fn cases() -> Vec<Case> {
    [made(), fields(), methods(), thrown_again(), one_after_the_other(), in_a_loop()].concat()
}

/// Method 0, and methods of one name in classes 2 and 6.
fn of(registers: u8, code: Vec<Instruction>, handlers: Vec<Handler>) -> Program {
    let giving = |number| vec![constant(0, number), give(0)];
    let methods = vec![
        main_method(registers, code).with_handlers(handlers),
        virtual_method((NULL, NAME), 2, 1, giving(20)),
        virtual_method((below(NULL), NAME), 2, 1, giving(60)),
        virtual_method((THROWABLE, 8), 2, 1, giving(10)),
    ];
    whole_program(&SUPERCLASSES, &FIELDS, 2, methods)
}

/// Objects of each of the three and of the classes below, thrown under a
/// handler of each class.
fn made() -> Vec<Case> {
    let mut cases = Vec::new();
    for class in [NULL, ARITHMETIC, CAST, 6, 7, 8] {
        for caught in 0..=8 {
            let code = vec![new_instance(0, class), throw(0), nop(), move_exception(1), goto(4)];
            let program = of(2, code, vec![Handler::new(1, 2, 3, caught)]);
            let fits = caught <= THROWABLE || caught == class || below(caught) == class;
            cases.push(Case::of(&program, 6).giving(if fits { 22 } else { 33 }));
        }
    }
    cases
}

/// The instruction at address 2, and this code from the handler's target on,
/// with what was raised in register 3.
fn in_the_handler(raiser: Raiser, rest: Vec<Instruction>) -> Program {
    let code = vec![constant(1, 9), new_instance(2, OTHER), raiser.instruction, goto(3)];
    let code = [code, vec![move_exception(3)], rest].concat();
    of(4, code, vec![Handler::new(2, 3, 4, raiser.class)])
}

/// A field of a raised object is zero, and holds what is put into it.
fn fields() -> Vec<Case> {
    let mut cases = Vec::new();
    for raiser in few() {
        for field in 0..3 {
            let had = FIELDS[usize::from(field)] == raiser.class;
            let rest = vec![iget(1, 3, field), iput(3, 3, field), iget(2, 3, field), goto(8)];
            let program = in_the_handler(raiser, rest);
            cases.push(Case::of(&program, 9).giving(if had { 22 } else { 45 }));
        }
    }
    cases
}

/// Virtual calls on what was raised: methods of its class and above.
fn methods() -> Vec<Case> {
    let mut cases = Vec::new();
    for raiser in few() {
        let number = if raiser.class == NULL { 32 } else { 46 };
        for (name, number) in [(NAME, number), (8, 32), (9, 46)] {
            let rest = vec![invoke_virtual(name, 1, 3), move_result(0), sput(0, 0), give(3)];
            cases.extend(after(&in_the_handler(raiser, rest), number, &[99]));
        }
    }
    for class in [NULL, below(NULL), ARITHMETIC] {
        let code =
            vec![new_instance(0, class), invoke_virtual(NAME, 1, 0), move_result(0), give(0)];
        let number = if class == ARITHMETIC { 46 } else { 32 };
        cases.extend(after(&of(1, code, vec![]), number, &[4, 99]));
    }
    cases
}

/// Thrown again as it is, asked for its class, and cast.
fn thrown_again() -> Vec<Case> {
    let mut cases = Vec::new();
    for raiser in few() {
        for class in [raiser.class, below(raiser.class)] {
            let rest = vec![
                instance_of(0, 3, class),
                sput(0, 0),
                sput(3, 1),
                check_cast(3, class),
                throw(3),
            ];
            let program = in_the_handler(raiser, rest);
            cases.extend(after(&program, 33, &[8, 10, 99]));
        }
    }
    cases
}

/// In each handler the next instruction raises; two objects of a class differ.
fn one_after_the_other() -> Vec<Case> {
    let mut random = Random::new(56);
    let code = vec![
        new_instance(1, OTHER),
        iget(2, 0, 0),
        move_exception(2),
        binop(DIV, 3, 0, 0),
        move_exception(3),
        check_cast(1, ARITHMETIC),
        move_exception(4),
        throw(0),
        move_exception(5),
        branch(EQ, 2, 5, 11),
        branch(EQ, 5, 5, 12),
        nop(),
        give(5),
    ];
    let handlers: Vec<Handler> =
        [1, 3, 5, 7].map(|from| Handler::new(from, from + 1, from + 1, THROWABLE)).to_vec();
    let all = of(6, code.clone(), handlers.clone());
    let mut cases = moments(&all, 32, 8, &mut random);
    for left in 0..4 {
        let mut handlers = handlers.clone();
        handlers.remove(left);
        cases.extend(moments(&of(6, code.clone(), handlers), 33, 2, &mut random));
    }
    cases
}

/// A handler that goes back: until the store is full, or a count is reached.
fn in_a_loop() -> Vec<Case> {
    let mut cases = Vec::new();
    for raiser in few() {
        let mut program = in_the_handler(raiser, vec![goto(2)]);
        program.methods[0].handlers[0].target = 2;
        cases.extend(after(&program, 20, &[3, 4, 5, 512, 513, 514]));
    }
    let counting = |count: i32| {
        let code = vec![
            constant(1, count),
            constant(2, -1),
            binop(REM, 3, 1, 0),
            binop(ADD, 1, 1, 2),
            branch_zero(GT, 1, 2),
            move_exception(3),
            return_void(),
        ];
        of(4, code, vec![Handler::new(2, 3, 3, ARITHMETIC)])
    };
    cases.extend(after(&counting(256), 32, &[1_023, 1_024, 1_025, 9_999]));
    cases.extend(after(&counting(257), 20, &[1_025, 1_026, 1_027, 9_999]));
    cases.extend(after(&counting(250), 32, &[500, 1_000]));
    cases
}
