//! Exceptions that are raised with 255 and 256 objects, and with 32 frames open.

use super::{after, moments, Case};
use crate::assembly::*;
use crate::program::{Handler, Instruction, Program, THROWABLE};
use crate::raising::{few, raisers, NAME, OTHER, SUPERCLASSES};
use crate::random::Random;

pub fn cases() -> Vec<Case> {
    [full(), nearly_full(), no_exception(), deep(), deep_and_full()].concat()
}

/// Makes so many objects, the last of them in register 2, and opens so many
/// frames; the last does `last`. The last frame has a handler for Throwable if
/// `catching`, which goes to its last instruction.
fn crowded(objects: i32, open: i32, last: Vec<Instruction>, catching: bool) -> Program {
    let main = vec![
        constant(1, objects),
        constant(3, -1),
        new_instance(2, OTHER),
        binop(ADD, 1, 1, 3),
        branch_zero(GT, 1, 2),
        constant(3, open - 2),
        invoke_static(1, 2, 2),
        return_void(),
    ];
    let mut code = vec![
        branch_zero(EQ, 3, 5),
        constant(0, -1),
        binop(ADD, 3, 3, 0),
        invoke_static(1, 2, 2),
        return_void(),
    ];
    code.extend(last);
    let end = code.len() as u8;
    let handler = Handler::new(5, end, end - 1, THROWABLE);
    let callee = static_method(1, 4, 2, code);
    let callee = callee.with_handlers(if catching { vec![handler] } else { vec![] });
    let methods = vec![
        main_method(4, main),
        callee,
        virtual_method((OTHER, NAME), 4, 1, vec![return_void()]),
    ];
    whole_program(&SUPERCLASSES, &[OTHER, OTHER], 1, methods)
}

/// With 256 objects every raising step is 20, under a handler or not.
fn full() -> Vec<Case> {
    let mut cases = Vec::new();
    for (place, raiser) in raisers().into_iter().enumerate() {
        let last = vec![constant(0, 0), raiser.instruction, return_void()];
        let program = crowded(256, 2, last, place % 2 == 0);
        let (_, made) = super::outcome(&program, 5_000);
        cases.extend(after(&program, 20, &[made, made + 1]));
    }
    cases
}

/// With 255 it is the last object; the next raising step is 20.
fn nearly_full() -> Vec<Case> {
    let mut random = Random::new(57);
    let mut cases = Vec::new();
    for raiser in few() {
        let last = |count| {
            [vec![constant(0, 0)], vec![raiser.instruction; count], vec![return_void()]].concat()
        };
        cases.extend(moments(&crowded(255, 2, last(1), true), 32, 0, &mut random));
        cases.push(Case::of(&crowded(255, 2, last(1), false), 5_000).giving(33));
        let mut twice = crowded(255, 2, last(2), true);
        twice.methods[1].handlers[0].target = 7;
        cases.push(Case::of(&twice, 5_000).giving(20));
    }
    cases
}

/// What does not raise is as before with 256 objects: faults, a cast of null, a
/// throw of an object that is there.
fn no_exception() -> Vec<Case> {
    let endings = [
        (vec![constant(1, 4), iget(0, 1, 0), return_void()], 42),
        (vec![binop(DIV, 0, 2, 0), return_void()], 43),
        (vec![binop(REM, 0, 0, 2), return_void()], 43),
        (vec![invoke_virtual(9, 1, 2), return_void()], 46),
        (vec![throw(2)], 47),
        (vec![check_cast(0, THROWABLE), instance_of(0, 0, 0), give(0)], 32),
        (vec![invoke_virtual(NAME, 1, 2), give(0)], 32),
        (vec![new_instance(0, OTHER), return_void()], 20),
    ];
    let case = |(last, number)| Case::of(&crowded(256, 2, last, true), 5_000).giving(number);
    endings.into_iter().map(case).collect()
}

/// With 31 and 32 frames a call on null raises, and is never 21.
fn deep() -> Vec<Case> {
    let mut cases = Vec::new();
    for raiser in raisers() {
        for (open, catching) in [(31, true), (32, true), (32, false)] {
            let last = vec![constant(0, 0), raiser.instruction, return_void()];
            let program = crowded(1, open, last, catching);
            cases.push(Case::of(&program, 5_000).giving(if catching { 32 } else { 33 }));
        }
    }
    let called = vec![invoke_virtual(NAME, 1, 2), return_void()];
    cases.push(Case::of(&crowded(1, 31, called.clone(), true), 5_000).giving(32));
    cases.push(Case::of(&crowded(1, 32, called, true), 5_000).giving(21));
    cases
}

/// With 256 objects and 32 frames: 20 if null is called, 21 if an object is.
fn deep_and_full() -> Vec<Case> {
    let mut cases = Vec::new();
    for objects in [255, 256] {
        for open in [31, 32] {
            let called = |register: u8| {
                let last = vec![constant(0, 0), invoke_virtual(NAME, 1, register), return_void()];
                crowded(objects, open, last, true)
            };
            let on_null = if objects == 256 { 20 } else { 32 };
            let on_object = if open == 32 { 21 } else { 32 };
            cases.push(Case::of(&called(0), 5_000).giving(on_null));
            cases.push(Case::of(&called(2), 5_000).giving(on_object));
        }
    }
    cases
}
