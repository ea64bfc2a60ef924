//! Objects, their fields, and statics.

use super::{endless, moments, Case};
use crate::assembly::*;
use crate::program::{Instruction, Method, Program};
use crate::random::Random;

/// Classes 3 and 4 lie below 2, class 5 below 4; each has fields of its own.
const CLASSES: [u8; 5] = [0, 0, 2, 2, 4];
const FIELDS: [u8; 7] = [2, 5, 0, 3, 4, 2, 1];

pub fn cases() -> Vec<Case> {
    [each_field(), all_fields(), all_statics(), types(), full(), full_deep()].concat()
}

/// Fields that a class has, by its number.
fn had(class: u8) -> Vec<u8> {
    let upward = match class {
        0 => vec![0],
        1 => vec![1, 0],
        2 => vec![2, 0],
        5 => vec![5, 4, 2, 0],
        _ => vec![class, 2, 0],
    };
    (0..7).filter(|&field| upward.contains(&FIELDS[usize::from(field)])).collect()
}

/// Each field of an object of each class, put and got.
fn each_field() -> Vec<Case> {
    let mut cases = Vec::new();
    for class in 0..6 {
        for field in 0..7 {
            let number = if had(class).contains(&field) { 22 } else { 45 };
            let put = vec![new_instance(1, class), iput(1, 1, field), goto(2)];
            let get = vec![
                new_instance(0, class),
                constant(1, 3),
                iget(1, 0, field),
                instance_of(2, 1, 0),
                goto(4),
            ];
            for code in [put, get] {
                let program = program(&CLASSES, &FIELDS, 1, vec![main_method(3, code)]);
                cases.push(Case::of(&program, 6).giving(number));
            }
        }
    }
    cases
}

/// Sixteen fields of one class, and fields of objects that name each other.
fn all_fields() -> Vec<Case> {
    let mut filled = vec![new_instance(0, 1), constant(1, -2)];
    filled.extend((0..16).map(|field| iput(field % 2, 0, field)));
    filled.extend([iget(2, 0, 15), iget(3, 0, 14), new_instance(4, 1), goto(21)]);
    let filled = program(&[0], &[1; 16], 0, vec![main_method(5, filled)]);
    let ring = vec![
        new_instance(0, 2),
        new_instance(1, 5),
        new_instance(2, 3),
        iput(1, 0, 0),
        iput(2, 1, 0),
        iput(0, 2, 0),
        iput(2, 1, 1),
        iput(1, 2, 3),
        iget(0, 0, 0),
        iget(1, 1, 1),
        branch(EQ, 1, 2, 8),
        return_void(),
    ];
    let ring = program(&CLASSES, &FIELDS, 0, vec![main_method(3, ring)]);
    let mut cases = endless(&filled, &[0, 1, 17, 18, 19, 22, 30]);
    cases.extend((1..24).map(|n| Case::of(&ring, n)));
    cases
}

fn all_statics() -> Vec<Case> {
    let mut random = Random::new(50);
    let mut cases = Vec::new();
    for count in [1, 2, 15, 16] {
        let mut code = vec![new_instance(0, 1), constant(1, i32::MIN)];
        code.extend((0..count).map(|place| sput(place % 2, place)));
        code.extend([sget(2, count - 1), sget(3, count / 2), sput(3, 0)]);
        code.extend([unop(NOT, 1, 1), sput(1, 0), return_void()]);
        let program = program(&[0], &[], usize::from(count), vec![main_method(4, code)]);
        cases.extend(moments(&program, 32, 6, &mut random));
    }
    cases
}

/// Casts and questions of class for objects of each class, null and numbers.
fn types() -> Vec<Case> {
    let mut cases = Vec::new();
    for class in 0..6 {
        for of in [0, 1, 2, 3, 4, 5] {
            let made = new_instance(0, of);
            for test in [instance_of(of % 2, 0, class), check_cast(0, class)] {
                let code = vec![made, constant(1, -1), test, goto(3)];
                let program = program(&CLASSES, &[], 0, vec![main_method(2, code)]);
                cases.push(Case::of(&program, 4));
            }
        }
        for number in [0, 1, -1] {
            for test in [instance_of(1, 0, class), check_cast(0, class)] {
                let code = vec![constant(0, number), constant(1, 9), test, goto(3)];
                let program = program(&CLASSES, &[], 0, vec![main_method(2, code)]);
                cases.push(Case::of(&program, 5).giving(if number == 0 { 22 } else { 42 }));
            }
        }
    }
    cases
}

/// Makes `count` objects of two classes and then does `last`.
fn making(count: i32, last: Vec<Instruction>) -> Program {
    let mut code = vec![
        constant(0, count / 2),
        constant(1, 1),
        new_instance(2, 5),
        iput(2, 2, 1),
        new_instance(3, 2),
        iput(0, 3, 0),
        binop(SUB, 0, 0, 1),
        branch_zero(NE, 0, 2),
    ];
    code.extend(last);
    let nothing = Method::new(2, 9, 0, 1, 1).with_code(vec![return_void()]);
    program(&CLASSES, &FIELDS, 1, vec![main_method(4, code), nothing])
}

/// 254 to 256 objects, and what can be done then.
fn full() -> Vec<Case> {
    let mut random = Random::new(51);
    let one_more = vec![new_instance(0, 1), sput(0, 0), return_void()];
    let mut cases = moments(&making(254, one_more.clone()), 32, 3, &mut random);
    cases.extend(moments(&making(256, one_more), 20, 3, &mut random));
    let two_more = vec![new_instance(0, 1), new_instance(0, 0), return_void()];
    cases.extend(moments(&making(254, two_more), 32, 1, &mut random));
    for (last, number) in [
        (vec![return_void()], 32),
        (vec![throw(2)], 47),
        (vec![iget(0, 3, 0), iput(3, 3, 0), invoke_virtual(9, 1, 3), return_void()], 32),
        (vec![iget(0, 3, 1), return_void()], 45),
        (vec![instance_of(0, 2, 4), check_cast(2, 4), check_cast(3, 4), return_void()], 20),
        (vec![new_instance(0, 0), new_instance(0, 0), return_void()], 20),
    ] {
        cases.push(Case::of(&making(256, last), 5_000).giving(number));
    }
    cases
}

/// The 257th object in a callee, in a frame 32 deep, and in a handler.
fn full_deep() -> Vec<Case> {
    let mut random = Random::new(52);
    let main = |called| vec![constant(0, 250), invoke_static(called, 0, 0), goto(1)];
    let maker = vec![new_instance(0, 1), sput(0, 0), return_void()];
    let catcher = vec![new_instance(0, 1), throw(0), move_exception(0), return_void()];
    let deep = vec![new_instance(0, 1), invoke_static(4, 0, 0), return_void()];
    // Eight objects in each frame, all full at frame 32.
    let mut eight = vec![new_instance(0, 2); 8];
    eight.extend([invoke_static(4, 0, 0), return_void()]);
    let program_of = |called, fourth: &[Instruction]| {
        let methods = vec![
            main_method(1, main(called)),
            static_method(1, 1, 0, maker.clone()),
            static_method(2, 1, 0, catcher.clone())
                .with_handlers(vec![crate::program::Handler::new(1, 2, 2, 1)]),
            static_method(3, 1, 0, vec![return_void()]),
            static_method(4, 1, 0, fourth.to_vec()),
        ];
        program(&CLASSES, &[], 1, methods)
    };
    let mut cases = Vec::new();
    for (program, number) in [
        (program_of(1, &maker), 20),
        (program_of(2, &maker), 20),
        (program_of(4, &deep), 21),
        (program_of(4, &eight), 21),
        (program_of(4, &[vec![new_instance(0, 2)], eight.clone()].concat()), 20),
    ] {
        cases.extend(moments(&program, number, 4, &mut random));
    }
    cases
}
