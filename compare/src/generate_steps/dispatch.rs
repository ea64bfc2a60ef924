//! Virtual calls: what is found from the receiver's class upward.

use super::Case;
use crate::assembly::*;
use crate::program::{Instruction, Method, Program, STATIC};
use crate::random::Random;

const NAME: u8 = 0xa5;

/// What a class has under the name.
#[derive(Clone, Copy, PartialEq)]
enum Has {
    Nothing,
    One,
    Two,
    Static,
}

const ALL: [Has; 4] = [Has::Nothing, Has::One, Has::Two, Has::Static];

pub fn cases() -> Vec<Case> {
    [chains(), receivers(), tall(), many_names()].concat()
}

/// Gives back a number of its own.
fn body(number: u8) -> Vec<Instruction> {
    vec![constant(0, 100 + i32::from(number)), give(0)]
}

fn method(class: u8, has: Has) -> Option<Method> {
    match has {
        Has::Nothing => None,
        Has::One => Some(virtual_method((class, NAME), 2, 1, body(class))),
        Has::Two => Some(virtual_method((class, NAME), 3, 2, body(class))),
        Has::Static => Some(Method::new(class, NAME, STATIC, 2, 1).with_code(body(class))),
    }
}

/// Makes a receiver, calls the name with this count and keeps the result.
fn call(class: u8, count: u8) -> Vec<Instruction> {
    vec![
        new_instance(0, class),
        invoke_virtual(NAME, count, 0),
        move_result(1),
        sput(1, 0),
        return_void(),
    ]
}

/// Classes 2, 3 and 4 one below the other; each has every one of four things.
fn chains() -> Vec<Case> {
    let mut cases = Vec::new();
    for code in 0..64 {
        let has = [ALL[code / 16], ALL[code / 4 % 4], ALL[code % 4]];
        let methods: Vec<Method> =
            (2..).zip(has).filter_map(|(class, has)| method(class, has)).collect();
        let other = (3 - (code % 2) as u8, 1 + (code / 2 % 2) as u8);
        for (class, count) in [(4, 1 + (code / 4 % 2) as u8), other] {
            let wanted = if count == 1 { Has::One } else { Has::Two };
            let found = has[..usize::from(class) - 1].contains(&wanted);
            let main = main_method(2, call(class, count));
            let program = program(&[0, 0, 2, 3], &[], 1, [vec![main], methods.clone()].concat());
            let case = Case::of(&program, 50).giving(if found { 32 } else { 46 });
            cases.push(case);
            if found && code % 3 == 0 {
                cases.push(Case::of(&program, 3).giving(22));
            }
        }
    }
    cases
}

/// A method in each part of a tree, later ones first, and every receiver.
fn receivers() -> Vec<Case> {
    let superclasses = [0, 0, 2, 2, 1, 5, 3];
    let with = |class: u8| {
        let mut methods = vec![main_method(2, call(class, 1))];
        methods.extend([5, 3, 2].map(|class| virtual_method((class, NAME), 4, 1, body(class))));
        methods.extend([6].map(|class| virtual_method((class, NAME - 1), 4, 1, body(class))));
        program(&superclasses, &[], 1, methods)
    };
    let found = [false, false, true, true, true, true, true, true];
    (0..8)
        .map(|class| Case::of(&with(class), 9).giving(if found[class as usize] { 32 } else { 46 }))
        .collect()
}

/// Sixty classes, all but three one below the other.
fn tall() -> Vec<Case> {
    let superclasses: Vec<u8> = (0..56).collect();
    let with = |owners: &[u8], class: u8| -> Program {
        let mut methods = vec![main_method(2, call(class, 1))];
        methods
            .extend(owners.iter().map(|&owner| virtual_method((owner, NAME), 2, 1, body(owner))));
        program(&superclasses, &[], 1, methods)
    };
    let mut cases = Vec::new();
    for (owners, class, number) in [
        (vec![0], 56, 32),
        (vec![56], 56, 32),
        (vec![56], 55, 46),
        (vec![0, 30, 55], 56, 32),
        (vec![30, 0], 29, 32),
        (vec![30, 0], 30, 32),
        (vec![31], 30, 46),
    ] {
        cases.push(Case::of(&with(&owners, class), 9).giving(number));
        cases.push(Case::of(&with(&owners, class), 2).giving(if number == 46 { 46 } else { 22 }));
    }
    cases
}

/// Random tables of methods under few names, and several calls of each.
fn many_names() -> Vec<Case> {
    let mut random = Random::new(45);
    let mut case = || {
        let superclasses: Vec<u8> = (1..6).map(|class| random.byte_below(class)).collect();
        let mut methods = Vec::new();
        for class in 0..6 {
            for name in [0, 1, 0xff] {
                let count = 1 + random.byte_below(2);
                let number = class * 10 + name % 10;
                match random.below(4) {
                    0 | 1 => {
                        methods.push(virtual_method((class, name), 3, count, body(number)));
                    }
                    2 => methods
                        .push(Method::new(class, name, STATIC, 3, count).with_code(body(number))),
                    _ => {}
                }
            }
        }
        methods.truncate(8);
        let mut code = Vec::new();
        for place in 0..4 {
            code.push(new_instance(1, random.byte_below(6)));
            code.push(invoke_virtual(random.pick(&[0, 1, 0xff]), 1 + random.byte_below(2), 1));
            code.extend([move_result(0), sput(0, place)]);
        }
        code.push(return_void());
        let main = Method::new(0, 7, STATIC, 3, 0).with_code(code);
        let program = program(&superclasses, &[], 4, [vec![main], methods].concat());
        Case::of(&program, random.within(5..=40) as u64)
    };
    (0..40).map(|_| case()).collect()
}
