//! Which handler of a frame takes an object.

use super::Case;
use crate::assembly::*;
use crate::program::{Handler, Instruction, Program};
use crate::random::Random;

/// Class 2 is no Throwable; 4 lies below 3 below Throwable, and 5 beside 3.
const CLASSES: [u8; 5] = [0, 0, 1, 3, 1];
const THROWN: [u8; 4] = [1, 3, 4, 5];

pub fn cases() -> Vec<Case> {
    [ranges(), classes(), random_lists(), loops()].concat()
}

fn alone(registers: u8, code: Vec<Instruction>, handlers: Vec<Handler>) -> Program {
    program(&CLASSES, &[], 2, vec![main_method(registers, code).with_handlers(handlers)])
}

/// Throws at address 3 of 8; the last four stand still.
fn throwing(class: u8) -> Vec<Instruction> {
    vec![
        constant(1, 77),
        new_instance(0, class),
        nop(),
        throw(0),
        goto(4),
        goto(5),
        goto(6),
        goto(7),
    ]
}

/// All ranges near the throw, alone and before one that fits.
fn ranges() -> Vec<Case> {
    let mut cases = Vec::new();
    for from in 0..=7 {
        for to in [from + 1, 2, 3, 4, 5, 8] {
            if from < to && to <= 8 {
                let covers = (from..to).contains(&3);
                let first = Handler::new(from, to, 5, 1);
                let program = alone(2, throwing(3), vec![first]);
                cases.push(Case::of(&program, 8).giving(if covers { 22 } else { 33 }));
                let program = alone(2, throwing(4), vec![first, Handler::new(3, 4, 7, 3)]);
                cases.push(Case::of(&program, 5).giving(22));
            }
        }
    }
    cases
}

/// Two handlers of all classes, for each class thrown.
fn classes() -> Vec<Case> {
    let catches = |caught: u8, thrown: u8| match caught {
        0 | 1 => true,
        3 => thrown == 3 || thrown == 4,
        other => other == thrown,
    };
    let mut cases = Vec::new();
    for thrown in THROWN {
        for first in 0..6 {
            for second in 1..5 {
                let handlers = vec![Handler::new(0, 8, 4, first), Handler::new(2, 4, 6, second)];
                let caught = catches(first, thrown) || catches(second, thrown);
                let program = alone(2, throwing(thrown), handlers);
                let number = if caught { 22 } else { 33 };
                cases.push(Case::of(&program, 6 + u64::from(second)).giving(number));
            }
        }
    }
    cases
}

/// Up to eight random handlers.
fn random_lists() -> Vec<Case> {
    let mut random = Random::new(48);
    let mut case = || {
        let handler = |random: &mut Random| {
            let from = random.byte_below(8);
            let to = from + 1 + random.byte_below(8 - from);
            Handler::new(from, to, 4 + random.byte_below(4), random.byte_below(6))
        };
        let handlers = (0..random.within(3..=8)).map(|_| handler(&mut random)).collect();
        let program = alone(2, throwing(random.pick(&THROWN)), handlers);
        Case::of(&program, random.within(4..=9) as u64)
    };
    (0..30).map(|_| case()).collect()
}

/// Handlers that go back: to the throw, before it, to themselves; and throws
/// in handlers.
fn loops() -> Vec<Case> {
    let mut programs = Vec::new();
    for target in 0..4 {
        programs.push(alone(2, throwing(3), vec![Handler::new(0, 4, target, 1)]));
    }
    // Caught, changed for another object and thrown again, two times.
    let again = vec![
        new_instance(0, 5),
        throw(0),
        move_exception(1),
        new_instance(0, 4),
        throw(0),
        move_exception(2),
        throw(1),
    ];
    let chain = vec![
        Handler::new(1, 2, 2, 5),
        Handler::new(4, 5, 5, 3),
        Handler::new(6, 7, 2, 3),
        Handler::new(5, 6, 0, 0),
    ];
    programs.push(alone(3, again.clone(), chain.clone()));
    programs.push(alone(3, again, [vec![Handler::new(6, 7, 2, 5)], chain].concat()));
    // A number thrown in a handler, and what a failed throw leaves.
    let code = vec![new_instance(0, 3), throw(0), constant(0, 4), throw(0)];
    programs.push(alone(1, code, vec![Handler::new(0, 4, 2, 0)]));
    let counts = [3, 4, 5, 6, 8, 11, 14, 700];
    let all = |program: &Program| counts.map(|n| Case::of(program, n));
    programs.iter().flat_map(all).collect()
}
