//! Instructions that raise: caught in their frame, in a caller, and not at all.

use super::{after, Case};
use crate::program::{ARITHMETIC, CAST, NULL, THROWABLE};
use crate::raising::{below, chain, few, raisers, Raiser, OTHER};

pub fn cases() -> Vec<Case> {
    [in_their_frame(), in_a_caller(), uncaught(), several_handlers()].concat()
}

/// The step that raises under so many callers; each of them takes three steps.
fn raising(callers: u8) -> u64 {
    3 * u64::from(callers) + 3
}

/// Classes whose handlers do not take an object of this class.
fn others(class: u8) -> Vec<u8> {
    let raised = [NULL, ARITHMETIC, CAST].into_iter().filter(|&other| other != class);
    raised.chain([below(class), OTHER]).collect()
}

/// A handler of the class itself, of one above it, and of another.
fn in_their_frame() -> Vec<Case> {
    let mut cases = Vec::new();
    for (place, raiser) in raisers().into_iter().enumerate() {
        // Pending, and taken one step later.
        for (class, later) in [(raiser.class, 0), (THROWABLE, 1), (0, 1)] {
            let program = chain(0, raiser, &[(0, class)]);
            cases.extend(after(&program, 32, &[raising(0) + later, 99]));
        }
        let others = others(raiser.class);
        let other = others[place % others.len()];
        cases.extend(after(&chain(0, raiser, &[(0, other)]), 33, &[raising(0), 99]));
    }
    cases
}

/// One caller or two, the first of them or the second with a handler.
fn in_a_caller() -> Vec<Case> {
    let mut cases = Vec::new();
    let mut case = |callers: u8, raiser: Raiser, handlers: &[(u8, u8)]| {
        let program = chain(callers, raiser, handlers);
        let counts = [raising(callers) + u64::from(callers) - 1, raising(callers) + 2, 99];
        cases.extend(after(&program, 32, &counts));
    };
    for raiser in raisers() {
        case(1, raiser, &[(0, raiser.class)]);
    }
    for raiser in few() {
        case(2, raiser, &[(0, THROWABLE), (2, below(raiser.class))]);
        case(2, raiser, &[(1, 0), (0, raiser.class)]);
    }
    cases
}

/// Handlers of other classes in every frame, and none.
fn uncaught() -> Vec<Case> {
    let mut cases = Vec::new();
    for raiser in few() {
        for callers in [0, 1, 2] {
            let others = others(raiser.class);
            let handlers: Vec<(u8, u8)> = (0..=callers).zip(others).collect();
            cases.extend(after(&chain(callers, raiser, &handlers), 33, &[99]));
            let counts = [raising(callers) + u64::from(callers), 99];
            cases.extend(after(&chain(callers, raiser, &[]), 33, &counts));
        }
    }
    cases
}

/// Of a frame's handlers the first that fits, of several frames' the last's.
fn several_handlers() -> Vec<Case> {
    let mut cases = Vec::new();
    for raiser in few() {
        let mut program = chain(1, raiser, &[(0, THROWABLE), (1, raiser.class)]);
        let all = others(raiser.class).into_iter().chain([0, raiser.class]);
        program.methods[1].handlers = all.map(crate::raising::handler).collect();
        program.methods[1].handlers[5].target = 3;
        cases.extend(after(&program, 32, &[raising(1) + 1, 99]));
        program.methods[1].handlers.swap(4, 5);
        cases.extend(after(&program, 32, &[raising(1) + 1, 99]));
        // A range that ends before the instruction, and one that starts after.
        program.methods[1].handlers.truncate(2);
        for (handler, (from, to)) in program.methods[1].handlers.iter_mut().zip([(0, 2), (3, 7)]) {
            (handler.from, handler.to, handler.class) = (from, to, 0);
        }
        cases.extend(after(&program, 32, &[raising(1) + 1, 99]));
    }
    cases
}
