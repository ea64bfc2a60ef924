//! Exceptions that leave callees.

use super::{moments, Case};
use crate::assembly::*;
use crate::program::{Handler, Instruction, Method, Program};
use crate::random::Random;

/// Class 2 is no Throwable; 4 lies below 3 below Throwable.
const CLASSES: [u8; 4] = [0, 0, 1, 3];

pub fn cases() -> Vec<Case> {
    [through_callers(), edges(), again_and_again(), pending_at_n(), results_after()].concat()
}

/// Makes two objects and throws one of them.
fn thrower(class: u8) -> Vec<Instruction> {
    vec![new_instance(0, 2), new_instance(1, class), sput(1, 0), throw(1)]
}

/// A chain of `depth` callers, the one at `catching` with handlers for other
/// classes and for this one. Each keeps a number in a register.
fn chain(depth: u8, catching: Option<u8>, class: u8) -> Program {
    let method = |number: u8| {
        let mut code = vec![constant(1, i32::from(number) + 500), nop()];
        code.truncate(1 + usize::from(number % 2));
        let call = code.len();
        code.extend([invoke_static(number + 1, 0, 0), goto(call + 1)]);
        code.extend([move_exception(0), sput(0, 1), give(0)]);
        let others = [Handler::new(0, call as u8, 0, 0), Handler::new(0, 5, 0, 2)];
        let fitting = Handler::new(call as u8, call as u8 + 1, call as u8 + 2, 3);
        let all = [others[0], others[1], fitting];
        let handlers = if catching == Some(number) { &all[..] } else { &all[..2] };
        Method::new(0, number, 1, 2, 0).with_code(code).with_handlers(handlers.to_vec())
    };
    let mut methods: Vec<Method> = (0..depth).map(method).collect();
    methods.push(static_method(depth, 2, 0, thrower(class)));
    program(&CLASSES, &[], 2, methods)
}

fn through_callers() -> Vec<Case> {
    let mut random = Random::new(49);
    let mut cases = Vec::new();
    for depth in [1, 2, 3, 7] {
        for class in [3, 4] {
            let uncaught = chain(depth, None, class);
            cases.extend(moments(&uncaught, 33, 2, &mut random));
            let caught = chain(depth, Some(0), class);
            cases.extend(moments(&caught, 32, 2, &mut random));
        }
        cases.push(Case::of(&chain(depth, Some(0), 1), 500).giving(33));
        for catching in 1..depth {
            let caught = chain(depth, Some(catching), 4);
            cases.extend([60, 100].map(|n| Case::of(&caught, n).giving(22)));
        }
    }
    cases
}

/// A call at each address, and a range around it.
fn edges() -> Vec<Case> {
    let mut cases = Vec::new();
    for call in [0u8, 1, 4, 29] {
        for (from, to) in [(call, call + 1), (call + 1, call + 2), (0, call), (0, 32), (31, 32)] {
            if from < to {
                let mut code = vec![nop(); usize::from(call)];
                code.push(invoke_static(1, 0, 0));
                code.resize(31, nop());
                code.push(throw(1));
                let main = main_method(3, code).with_handlers(vec![Handler::new(from, to, 31, 1)]);
                let methods = vec![main, static_method(1, 2, 0, thrower(4))];
                let program = program(&CLASSES, &[], 1, methods);
                // The last throw, of null, raises; in the handler's range it
                // goes back to itself.
                let again = [call, 31].iter().all(|address| (from..to).contains(address));
                cases.push(Case::of(&program, 400).giving(if again { 22 } else { 33 }));
            }
        }
    }
    cases
}

/// Loops that throw and catch one object, in the frame and across callers.
fn again_and_again() -> Vec<Case> {
    let main = vec![
        new_instance(0, 4),
        sput(0, 0),
        constant(1, 1),
        invoke_static(1, 1, 0),
        goto(4),
        move_exception(0),
        binop(ADD, 2, 2, 1),
        throw(0),
        goto(3),
    ];
    let handlers = vec![Handler::new(7, 8, 8, 3), Handler::new(3, 4, 5, 1)];
    let callee = vec![invoke_static(2, 1, 0), return_void()];
    let methods = vec![
        main_method(3, main).with_handlers(handlers),
        static_method(1, 1, 1, callee),
        static_method(2, 1, 1, vec![throw(0)]),
    ];
    let program = program(&CLASSES, &[], 1, methods);
    (0..30).chain([100, 1_000, 10_001]).map(|n| Case::of(&program, n).giving(22)).collect()
}

/// The object is pending from the throw until it is taken.
fn pending_at_n() -> Vec<Case> {
    let mut cases = Vec::new();
    for depth in [1, 4] {
        for catching in [None, Some(0)] {
            let program = chain(depth, catching, 4);
            let (_, last) = super::outcome(&program, 500);
            cases.extend((0..=last).map(|n| Case::of(&program, n)));
        }
    }
    cases
}

/// What the result is before a throw, in the handler, and after a call there.
fn results_after() -> Vec<Case> {
    let main = vec![
        invoke_static(2, 0, 0),
        invoke_static(1, 0, 0),
        move_result(0),
        move_exception(1),
        sput(1, 0),
        invoke_static(2, 0, 0),
        move_exception(2),
        check_cast(1, 3),
        give(2),
    ];
    let methods = vec![
        main_method(3, main).with_handlers(vec![Handler::new(1, 2, 2, 0)]),
        static_method(1, 2, 0, thrower(3)),
        static_method(2, 1, 0, vec![constant(0, 31), give(0)]),
    ];
    let program = program(&CLASSES, &[], 1, methods);
    (4..=20).map(|n| Case::of(&program, n)).collect()
}
