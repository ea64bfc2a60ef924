//! Programs with calls: recursion, dispatch, and methods that nobody calls.

use crate::assembly::*;
use crate::program::{Method, Program, STATIC};

pub fn all() -> Vec<Program> {
    vec![
        two_recursive(),
        growing_receiver(),
        from_below(),
        uncalled_store(),
        uncalled_calls(),
        method_0_again(),
        returned_before(),
        shifted(),
        other_counts(),
    ]
}

/// Class 2 lies below 0, class 3 below 2, classes 4 and 5 below 3.
const CLASSES: [u8; 5] = [0, 0, 2, 3, 3];

fn of(statics: usize, methods: Vec<Method>) -> Program {
    program(&CLASSES, &[], statics, methods)
}

/// Two methods that call each other with their arguments exchanged.
fn two_recursive() -> Program {
    let main = vec![new_instance(0, 2), constant(1, 4), invoke_static(1, 2, 0), return_void()];
    let calling = |callee: u8, class: u8| {
        let call = invoke_static(callee, 2, 0);
        let ending =
            [move_result(0), branch_zero(EQ, 3, 6), give(2), new_instance(0, class), give(0)];
        [vec![copy(0, 3), copy(1, 2), call], ending.to_vec()].concat()
    };
    let methods = vec![
        main_method(2, main),
        static_method(1, 4, 2, calling(2, 3)),
        static_method(2, 4, 2, calling(1, 5)),
    ];
    of(0, methods)
}

/// What a callee returns is the next receiver: a callee more each time.
fn growing_receiver() -> Program {
    let main = vec![new_instance(0, 2), invoke_virtual(6, 1, 0), move_result(0), goto(1)];
    let giving = |class: u8| vec![new_instance(0, class), give(0)];
    let methods = vec![
        main_method(1, main),
        virtual_method((2, 6), 2, 1, giving(3)),
        virtual_method((3, 6), 2, 1, giving(4)),
        virtual_method((4, 6), 2, 1, giving(5)),
        virtual_method((5, 6), 3, 1, vec![invoke_virtual(7, 2, 1), give(2)]),
        virtual_method((1, 6), 2, 1, giving(0)),
    ];
    of(0, methods)
}

/// A method found above, called with the class bits that lead there.
fn from_below() -> Program {
    let main = vec![
        new_instance(0, 5),
        branch_zero(EQ, 2, 4),
        new_instance(0, 4),
        branch_zero(EQ, 2, 5),
        new_instance(0, 1),
        copy(1, 0),
        invoke_virtual(6, 2, 0),
        move_result(2),
        give(2),
    ];
    let methods = vec![
        main_method(3, main),
        virtual_method((2, 6), 2, 2, vec![give(0)]),
        virtual_method((4, 6), 2, 2, vec![give(1)]),
    ];
    of(0, methods)
}

/// A method that nobody calls writes a static that others read.
fn uncalled_store() -> Program {
    let main = vec![sget(0, 0), invoke_virtual(9, 1, 0), give(0)];
    let unused = vec![new_instance(0, 3), sput(0, 0), sput(2, 1), give(1)];
    let methods = vec![
        main_method(1, main),
        static_method(1, 3, 2, unused),
        virtual_method((2, 9), 1, 1, vec![sget(0, 1), give(0)]),
    ];
    of(2, methods)
}

/// Calls from methods that nobody calls: their own registers are zero, their
/// arguments nothing.
fn uncalled_calls() -> Program {
    let unused = vec![
        invoke_static(3, 2, 1),
        move_result(0),
        invoke_virtual(9, 1, 2),
        new_instance(2, 4),
        invoke_virtual(9, 1, 2),
        throw(2),
    ];
    let methods = vec![
        main_method(1, vec![return_void()]),
        static_method(1, 3, 1, unused),
        virtual_method((3, 9), 2, 1, vec![invoke_static(1, 1, 1), give(1)]),
        static_method(3, 2, 2, vec![give(0)]),
    ];
    of(0, methods)
}

/// Method 0 is called again, and its result is used.
fn method_0_again() -> Program {
    let main =
        vec![branch_zero(EQ, 0, 3), invoke_static(1, 1, 0), give(0), new_instance(0, 4), give(0)];
    let callee =
        vec![invoke_static(0, 0, 0), move_result(0), invoke_static(1, 1, 0), return_void()];
    of(0, vec![main_method(1, main), static_method(1, 2, 1, callee)])
}

/// Calls of methods that stand before the caller, and of the caller itself.
fn returned_before() -> Program {
    let chain = |callee: u8| vec![invoke_static(callee, 0, 0), move_result(0), give(0)];
    let methods = vec![
        main_method(1, chain(4)),
        static_method(1, 1, 0, vec![new_instance(0, 3), give(0)]),
        static_method(2, 1, 0, chain(1)),
        static_method(3, 1, 0, chain(2)),
        static_method(4, 1, 0, chain(3)),
        static_method(5, 1, 0, chain(5)),
    ];
    of(0, methods)
}

/// Arguments that move by one register with each call of itself.
fn shifted() -> Program {
    let main = vec![new_instance(0, 5), constant(1, 1), invoke_static(1, 4, 0), return_void()];
    let callee = vec![invoke_static(1, 4, 0), give(4)];
    of(0, vec![main_method(4, main), static_method(1, 5, 4, callee)])
}

/// Names with other counts and static methods are passed over.
fn other_counts() -> Program {
    let main =
        vec![new_instance(0, 5), copy(1, 0), invoke_virtual(8, 2, 0), move_result(0), give(0)];
    let methods = vec![
        main_method(2, main),
        virtual_method((5, 8), 1, 1, vec![give(0)]),
        Method::new(3, 8, STATIC, 2, 2).with_code(vec![give(1)]),
        virtual_method((2, 8), 3, 2, vec![new_instance(0, 2), give(0)]),
    ];
    of(0, methods)
}
