//! Programs of methods with up to eight handlers.

use super::{lines, lines_of_classes, raising, taken, throwing};
use super::{AT, ORDERS, RANGES, SUPERCLASSES, THROWN};
use crate::assembly::*;
use crate::program::{Method, Program};

pub fn of(methods: Vec<Method>) -> Program {
    whole_program(&SUPERCLASSES, &[], 0, methods)
}

/// One method for each pattern of lines, none of which calls another.
pub fn apart(patterns: &[&str]) -> Program {
    let method = |(number, pattern): (u8, &&str)| throwing(number, THROWN, lines(pattern));
    of((0..).zip(patterns).map(method).collect())
}

/// One method for each pattern: each calls the next, and the last one throws.
pub fn frames(patterns: &[&str]) -> Program {
    let mut program = apart(patterns);
    for callee in 1..patterns.len() {
        let call = [constant(0, 9), invoke_static(callee as u8, 0, 0)];
        program.methods[callee - 1].code[..2].copy_from_slice(&call);
    }
    program
}

/// Method and target where [`frames`] takes the object.
pub fn taken_in(patterns: &[&str]) -> Option<(u8, u8)> {
    let all = (0..).zip(patterns);
    all.filter_map(|(number, pattern)| taken(pattern).map(|target| (number, target))).last()
}

/// Method 1 throws; its targets return 10 and the line that leads there, which
/// method 0 puts into a static.
pub fn returning(pattern: &str) -> Program {
    let main = vec![invoke_static(1, 0, 0), move_result(0), sput(0, 0), return_void()];
    let mut callee = throwing(1, THROWN, lines(pattern));
    callee.code.truncate(usize::from(AT) + 1);
    for (line, handler) in callee.handlers.iter_mut().enumerate() {
        handler.target = callee.code.len() as u8;
        callee.code.extend([constant(0, 10 + line as i32), give(0)]);
    }
    whole_program(&SUPERCLASSES, &[], 1, vec![main_method(1, main), callee])
}

/// Objects of five classes, thrown by methods with the lines of [`ORDERS`].
pub fn orders() -> Program {
    let calls = 9;
    let mut main = Vec::new();
    for class in [1, 6, 7, 8, 9] {
        main.extend([new_instance(0, class), branch_zero(EQ, 1, calls)]);
    }
    main.truncate(calls);
    main.extend((1..=ORDERS.len() as u8).map(|callee| invoke_static(callee, 1, 0)));
    main.push(return_void());
    let mut methods = vec![main_method(2, main)];
    for (number, order) in (1..).zip(ORDERS) {
        let mut method = throwing(number, 0, lines_of_classes(order.lines));
        method.arguments = 1;
        method.code[0] = nop();
        methods.push(method);
    }
    of(methods)
}

/// Null raised at all addresses that the lines of [`RANGES`] cover.
pub fn ranges() -> Program {
    let method = |(number, ranges)| raising(number, 0..8, ranges);
    of((0..).zip(RANGES.map(|ranges| ranges.lines)).map(method).collect())
}

/// Programs of each of these kinds.
pub fn programs() -> Vec<Program> {
    let alone = ["xxxxxxxx", "..x.xx.x", ".......x", "........"];
    let mut programs = alone.map(|pattern| frames(&[pattern])).to_vec();
    programs.push(frames(&[".x.xx", "........"]));
    programs.push(frames(&["xx", "...", ".xxx.x"]));
    programs.extend([returning("..xx.x"), orders(), ranges()]);
    programs
}
