//! Calls: arguments, results, and frames that wait.

use super::{endless, moments, Case};
use crate::assembly::*;
use crate::program::{Instruction, Method, Program};
use crate::random::Random;

pub fn cases() -> Vec<Case> {
    [static_arguments(), virtual_arguments(), results(), waiting(), callers_of_themselves()]
        .concat()
}

/// Method 0 with a number or an object in each of 16 registers, from
/// `first` on by the callee's count.
fn with_full_registers(call: Instruction, callee: Method) -> Program {
    let number = |to| constant(to, 0x0101_0101 * i32::from(to) - 0x0300_0000);
    let object = |to| new_instance(to, if to % 4 == 1 { 2 } else { 3 });
    let mut code: Vec<_> =
        (0..16).map(|to| if to % 2 == 0 { number(to) } else { object(to) }).collect();
    code.extend([call, return_void()]);
    program(&[0, 0, 2], &[], 0, vec![main_method(16, code), callee])
}

/// Counts of registers and arguments, and the first register of the call.
fn windows() -> Vec<(u8, u8, u8)> {
    let mut windows = Vec::new();
    for (registers, arguments) in [(1, 0), (16, 0), (1, 1), (2, 1), (16, 1), (3, 2), (16, 2)] {
        windows.extend([(registers, arguments, 1), (registers, arguments, 13)]);
    }
    windows.extend([(4, 4, 12), (16, 5, 11), (16, 8, 3), (15, 15, 1), (16, 15, 1), (16, 16, 0)]);
    windows
}

fn static_arguments() -> Vec<Case> {
    let case = |(registers, arguments, first)| {
        let callee = static_method(9, registers, arguments, vec![nop(), goto(0)]);
        let call = invoke_static(1, arguments, if arguments == 0 { 0 } else { first });
        endless(&with_full_registers(call, callee), &[17, 19])
    };
    windows().into_iter().flat_map(case).collect()
}

fn virtual_arguments() -> Vec<Case> {
    let allowed = windows().into_iter().filter(|&(_, count, first)| count > 0 && first % 2 == 1);
    let case = |(registers, arguments, first)| {
        let callee = virtual_method((2, 9), registers, arguments, vec![nop(), goto(0)]);
        let call = invoke_virtual(9, arguments, first);
        endless(&with_full_registers(call, callee), &[17, 19])
    };
    allowed.flat_map(case).collect()
}

/// What a callee gives back: numbers, objects, nothing; and how long the
/// result stays.
fn results() -> Vec<Case> {
    let mut cases = Vec::new();
    let object = vec![new_instance(0, 1), give(0)];
    let null = vec![give(0)];
    let number = vec![constant(0, -9), give(0)];
    let nothing = vec![return_void()];
    let bodies = [object, null, number, nothing];
    for first in &bodies {
        for second in &bodies {
            let main = vec![
                move_result(0),
                invoke_static(1, 0, 0),
                move_result(0),
                nop(),
                move_exception(1),
                invoke_static(2, 0, 0),
                move_exception(2),
                move_result(3),
                sput(2, 0),
                give(3),
            ];
            let methods = vec![
                main_method(4, main),
                static_method(1, 1, 0, first.clone()),
                static_method(2, 1, 0, second.clone()),
            ];
            let program = program(&[0], &[], 1, methods);
            let (_, last) = super::outcome(&program, 99);
            cases.extend(endless(&program, &[last - 7, last - 1]));
            cases.push(Case::of(&program, last).giving(32));
        }
    }
    cases
}

/// A chain of methods of different shapes, each with state of its own.
fn waiting() -> Vec<Case> {
    let mut random = Random::new(43);
    let mut cases = Vec::new();
    for depth in [1, 2, 5, 15] {
        let body = |number: u8| {
            let mut code = vec![constant(0, i32::from(number) * 1000), sput(0, number)];
            code.push(new_instance(number % 3, number % 3));
            code.extend(vec![nop(); usize::from(number % 5)]);
            if number < depth {
                code.extend([invoke_static(number + 1, 2, number % 4), move_result(2)]);
            }
            code.push(give(2));
            code
        };
        let mut methods = vec![main_method(8, body(0))];
        methods.extend((1..=depth).map(|m| static_method(m, 5 + m % 12, 2, body(m))));
        cases.extend(moments(&program(&[0, 1], &[], 16, methods), 32, 12, &mut random));
    }
    cases
}

/// Method 0 calls itself, and methods call each other without end.
fn callers_of_themselves() -> Vec<Case> {
    let mut random = Random::new(44);
    let itself = vec![main_method(1, vec![invoke_static(0, 0, 0), return_void()])];
    let counting = vec![main_method(
        2,
        vec![
            sget(0, 0),
            constant(1, 1),
            binop(ADD, 0, 0, 1),
            sput(0, 0),
            invoke_static(0, 0, 0),
            return_void(),
        ],
    )];
    let each_other = vec![
        main_method(3, vec![constant(1, 5), invoke_static(1, 2, 1), return_void()]),
        static_method(1, 4, 2, vec![invoke_static(2, 1, 2), return_void()]),
        static_method(2, 2, 1, vec![invoke_static(1, 2, 0), return_void()]),
    ];
    let all = [itself, counting, each_other];
    let programs = all.map(|methods| program(&[0], &[], 1, methods));
    programs.iter().flat_map(|program| moments(program, 21, 5, &mut random)).collect()
}
