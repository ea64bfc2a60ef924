//! Random programs of calls, throws and what raises, with many handlers.

use crate::assembly::*;
use crate::program::{Handler, Instruction, Method, Program, NULL, THROWABLE};
use crate::random::Random;

/// Class 5 is no Throwable; 6 lies below class 2, and 7 beside it.
const SUPERCLASSES: [u8; 7] = [0, 1, 1, 1, 0, NULL, THROWABLE];

/// Method 1 is static and takes one argument; 2 and 3 are virtual, of one
/// name and count.
pub fn random_calls(random: &mut Random) -> Program {
    let registers = random.within(1..=2) as u8;
    let mut method = |method: Method| {
        let length = random.within(4..=8);
        let mut code: Vec<Instruction> =
            (1..length).map(|_| instruction(random, registers, length)).collect();
        if random.once_in(2) {
            code[0] = new_instance(random.byte_below(registers), random.pick(&MADE));
        }
        code.push(random.pick(&[throw(0), give(0), goto(0), return_void()]));
        let handlers = (0..random.within(1..=3)).map(|_| handler(random, length as u8)).collect();
        method.with_code(code).with_handlers(handlers)
    };
    let methods = vec![
        method(main_method(registers, vec![])),
        method(static_method(1, registers, 1, vec![])),
        method(virtual_method((THROWABLE, 7), registers, 1, vec![])),
        method(virtual_method((NULL, 7), registers, 1, vec![])),
    ];
    whole_program(&SUPERCLASSES, &[], 1, methods)
}

/// The classes of objects, the likely ones more than once.
const MADE: [u8; 10] = [1, 1, 2, 2, 3, 4, 5, 6, 6, 7];

fn instruction(random: &mut Random, registers: u8, length: usize) -> Instruction {
    let register = random.byte_below(registers);
    let target = random.below(length);
    match random.below(13) {
        0..=2 => new_instance(register, random.pick(&MADE)),
        3..=4 => throw(register),
        5..=6 => invoke_virtual(7, 1, register),
        7 => invoke_static(1, 1, register),
        8 => move_exception(register),
        9 => branch_zero(EQ, register, target),
        10 => check_cast(register, random.pick(&[1, 2, 3, 6])),
        11 => {
            let right = random.byte_below(registers);
            random.pick(&[binop(DIV, register, right, right), constant(register, target as i32)])
        }
        _ => random.pick(&[sput(register, 0), sget(register, 0), copy(0, register)]),
    }
}

fn handler(random: &mut Random, length: u8) -> Handler {
    let from = random.byte_below(length);
    let to = from + 1 + random.byte_below(length - from);
    Handler::new(from, to, random.byte_below(length), random.pick(&[0, 1, 1, 2, 2, 3, 4, 6, 7]))
}
