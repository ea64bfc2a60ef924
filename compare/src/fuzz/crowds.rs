//! Random programs that make about 256 objects and open about 32 frames.

use crate::assembly::*;
use crate::program::{Handler, Instruction, Program, ARITHMETIC, CAST, NULL, THROWABLE};
use crate::random::Random;

/// Class 5 is no Throwable; 7 lies below 6 below Throwable.
const SUPERCLASSES: [u8; 7] = [0, 1, 1, 1, 0, THROWABLE, 6];
const FIELDS: [u8; 3] = [0, 5, 6];

/// The first instruction of the last frame's code.
const BOTTOM: u8 = 7;

pub fn crowded_program(random: &mut Random) -> Program {
    let by_name = random.once_in(2);
    let call = if by_name { invoke_virtual(1, 2, 3) } else { invoke_static(1, 2, 3) };
    let main = main_code(random, call);
    let (code, length) = callee(random, call);
    let handlers = (0..random.below(3)).map(|_| handler(random, length)).collect();
    let last = main.len() as u8;
    let catching = random.once_in(3).then(|| Handler::new(8, 11, random.pick(&[11, last - 1]), 1));
    let methods = vec![
        main_method(6, main).with_handlers(catching.into_iter().collect()),
        match by_name {
            true => virtual_method((0, 1), 5, 2, code),
            false => static_method(1, 5, 2, code),
        }
        .with_handlers(handlers),
    ];
    whole_program(&SUPERCLASSES, &FIELDS, 3, methods)
}

/// Makes a list of objects, then calls with the last of them and a depth.
fn main_code(random: &mut Random, call: Instruction) -> Vec<Instruction> {
    let objects = random.pick(&[1, 2, 9, 253, 254, 255, 256, 257]);
    let depth = random.pick(&[0, 1, 2, 5, 27, 28, 29, 30, 31, 32]);
    let class = random.pick(&[NULL, CAST, 5, 6, 7, 7]);
    let mut code = vec![
        constant(0, objects),
        constant(1, 1),
        new_instance(2, class),
        iput(3, 2, 0),
        copy(3, 2),
        binop(SUB, 0, 0, 1),
        branch_zero(GT, 0, 2),
        sput(3, 0),
        constant(4, depth),
        call,
        move_result(5),
        sput(5, 1),
    ];
    code.extend(match random.below(7) {
        0 => vec![return_void()],
        1 => vec![goto(0)],
        2 => vec![new_instance(5, 6), throw(5)],
        3 => vec![goto(8)],
        4 => vec![invoke_static(0, 0, 0), return_void()],
        5 => vec![iget(3, 3, 0), branch_zero(NE, 3, 8), give(5)],
        _ => vec![throw(3)],
    });
    code
}

/// Calls itself until register 4 is zero: code, and its length.
fn callee(random: &mut Random, call: Instruction) -> (Vec<Instruction>, u8) {
    let between = random.pick(&[binop(ADD, 0, 0, 4), nop(), sput(0, 2), iput(0, 3, 0)]);
    let mut code = vec![
        branch_zero(EQ, 4, BOTTOM.into()),
        constant(0, 1),
        binop(SUB, 4, 4, 0),
        call,
        move_result(0),
        between,
        give(random.pick(&[0, 3, 4])),
    ];
    code.extend(bottom(random, call));
    let length = code.len() as u8;
    (code, length)
}

/// What the last frame does; its register 4 is zero.
fn bottom(random: &mut Random, call: Instruction) -> Vec<Instruction> {
    let class = random.byte_below(8);
    let field = random.byte_below(3);
    let on_null = [invoke_virtual(1, 1, 4), iget(0, 4, field), iput(3, 4, field)];
    match random.below(15) {
        0 => vec![give(3)],
        1 => vec![return_void()],
        2 => vec![throw(3)],
        3 => vec![new_instance(0, 1 + random.byte_below(7)), throw(0)],
        4 => vec![new_instance(0, class), give(0)],
        5 => vec![binop(random.pick(&[DIV, REM]), 0, 0, 4), give(0)],
        6 => vec![iget(0, 3, field), give(0)],
        7 => vec![check_cast(3, class), give(3)],
        8 => vec![unop(random.byte_below(2), 0, 3), give(0)],
        9 => vec![invoke_virtual(random.byte_below(3), 1, 3), return_void()],
        10 => vec![constant(0, 5), throw(random.pick(&[0, 4, 4]))],
        11 => vec![constant(0, 2), instance_of(1, 0, class), give(0)],
        12 => vec![new_instance(0, class), goto(BOTTOM.into())],
        13 => vec![random.pick(&on_null), return_void()],
        _ => vec![call, goto(0)],
    }
}

/// Over the inner call or everything.
fn handler(random: &mut Random, length: u8) -> Handler {
    let (from, to) = random.pick(&[(3, 4), (0, length), (BOTTOM, length), (0, 5)]);
    let target = random.pick(&[1, 4, 5, 6, BOTTOM]);
    let class = random.pick(&[0, THROWABLE, THROWABLE, NULL, ARITHMETIC, CAST, 6, 7]);
    Handler::new(from, to, target, class)
}
