//! Instructions that raise an exception, and programs around them: for the
//! cases of runs, of claims and of writes.

use crate::assembly::*;
use crate::program::{Handler, Instruction, Method, Program};
use crate::program::{ARITHMETIC, CAST, NULL, STATIC, THROWABLE};
use std::collections::HashSet;

/// Class 5 is no Throwable; 6, 7 and 8 lie one below each of the classes 2, 3
/// and 4.
pub const SUPERCLASSES: [u8; 8] = [0, 1, 1, 1, 0, NULL, ARITHMETIC, CAST];
pub const OTHER: u8 = 5;

/// The class below this one of 2 to 4.
pub fn below(class: u8) -> u8 {
    class + 4
}

/// Two fields of class 5, which also has a method of this name.
pub const FIELDS: [u8; 2] = [OTHER; 2];
pub const NAME: u8 = 7;

/// Registers of [`body`]: zero, a number, an object of class 5, what was caught.
const REGISTERS: u8 = 4;

/// Where the instruction stands in [`body`], and the handler's target.
pub const AT: u8 = 2;
pub const TARGET: u8 = 4;

/// An instruction, and the class that it raises in [`body`].
#[derive(Clone, Copy, Debug)]
pub struct Raiser {
    pub class: u8,
    pub instruction: Instruction,
}

/// Every instruction that raises, with registers apart and the same.
pub fn raisers() -> Vec<Raiser> {
    let of = |class, instructions: &[Instruction]| {
        instructions.iter().map(|&instruction| Raiser { class, instruction }).collect()
    };
    let null = [
        invoke_virtual(NAME, 1, 0),
        invoke_virtual(9, 2, 0),
        iget(1, 0, 0),
        iget(0, 0, 1),
        iput(1, 0, 0),
        iput(0, 0, 1),
        throw(0),
    ];
    let by_zero =
        [binop(DIV, 3, 1, 0), binop(REM, 1, 1, 0), binop(DIV, 0, 0, 0), binop(REM, 0, 0, 0)];
    let casts = [check_cast(2, THROWABLE), check_cast(2, below(NULL))];
    let all: [Vec<Raiser>; 3] = [of(NULL, &null), of(ARITHMETIC, &by_zero), of(CAST, &casts)];
    all.concat()
}

/// The first of each opcode and operation.
pub fn few() -> Vec<Raiser> {
    let mut seen = HashSet::new();
    let mut is_first = |Instruction { o, d, .. }: Instruction| seen.insert((o, d));
    raisers().into_iter().filter(|raiser| is_first(raiser.instruction)).collect()
}

/// Code with an instruction at [`AT`]; what a handler catches at [`TARGET`]
/// goes into static 0.
pub fn body(instruction: Instruction) -> Vec<Instruction> {
    vec![
        constant(1, 9),
        new_instance(2, OTHER),
        instruction,
        return_void(),
        move_exception(3),
        sput(3, 0),
        return_void(),
    ]
}

/// Each of them caught in its frame, by a caller, by the caller of that one, and
/// not at all.
pub fn chains() -> Vec<Program> {
    let of = |raiser: Raiser| {
        let class = raiser.class;
        let both = [(1, below(class)), (0, THROWABLE)];
        [chain(0, raiser, &[(0, class)]), chain(1, raiser, &[(0, class)]), chain(2, raiser, &both)]
            .into_iter()
            .chain([chain(0, raiser, &[])])
    };
    raisers().into_iter().flat_map(of).collect()
}

/// A handler of the instruction of [`body`].
pub fn handler(class: u8) -> Handler {
    Handler::new(AT, AT + 1, TARGET, class)
}

/// So many callers one above the other, and the instruction in the last callee.
/// `handlers` are of methods, each with the class that it catches there.
pub fn chain(callers: u8, raiser: Raiser, handlers: &[(u8, u8)]) -> Program {
    let method = |number: u8| {
        let last = number == callers;
        let instruction = if last { raiser.instruction } else { invoke_static(number + 1, 0, 0) };
        let own = handlers.iter().filter(|(method, _)| *method == number);
        Method::new(0, number, STATIC, REGISTERS, 0)
            .with_code(body(instruction))
            .with_handlers(own.map(|&(_, class)| handler(class)).collect())
    };
    let mut methods: Vec<Method> = (0..=callers).map(method).collect();
    methods.push(virtual_method((OTHER, NAME), 1, 1, vec![return_void()]));
    whole_program(&SUPERCLASSES, &FIELDS, 1, methods)
}
