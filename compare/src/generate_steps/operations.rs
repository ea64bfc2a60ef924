//! Operations on numbers at their ends, and conditions on all kinds of values.

use super::Case;
use crate::assembly::*;
use crate::opcode::{divides, BINARY_OPERATIONS, CONDITIONS, UNARY_OPERATIONS};
use crate::program::{Instruction, Program};
use crate::random::Random;

/// Numbers at the ends, around zero and around the count of bits.
const ENDS: [i32; 14] = [i32::MIN, i32::MIN + 1, -8, -7, -1, 0, 1, 2, 7, 28, 31, 32, 33, i32::MAX];

pub fn cases() -> Vec<Case> {
    let mut cases = [binary(), unary(), no_numbers(), conditions(), targets()].concat();
    cases.extend(random_operations());
    cases
}

/// A program of method 0 alone.
fn alone(registers: u8, code: Vec<Instruction>) -> Program {
    program(&[0, 0], &[], 1, vec![main_method(registers, code)])
}

/// The same code, standing still at its end.
fn still(mut code: Vec<Instruction>) -> Vec<Instruction> {
    code.push(goto(code.len()));
    code
}

/// Each operation on each two ends, the left one fixed in a program.
fn binary() -> Vec<Case> {
    let mut cases = Vec::new();
    for operation in 0..BINARY_OPERATIONS {
        let divides = divides(operation);
        for (place, &x) in ENDS.iter().enumerate() {
            let mut code = vec![constant(0, x)];
            let allowed = ENDS.iter().filter(|&&y| !(divides && y == 0));
            for (to, &y) in (2..16).zip(allowed) {
                code.extend([constant(1, y), binop(operation, to, 0, 1)]);
            }
            let steps = code.len() + place % 3;
            cases.push(Case::of(&alone(16, still(code)), steps as u64).giving(22));
            if divides {
                let code = vec![constant(0, x), binop(operation, 2, 0, 1), return_void()];
                cases.push(Case::of(&alone(3, code), 9).giving(33));
            }
            if place % 2 == 1 {
                continue;
            }
            // All three registers are one.
            let code = vec![constant(0, x), binop(operation, 0, 0, 0), sput(0, 0), return_void()];
            let number = if divides && x == 0 { 33 } else { 32 };
            cases.push(Case::of(&alone(1, code), 9).giving(number));
        }
    }
    cases
}

fn unary() -> Vec<Case> {
    let mut cases = Vec::new();
    for operation in 0..UNARY_OPERATIONS {
        let mut code = Vec::new();
        for (to, &x) in (2..16).zip(&ENDS) {
            code.extend([constant(1, x), unop(operation, to, 1)]);
        }
        cases.push(Case::of(&alone(16, still(code)), 31).giving(22));
        for x in ENDS {
            let code = vec![constant(0, x), unop(operation, 0, 0), sput(0, 0), return_void()];
            cases.push(Case::of(&alone(1, code), 4).giving(32));
        }
    }
    cases
}

/// An object on the left, on the right, and on both sides.
fn no_numbers() -> Vec<Case> {
    let mut instructions = Vec::new();
    for operation in 0..BINARY_OPERATIONS {
        let operands = [(0, 1), (1, 0), (0, 0), (0, 2), (2, 0)];
        instructions.extend(operands.map(|(left, right)| binop(operation, 1, left, right)));
    }
    instructions.extend((0..UNARY_OPERATIONS).map(|operation| unop(operation, 1, 0)));
    let case = |instruction| {
        let code = vec![new_instance(0, 2), constant(2, 5), instruction, return_void()];
        Case::of(&alone(3, code), 7).giving(43)
    };
    instructions.into_iter().map(case).collect()
}

/// A value of each kind in a register.
fn operands(register: u8) -> Vec<Instruction> {
    let mut operands: Vec<Instruction> =
        [0, 1, -1, i32::MIN, i32::MAX].map(|number| constant(register, number)).into();
    operands.extend([new_instance(register, 2), new_instance(register, 1)]);
    operands
}

/// Each condition on values of all kinds.
fn conditions() -> Vec<Case> {
    let mut cases = Vec::new();
    for condition in 0..CONDITIONS {
        let two = condition < 6;
        for left in operands(0) {
            let mut rights = operands(1);
            rights.push(copy(1, 0));
            for right in if two { rights } else { vec![nop()] } {
                let test = branch(condition, 0, if two { 1 } else { 0 }, 5);
                let code = vec![left, right, test, constant(2, 3), goto(4), goto(5)];
                cases.push(Case::of(&alone(3, code), 6));
            }
        }
    }
    cases
}

/// Branches to the first instruction, to themselves and to the last.
fn targets() -> Vec<Case> {
    let mut cases = Vec::new();
    for target in [0, 1, 2, 31] {
        for taken in [true, false] {
            let test = branch_zero(if taken { EQ } else { NE }, 0, target);
            let mut code = vec![nop(), test, goto(target)];
            code.extend(vec![nop(); 28]);
            code.push(return_void());
            cases.extend([2, 3, 4, 7].map(|n| Case::of(&alone(1, code.clone()), n)));
        }
    }
    cases
}

/// Random operations on what the operations before them gave.
fn random_operations() -> Vec<Case> {
    let mut random = Random::new(41);
    let mut case = || {
        let mut code: Vec<_> = (0..4).map(|to| constant(to, random.next_u64() as i32)).collect();
        code.push(constant(4, random.pick(&ENDS)));
        for _ in 0..random.within(8..=24) {
            let [to, left, right] = [0; 3].map(|_| random.byte_below(8));
            code.push(match random.below(6) {
                0 => unop(random.byte_below(UNARY_OPERATIONS), to, left),
                _ => binop(random.pick(&[0, 1, 2, 5, 6, 7, 8, 9, 10, 3, 4]), to, left, right),
            });
        }
        let n = random.within(code.len() - 4..=code.len() + 2);
        Case::of(&alone(8, still(code)), n as u64)
    };
    (0..60).map(|_| case()).collect()
}
