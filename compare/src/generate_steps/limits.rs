//! Numbers of steps at their limit, and lent memory of many lengths.

use super::{Case, GREATEST, LEAST};
use crate::assembly::*;
use crate::machine::MAX_STEPS;
use crate::program::{Instruction, Program};

pub fn cases() -> Vec<Case> {
    [most_steps(), last_step(), memory(), refused_first()].concat()
}

fn alone(registers: u8, code: Vec<Instruction>) -> Program {
    program(&[0, 1], &[2], 2, vec![main_method(registers, code)])
}

/// Document 01's sample.
fn sample() -> Program {
    let code = vec![invoke_static(1, 0, 0), return_void()];
    let callee = static_method(1, 1, 0, vec![return_void()]);
    program(&[0], &[], 0, vec![main_method(1, code), callee])
}

/// Small programs with each way to stop, and its number.
fn stopping() -> Vec<(Program, u8)> {
    let itself = vec![sput(0, 1), new_instance(0, 2), invoke_static(0, 0, 0), return_void()];
    let thrown = vec![new_instance(0, 2), iput(0, 0, 0), sput(0, 0), throw(0)];
    vec![
        (sample(), 32),
        (alone(1, thrown), 33),
        (alone(2, vec![constant(1, -3), sput(1, 1), throw(1)]), 42),
        (alone(1, vec![new_instance(0, 1), goto(0)]), 20),
        (alone(1, itself), 21),
        (alone(1, vec![new_instance(0, 2), sput(0, 0), goto(2)]), 22),
    ]
}

/// A loop without end, and ends, with n at a million, above, and greatest.
fn most_steps() -> Vec<Case> {
    let mut cases = Vec::new();
    for n in [0, 1, 2, 999, MAX_STEPS - 1, MAX_STEPS, MAX_STEPS + 1, u64::MAX] {
        let counting = vec![constant(1, 1), binop(ADD, 0, 0, 1), goto(1)];
        cases.push(Case::of(&alone(2, counting), n).giving(22));
    }
    for (program, number) in stopping().into_iter().filter(|(_, number)| *number != 22) {
        for n in [MAX_STEPS, MAX_STEPS + 1, 1 << 32, (1 << 32) + 1, 1 << 63, u64::MAX] {
            cases.push(Case::of(&program, n).giving(number));
        }
    }
    for n in 0..=4 {
        cases.push(Case::of(&sample(), n).giving(if n < 3 { 22 } else { 32 }));
    }
    cases
}

/// Runs that end with step 1,000,000, and with the one after it.
fn last_step() -> Vec<Case> {
    let counting = |ahead: usize, last: Instruction| {
        let mut code = vec![nop(); ahead];
        let body = code.len() + 2;
        code.extend([constant(0, 499_998), constant(1, 1), binop(SUB, 0, 0, 1)]);
        code.extend([branch_zero(GT, 0, body), last]);
        alone(2, code)
    };
    vec![
        Case::of(&counting(1, return_void()), MAX_STEPS).giving(32),
        Case::of(&counting(1, return_void()), MAX_STEPS - 1).giving(22),
        Case::of(&counting(2, return_void()), MAX_STEPS).giving(22),
        Case::of(&counting(2, return_void()), u64::MAX).giving(22),
        Case::of(&counting(1, throw(1)), u64::MAX).giving(42),
        Case::of(&counting(2, throw(0)), MAX_STEPS + 1).giving(22),
        // Null raised by the last step, and by the one before it.
        Case::of(&counting(1, throw(0)), u64::MAX).giving(22),
        Case::of(&counting(0, throw(0)), MAX_STEPS).giving(33),
    ]
}

/// Lengths that are enough, and the others.
fn lengths() -> Vec<([usize; 3], bool)> {
    let mut lengths = vec![(LEAST, true), (GREATEST, true), ([0; 3], false)];
    for which in 0..3 {
        let with = |length: usize, others: [usize; 3]| {
            let mut lent = others;
            lent[which] = length;
            lent
        };
        lengths.extend([
            (with(LEAST[which] - 1, LEAST), false),
            (with(LEAST[which] - 1, GREATEST), false),
            (with(0, LEAST), false),
            (with(LEAST[which] + 1, LEAST), true),
            (with(GREATEST[which], LEAST), true),
        ]);
    }
    lengths
}

fn memory() -> Vec<Case> {
    let mut cases = Vec::new();
    for (program, number) in stopping() {
        for (lent, enough) in lengths() {
            let case = Case::of(&program, 2_000).lending(lent);
            cases.push(case.giving(if enough { number } else { 23 }));
        }
        for (lent, enough) in [([607, 4352, 16], false), ([609, 4353, 17], true)] {
            let case = Case::of(&program, 0).lending(lent);
            cases.push(case.giving(if enough { 22 } else { 23 }));
        }
    }
    cases
}

/// The text is refused before the memory.
fn refused_first() -> Vec<Case> {
    let text = String::from_utf8(sample().text()).expect("digits");
    let damaged = [
        (text.replace("01ff", "01Ff"), 2),
        (text.trim_end().to_string(), 2),
        (text.replace("0100\n", "0700\n"), 3),
        (text.replace("0100\n", "03\n"), 4),
        (text.replace("060d01", "060d02"), 5),
        (text.replace("0611", "0600"), 6),
        (String::new(), 4),
    ];
    let mut cases = Vec::new();
    for (text, number) in damaged {
        for lent in [LEAST, GREATEST, [607, 4352, 16], [608, 4351, 16], [608, 4352, 15], [0; 3]] {
            let case = Case::new(text.clone().into_bytes(), 5).lending(lent);
            cases.push(case.giving(number));
        }
    }
    cases
}
