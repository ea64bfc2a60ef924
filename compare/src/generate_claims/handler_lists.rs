//! Claims about lists of up to eight handlers: rule 9 asks for bits at the
//! target of the first line that fits and at no other, and rule 10 where none
//! fits.

use super::{Case, Meant};
use crate::catching::*;
use crate::claim::{class_bits, Claim, NUMBERS};
use crate::least::{greatest, least};
use crate::program::Program;

pub fn cases() -> Vec<Case> {
    [taken_by_one(), taken_by_none(), in_callers(), by_class()].concat()
}

fn case(program: &Program, claim: &Claim) -> Case {
    Case::of(program, &claim.frames(program))
}

fn accepted(program: &Program, claim: &Claim) -> Case {
    case(program, claim).meaning(Meant::Accepted)
}

/// Every target of a method with so many lines but this one.
fn others(count: usize, target: u8) -> impl Iterator<Item = u8> {
    (AT + 1..).take(count).filter(move |&other| other != target)
}

/// The place of the result after the one register that the methods have.
const RESULT: usize = 1;

/// Takes the class from the result at an address.
fn take(claim: &mut Claim, method: usize, address: u8, class: u8) {
    claim.row_mut(method, address.into())[RESULT] &= !(1 << class);
}

/// All bits but those of one target, and those of one target alone.
fn taken_by_one() -> Vec<Case> {
    let mut cases = Vec::new();
    for pattern in ["xx", "x.x", ".xxx", "xxxxxxxx", "...xx..x", "......xx", ".......x"] {
        let program = frames(&[pattern]);
        let target = taken(pattern).expect("a line fits");
        let least = least(&program);
        cases.push(accepted(&program, &least));

        let mut without = greatest(&program);
        take(&mut without, 0, target, THROWN);
        cases.push(case(&program, &without).violating(9, 0, AT));

        let mut alone = greatest(&program);
        others(pattern.len(), target).for_each(|other| take(&mut alone, 0, other, THROWN));
        cases.push(accepted(&program, &alone));

        let mut register = least.clone();
        for other in others(pattern.len(), target) {
            register.row_mut(0, other.into()).fill(class_bits(&program) | NUMBERS);
        }
        register.row_mut(0, target.into())[0] = 0;
        cases.push(case(&program, &register).violating(9, 0, AT));
    }
    cases
}

/// Up to eight lines that do not fit.
fn taken_by_none() -> Vec<Case> {
    let mut cases = Vec::new();
    for pattern in ["........", "..."] {
        let program = frames(&[pattern]);
        cases.push(accepted(&program, &least(&program)));
        let mut without = greatest(&program);
        without.leaving[0] &= !(1 << THROWN);
        cases.push(case(&program, &without).violating(10, 0, AT));
        let mut alone = greatest(&program);
        others(pattern.len(), 0).for_each(|target| take(&mut alone, 0, target, THROWN));
        cases.push(accepted(&program, &alone));
    }
    cases
}

/// What leaves a callee with lines of its own.
fn in_callers() -> Vec<Case> {
    let mut cases = Vec::new();
    for patterns in [["..x.xx", "........"], ["xxx", "..."], ["........", "."]] {
        let program = frames(&patterns);
        cases.push(accepted(&program, &least(&program)));
        let mut without = greatest(&program);
        match taken(patterns[0]) {
            Some(target) => {
                take(&mut without, 0, target, THROWN);
                cases.push(case(&program, &without).violating(9, 0, AT));
            }
            None => {
                without.leaving[0] &= !(1 << THROWN);
                cases.push(case(&program, &without).violating(10, 0, AT));
            }
        }
        let mut kept = greatest(&program);
        kept.leaving[1] &= !(1 << THROWN);
        cases.push(case(&program, &kept).violating(10, 1, AT));
    }
    cases
}

/// Classes one below the other: each at the target of its own line alone, and
/// one of them not even there.
fn by_class() -> Vec<Case> {
    let mut cases = Vec::new();
    for order in ORDERS {
        let count = order.lines.len();
        let program = of(vec![throwing(0, THROWN, lines_of_classes(order.lines))]);
        let mut alone = greatest(&program);
        for &(class, line) in order.taken {
            let others = others(count, target(count, line));
            others.for_each(|other| take(&mut alone, 0, other, class));
        }
        cases.push(accepted(&program, &alone));
        for &(class, line) in &order.taken[..2] {
            let mut without = greatest(&program);
            take(&mut without, 0, target(count, line), class);
            cases.push(case(&program, &without).violating(9, 0, AT));
        }
    }
    cases
}
