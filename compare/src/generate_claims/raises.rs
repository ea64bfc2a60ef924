//! Claims about instructions that raise, without each of the bits that rules 9
//! and 10 ask for there, and without one that rule 2 asks for.

use super::{Case, Meant};
use crate::assembly::*;
use crate::claim::Claim;
use crate::least::least;
use crate::opcode::{ends_code, CHECK_CAST};
use crate::program::{Handler, Instruction, Program, ARITHMETIC, CAST, NULL};
use crate::raising::{below, chain, few, handler, raisers, Raiser};
use crate::raising::{AT, NAME, OTHER, SUPERCLASSES, TARGET};

pub fn cases() -> Vec<Case> {
    [caught(), uncaught(), in_callers(), of_two_classes()].concat()
}

/// The least claim with a change.
fn with(program: &Program, change: impl Fn(&mut Claim)) -> Case {
    let mut claim = least(program);
    change(&mut claim);
    Case::of(program, &claim.frames(program))
}

fn accepted(program: &Program) -> Case {
    with(program, |_| {}).meaning(Meant::Accepted)
}

/// The result's place in a row.
const RESULT: usize = 4;

/// A handler's result without the class, a register without what it held, a
/// cast's own among them, and what flows on although the instruction does not
/// go there.
fn caught() -> Vec<Case> {
    let mut cases = Vec::new();
    for (place, Raiser { class, instruction }) in raisers().into_iter().enumerate() {
        let program = chain(0, Raiser { class, instruction }, &[(0, class)]);
        cases.push(accepted(&program));
        let target = usize::from(TARGET);
        let result = |claim: &mut Claim| claim.row_mut(0, target)[RESULT] &= !(1 << class);
        cases.push(with(&program, result).violating(9, 0, AT));
        let register = if instruction.o == CHECK_CAST { 2 } else { place % RESULT };
        let lost = |claim: &mut Claim| claim.row_mut(0, target)[register] = 0;
        cases.push(with(&program, lost).violating(9, 0, AT));
        if !ends_code(instruction.o) {
            let kept = if instruction.o == CHECK_CAST { 1 } else { 2 };
            let next = |claim: &mut Claim| claim.row_mut(0, usize::from(AT) + 1)[kept] = 0;
            cases.push(with(&program, next).violating(2, 0, AT));
        }
    }
    cases
}

fn uncaught() -> Vec<Case> {
    let mut cases = Vec::new();
    // Class 3 is taken even if only an object is divided, which is a fault.
    let of_an_object = [DIV, REM].map(|operation| binop(operation, 3, 2, 0));
    let of_an_object = of_an_object.map(|instruction| Raiser { class: ARITHMETIC, instruction });
    for raiser in raisers().into_iter().chain(of_an_object) {
        let program = chain(0, raiser, &[(0, below(raiser.class))]);
        cases.push(accepted(&program));
        let kept = |claim: &mut Claim| claim.leaving[0] = 0;
        cases.push(with(&program, kept).violating(10, 0, AT));
    }
    cases
}

/// What leaves each method, and what a caller's handler gets.
fn in_callers() -> Vec<Case> {
    let mut cases = Vec::new();
    for raiser in few() {
        let leaving = chain(2, raiser, &[]);
        cases.push(accepted(&leaving));
        for method in 0..3 {
            let kept = |claim: &mut Claim| claim.leaving[method] = 0;
            cases.push(with(&leaving, kept).violating(10, method as u8, AT));
        }
        let taken = chain(1, raiser, &[(0, raiser.class)]);
        let result = |claim: &mut Claim| claim.row_mut(0, usize::from(TARGET))[RESULT] = 0;
        cases.push(with(&taken, result).violating(9, 0, AT));
    }
    cases
}

/// A call and a throw with null or another class raised, one of them caught: if
/// the bits of both are missing, that of rule 9 counts.
fn of_two_classes() -> Vec<Case> {
    let call = (invoke_virtual(NAME, 1, 0), OTHER, ARITHMETIC);
    let mut cases = Vec::new();
    for (instruction, made, class) in [call, (throw(0), CAST, CAST)] {
        for (caught, left) in [(NULL, class), (class, NULL)] {
            let program = null_or(made, instruction, handler(caught));
            let leaving = |claim: &mut Claim| claim.leaving[0] &= !(1 << left);
            let both = |claim: &mut Claim| {
                leaving(claim);
                claim.row_mut(0, usize::from(TARGET))[2] &= !(1 << caught);
            };
            cases.push(accepted(&program));
            cases.push(with(&program, leaving).violating(10, 0, AT));
            cases.push(with(&program, both).violating(9, 0, AT));
        }
    }
    cases
}

/// Register 0 is null or an object when the instruction comes; a method of class
/// 5 divides by zero.
fn null_or(made: u8, instruction: Instruction, handler: Handler) -> Program {
    let main = vec![
        branch_zero(EQ, 1, 2),
        new_instance(0, made),
        instruction,
        return_void(),
        move_exception(1),
        give(1),
    ];
    let methods = vec![
        main_method(2, main).with_handlers(vec![handler]),
        virtual_method((OTHER, NAME), 2, 1, vec![binop(DIV, 0, 0, 0), give(0)]),
    ];
    whole_program(&SUPERCLASSES, &[], 0, methods)
}
