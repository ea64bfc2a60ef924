//! Rules 9 and 10 where an instruction raises.

use super::*;

/// The instruction at address 1, with two registers; its handlers go to 2. Of
/// the classes as in the text 5 lies below 0, 6 below 5 and 7 below Throwable;
/// field 0 is of class 5.
fn raising(instruction: Instruction, row: [u64; 2], handlers: &[u8]) -> Given {
    let handler = |&class| Handler::new(1, 2, 2, class);
    let main = main_method(2, vec![return_void(), instruction, return_void()])
        .with_handlers(handlers.iter().map(handler).collect());
    let program = whole_program(&[0, 1, 1, 1, 0, 5, 1], &[5], 1, vec![main]);
    let row: &[u64] = &[row[0], row[1], 0];
    // What flows on and what is written lies in here.
    let after: &[u64] = &[row[0] | ZN, row[1] | ZN, 0];
    let mut given = given(&program, &[&[&[Z; 3], row, after]]);
    given.claim.fields[0][5] = ZN;
    given
}

/// The classes that rule 10 asks for without a handler: none is missing and
/// none is too many.
fn leaves(instruction: Instruction, row: [u64; 2], classes: u64) {
    let given = raising(instruction, row, &[]);
    assert_eq!(given.clone().leaving(classes).verdict(), ACCEPTED, "{instruction:?}");
    for bit in (0..64).filter(|bit| classes >> bit & 1 == 1) {
        let less = given.clone().leaving(classes & !(1 << bit));
        assert_eq!(less.verdict(), "violated 0a 00 01", "{instruction:?}");
    }
}

#[test]
fn null_where_an_object_is_used() {
    for instruction in [iget(0, 1, 0), iput(0, 1, 0), invoke_virtual(9, 1, 1), throw(1)] {
        leaves(instruction, [Z, Z], NULL);
        leaves(instruction, [0, ZN | C2], NULL);
        leaves(instruction, [ZN, N | C2], 0);
        leaves(instruction, [ZN, 0], 0);
    }
    leaves(throw(1), [Z, Z | C1 | C2 | NULL | CAST], C1 | NULL | CAST);
    // Only the receiver of a call counts, and only the object of an iput.
    leaves(invoke_virtual(9, 2, 0), [C2, ZN], 0);
    leaves(iput(1, 0, 0), [C2, Z], 0);
}

#[test]
fn zero_as_a_divisor_whatever_is_divided() {
    for operation in [DIV, REM] {
        leaves(binop(operation, 0, 0, 1), [N, Z], ARITHMETIC);
        leaves(binop(operation, 0, 0, 1), [C2, ZN | C2], ARITHMETIC);
        leaves(binop(operation, 0, 0, 1), [0, Z], ARITHMETIC);
        leaves(binop(operation, 0, 0, 1), [Z, N | C2], 0);
        leaves(binop(operation, 1, 1, 0), [C2, Z], 0);
    }
    for operation in (0..11).filter(|&operation| ![DIV, REM].contains(&operation)) {
        leaves(binop(operation, 0, 1, 1), [ZN, ZN], 0);
    }
    leaves(unop(NEG, 0, 1), [ZN, ZN], 0);
}

#[test]
fn a_class_that_a_cast_does_not_let_through() {
    let all = C0 | C1 | C2 | C3 | C4 | NULL | ARITHMETIC | CAST;
    leaves(check_cast(0, 5), [C4, 0], CAST);
    leaves(check_cast(0, 5), [ZN | C2 | C3, 0], 0);
    leaves(check_cast(0, 5), [C0 | C2, 0], CAST);
    leaves(check_cast(0, 6), [C2, 0], CAST);
    leaves(check_cast(0, 0), [ZN | all, 0], 0);
    leaves(check_cast(0, 1), [ZN | C1 | C4 | NULL | ARITHMETIC | CAST, 0], 0);
    leaves(check_cast(0, 4), [CAST | NULL, 0], CAST);
    leaves(check_cast(0, 5), [ZN, C4], 0);
    leaves(instance_of(0, 1, 5), [ZN | all, ZN | all], 0);
}

#[test]
fn what_else_uses_zero_raises_nothing() {
    for instruction in [
        copy(0, 1),
        branch(LT, 0, 1, 2),
        branch_zero(EQ, 0, 2),
        sput(0, 0),
        sget(0, 0),
        invoke_static(0, 0, 0),
        move_result(0),
        give(0),
    ] {
        let mut given = raising(instruction, [Z, Z], &[]);
        given.claim.row_mut(0, 2)[2] = Z;
        assert!(given.verdict().starts_with(ACCEPTED), "{instruction:?}");
    }
}

/// The verdict with a handler for each class that can be named, and the class
/// bit in its result or not.
#[test]
fn handlers_of_the_class_and_above_take_it() {
    let cases = [(iget(0, 1, 0), 2, NULL), (binop(REM, 0, 0, 1), 3, ARITHMETIC)];
    for (instruction, class, bit) in cases.into_iter().chain([(check_cast(1, 6), 4, CAST)]) {
        for caught in 0..8 {
            let row = if class == 4 { [0, C2] } else { [C2, Z] };
            let given = raising(instruction, row, &[caught]);
            let takes = [0, 1, class].contains(&caught);
            assert_eq!(
                given.verdict(),
                if takes { "violated 09 00 01" } else { "violated 0a 00 01" }
            );
            let in_result = given.with_mask(0, 2, 2, bit);
            assert_eq!(in_result, if takes { ACCEPTED } else { "violated 0a 00 01" });
            let left = given.leaving(bit).verdict();
            assert_eq!(left, if takes { "violated 09 00 01" } else { ACCEPTED });
        }
    }
}

#[test]
fn a_casts_handler_sees_what_did_not_pass() {
    let mut given = raising(check_cast(0, 5), [ZN | C2 | C4, C1], &[4]);
    given.claim.row_mut(0, 2).copy_from_slice(&[ZN | C2 | C4, C1, CAST]);
    assert_eq!(given.verdict(), ACCEPTED);
    for less in [ZN | C2, Z | C2 | C4] {
        assert_eq!(given.with_mask(0, 2, 0, less), "violated 09 00 01");
    }
    // Next asks first, for what passes.
    assert_eq!(given.with_mask(0, 2, 0, ZN | C4), "violated 04 00 01");
    assert_eq!(given.with_mask(0, 2, 1, 0), "violated 02 00 01");
}

#[test]
fn rules_below_9_come_first_and_9_before_10() {
    // A field, an argument and a result that are not allowed.
    let given = raising(iput(0, 1, 0), [C4, Z | C2], &[2]);
    assert_eq!(given.verdict(), "violated 05 00 01");
    let given = raising(invoke_virtual(9, 1, 1), [C4, Z], &[]);
    assert_eq!(given.with_mask(0, 2, 0, 0), "violated 02 00 01");
    assert_eq!(given.verdict(), "violated 0a 00 01");
    // Null has a handler and class 1 has none.
    let given = raising(throw(0), [Z | C1, 0], &[2]);
    assert_eq!(given.verdict(), "violated 09 00 01");
    assert_eq!(given.with_mask(0, 2, 2, NULL), "violated 0a 00 01");
    let given = given.leaving(C1);
    assert_eq!(given.verdict(), "violated 09 00 01");
    assert_eq!(given.with_mask(0, 2, 2, NULL), ACCEPTED);
}

#[test]
fn rule_2_is_asked_although_it_can_only_raise() {
    for instruction in [iget(1, 0, 0), iput(1, 0, 0), invoke_virtual(9, 1, 0), binop(DIV, 1, 0, 0)]
    {
        let given = raising(instruction, [Z, C2], &[]).leaving(NULL | ARITHMETIC);
        assert_eq!(given.verdict(), ACCEPTED);
        assert_eq!(given.with_mask(0, 2, 0, 0), "violated 02 00 01", "{instruction:?}");
    }
    let cast = raising(check_cast(0, 6), [C2, C4], &[]).leaving(CAST);
    assert_eq!(cast.with_mask(0, 2, 0, 0), ACCEPTED);
    assert_eq!(cast.with_mask(0, 2, 1, 0), "violated 02 00 01");
}
