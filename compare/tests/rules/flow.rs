//! Rules 1 to 4 and 8.

use super::*;

#[test]
fn rule_1_registers_and_result_start_as_zero() {
    // Of method 1 register 2 is an argument, which nobody gives.
    let methods =
        vec![main_method(1, vec![return_void()]), static_method(1, 3, 1, vec![return_void()])];
    let program = program(&[0], &[], 0, methods);
    let given = given(&program, &[&[&[Z, Z]], &[&[Z, Z | C1, 0, Z]]]);
    assert_eq!(given.verdict(), ACCEPTED);
    assert_eq!(given.with_mask(0, 0, 0, N), "violated 01 00 00");
    assert_eq!(given.with_mask(0, 0, 1, 0), "violated 01 00 00");
    assert_eq!(given.with_mask(1, 0, 1, C1), "violated 01 01 00");
    assert_eq!(given.with_mask(1, 0, 3, ZN & !Z), "violated 01 01 00");
    // Only at address 0.
    let two = alone(1, vec![goto(0), return_void()]);
    let given = super::given(&two, &[&[&[Z, Z], &[0, 0]]]);
    assert_eq!(given.verdict(), ACCEPTED);
}

#[test]
fn rule_2_all_but_the_written_register_flows_on() {
    let program = alone(3, vec![nop(), constant(1, 0), nop(), return_void()]);
    let start: &[u64] = &[Z | C2, Z | C3, Z, ZN];
    let given = given(&program, &[&[start, start, &[Z | C2, Z, Z, ZN], &[Z | C2, Z, Z, ZN]]]);
    assert_eq!(given.verdict(), ACCEPTED);
    assert_eq!(given.with_mask(0, 1, 1, Z), "violated 02 00 00");
    assert_eq!(given.with_mask(0, 1, 3, Z), "violated 02 00 00");
    assert_eq!(given.with_mask(0, 2, 0, Z), "violated 02 00 01");
    assert_eq!(given.with_mask(0, 2, 2, 0), "violated 02 00 01");
    assert_eq!(given.with_mask(0, 2, 3, Z), "violated 02 00 01");
    assert_eq!(given.with_mask(0, 2, 1, 0), "violated 04 00 01");
    assert_eq!(given.with_mask(0, 3, 1, 0), "violated 02 00 02");
    // More later on is no harm.
    assert_eq!(given.with_mask(0, 3, 1, ZN | C4), ACCEPTED);
}

#[test]
fn rule_3_goto_and_if_flow_to_their_target() {
    let program = alone(1, vec![branch_zero(EQ, 0, 2), goto(3), goto(0), return_void()]);
    let given = given(&program, &[&[&[Z, Z], &[Z, Z], &[Z, Z], &[Z, Z]]]);
    assert_eq!(given.verdict(), ACCEPTED);
    assert_eq!(given.with_mask(0, 1, 0, 0), "violated 02 00 00");
    assert_eq!(given.with_mask(0, 2, 0, 0), "violated 03 00 00");
    assert_eq!(given.with_mask(0, 2, 1, 0), "violated 03 00 00");
    assert_eq!(given.with_mask(0, 3, 1, 0), "violated 03 00 01");
    // Goto has no next: what address 1 has more goes to 3 and not to 2.
    assert_eq!(given.with_mask(0, 1, 0, ZN), "violated 03 00 01");
    assert_eq!(given.with_mask(0, 3, 0, ZN), ACCEPTED);
    assert_eq!(given.with_mask(0, 2, 0, ZN), "violated 03 00 02");
    // An if to the next address is first asked as rule 2.
    let next = alone(1, vec![branch_zero(EQ, 0, 1), return_void()]);
    let given = super::given(&next, &[&[&[Z, Z], &[0, Z]]]);
    assert_eq!(given.verdict(), "violated 02 00 00");
}

#[test]
fn rules_2_and_3_are_not_asked_after_return_and_throw() {
    for (last, raised) in [(give(0), 0), (return_void(), 0), (throw(0), NULL)] {
        let program = alone(1, vec![last, return_void()]);
        let given = given(&program, &[&[&[Z, Z], &[0, 0]]]).leaving(raised);
        assert_eq!(given.verdict(), ACCEPTED);
    }
}

/// The verdict of one instruction from these masks of two registers and the
/// result, when register 0 is this after it and what it raises may leave.
fn after(instruction: Instruction, before: [u64; 3], written: u64) -> String {
    let program = alone(2, vec![nop(), instruction, return_void()]);
    let last = [written, before[1], before[2]];
    let mut given =
        given(&program, &[&[&[Z; 3], &before, &last]]).leaving(NULL | ARITHMETIC | CAST);
    given.claim.row_mut(0, 1).iter_mut().for_each(|mask| *mask |= Z);
    given.claim.row_mut(0, 2)[1] |= Z;
    given.claim.row_mut(0, 2)[2] |= Z;
    given.claim.fields[0][5] = Z | C1;
    given.claim.fields[0][6] = Z | C4;
    given.claim.statics[1] = Z | C3;
    given.verdict()
}

/// The written mask is enough, and every bit of it is asked for.
fn writes(instruction: Instruction, before: [u64; 3], written: u64) {
    assert_eq!(after(instruction, before, written), ACCEPTED, "{instruction:?}");
    for bit in (0..64).filter(|bit| written >> bit & 1 == 1) {
        let less = written & !(1 << bit);
        assert_eq!(after(instruction, before, less), "violated 04 00 01", "{instruction:?}");
    }
}

#[test]
fn rule_4_what_is_written() {
    writes(copy(0, 1), [0, ZN | C2, 0], ZN | C2);
    writes(copy(0, 0), [Z | C2 | C3, 0, 0], Z | C2 | C3);
    writes(constant(0, 0), [0, 0, 0], Z);
    writes(constant(0, 1), [0, 0, 0], N);
    writes(constant(0, i32::MIN), [0, 0, 0], N);
    writes(new_instance(0, 3), [0, 0, 0], C3);
    writes(sget(0, 1), [0, 0, 0], Z | C3);
    writes(move_result(0), [0, 0, Z | C1], Z | C1);
    writes(move_exception(0), [0, 0, Z | C1], Z | C1);
    writes(instance_of(0, 1, 2), [0, 0, 0], ZN);
    writes(instance_of(0, 0, 4), [C2, 0, 0], ZN);
}

#[test]
fn rule_4_operations_need_a_number_in_each_operand() {
    for operation in 0..11 {
        writes(binop(operation, 0, 0, 1), [Z, Z, 0], ZN);
        writes(binop(operation, 0, 1, 0), [N | C2, Z | C3, 0], ZN);
    }
    for operation in 0..2 {
        writes(unop(operation, 0, 1), [0, N, 0], ZN);
        writes(unop(operation, 0, 1), [0, Z | C4, 0], ZN);
    }
    // An operand that is only an object: nothing flows to address 1.
    let only_objects = |instruction| {
        let program = alone(2, vec![return_void(), instruction, return_void()]);
        given(&program, &[&[&[Z, Z, Z], &[C2, Z, Z], &[0, Z, Z]]]).verdict()
    };
    assert_eq!(only_objects(binop(ADD, 0, 0, 1)), ACCEPTED);
    assert_eq!(only_objects(binop(DIV, 0, 1, 0)), ACCEPTED);
    assert_eq!(only_objects(unop(NEG, 0, 0)), ACCEPTED);
    assert_eq!(only_objects(unop(NEG, 0, 1)), "violated 04 00 01");
    assert_eq!(only_objects(binop(ADD, 0, 1, 1)), "violated 04 00 01");
}

#[test]
fn rule_4_casts_let_null_and_classes_below_through() {
    let all = ZN | C0 | C1 | C2 | C3 | C4;
    writes(check_cast(0, 0), [all, 0, 0], Z | C0 | C1 | C2 | C3 | C4);
    writes(check_cast(0, 1), [all, 0, 0], Z | C1 | C4);
    writes(check_cast(0, 2), [all, 0, 0], Z | C2 | C3);
    writes(check_cast(0, 3), [all, 0, 0], Z | C3);
    writes(check_cast(0, 3), [ZN | C2, 0, 0], Z);
}

#[test]
fn rule_4_fields_of_each_class_that_has_them() {
    writes(iget(0, 1, 0), [0, Z | C2, 0], Z | C1);
    writes(iget(0, 1, 0), [0, N | C3, 0], Z | C4);
    writes(iget(0, 1, 0), [0, C2 | C3, 0], Z | C1 | C4);
    // Classes 0 and 4 do not have it, nor does a number.
    writes(iget(0, 1, 0), [0, ZN | C0 | C4, 0], 0);
    writes(iget(0, 1, 0), [0, ZN | C0 | C3 | C4, 0], Z | C4);
}

#[test]
fn rule_8_returned_masks() {
    let given = given(&alone(1, vec![goto(1), give(0)]), &[&[&[Z, Z], &[ZN | C2, Z]]]);
    assert_eq!(given.verdict(), "violated 08 00 01");
    assert_eq!(given.with(|claim| claim.returned[0] = ZN), "violated 08 00 01");
    assert_eq!(given.with(|claim| claim.returned[0] = ZN | C2), ACCEPTED);
    let void = super::given(&alone(1, vec![return_void()]), &[&[&[ZN | C2, Z]]]);
    assert_eq!(void.verdict(), ACCEPTED);
    assert_eq!(void.with(|claim| claim.returned[0] = N | C2), "violated 08 00 00");
}
