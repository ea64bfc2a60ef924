//! Rules 6 and 7, and the call list.

use super::*;

/// Method 0 calls method 1 with registers 1 and 2; method 1 has three
/// registers, of which the last two are arguments.
fn with_arguments() -> Given {
    let methods = vec![
        main_method(3, vec![nop(), invoke_static(1, 2, 1), return_void()]),
        static_method(1, 3, 2, vec![return_void()]),
    ];
    let program = program(&[0, 0], &[], 0, methods);
    let row: &[u64] = &[Z, Z | C1, Z | C2, Z];
    given(&program, &[&[&[Z; 4], row, row], &[&[Z, Z | C1, Z | C2, Z]]])
}

#[test]
fn rule_6_arguments_go_into_parameters_in_order() {
    let given = with_arguments();
    assert_eq!(given.verdict(), "accepted\n00 01 01");
    assert_eq!(given.with_mask(1, 0, 1, Z), "violated 06 00 01");
    assert_eq!(given.with_mask(1, 0, 2, Z), "violated 06 00 01");
    assert_eq!(given.with_mask(1, 0, 1, C1), "violated 06 00 01");
    let swapped = |claim: &mut Claim| {
        claim.row_mut(1, 0)[1..3].copy_from_slice(&[Z | C2, Z | C1]);
    };
    assert_eq!(given.with(swapped), "violated 06 00 01");
    // Register 0 of the callee is no parameter, that of the caller no argument.
    assert_eq!(given.with_mask(1, 0, 0, Z | C2), "accepted\n00 01 01");
    assert_eq!(given.with_mask(0, 2, 0, Z | C1), "accepted\n00 01 01");
}

#[test]
fn rule_7_returned_goes_into_the_result_at_next() {
    let given = with_arguments();
    let returning = |mask: u64| given.with(|claim| claim.returned[1] = mask);
    assert_eq!(returning(Z | C1), "violated 07 00 01");
    assert_eq!(returning(ZN), "violated 07 00 01");
    assert_eq!(given.with_mask(0, 2, 3, ZN), "accepted\n00 01 01");
    assert_eq!(given.with_mask(0, 2, 3, N), "violated 07 00 01");
    // The result before the call does not flow.
    assert_eq!(given.with_mask(0, 1, 3, ZN | C2), "accepted\n00 01 01");
}

/// Class 3 lies below 2; both have the name, and so has Throwable, class 1,
/// by class 0 above it. Method 0 calls with register 0, which may be null, and
/// 1.
fn with_receivers() -> Given {
    let body = vec![return_void()];
    let methods = vec![
        main_method(2, vec![nop(), invoke_virtual(7, 2, 0), return_void()]),
        virtual_method((2, 7), 2, 2, body.clone()),
        virtual_method((3, 7), 2, 2, body.clone()),
        virtual_method((0, 7), 2, 2, body),
    ];
    let program = program(&[0, 0, 2], &[], 0, methods);
    let row: &[u64] = &[ZN | C1 | C2 | C3, ZN, Z];
    let callees: [&[&[u64]]; 3] = [&[&[C2, ZN, Z]], &[&[C3, ZN, Z]], &[&[C1, ZN, Z]]];
    given(&program, &[&[&[Z; 3], row, row], callees[0], callees[1], callees[2]]).leaving(NULL)
}

#[test]
fn rule_6_a_receiver_gives_only_the_bits_that_lead_there() {
    let given = with_receivers();
    assert_eq!(given.verdict(), "accepted\n00 01 01\n00 01 02\n00 01 03");
    for method in 1..4 {
        assert_eq!(given.with_mask(method, 0, 0, Z | C0), "violated 06 00 01");
        assert_eq!(given.with_mask(method, 0, 1, Z), "violated 06 00 01");
    }
    // Class 0 leads to method 3 as class 1 does: it stands once in the list.
    let more = |claim: &mut Claim| {
        claim.row_mut(0, 1)[0] |= C0;
        claim.row_mut(0, 2)[0] |= C0;
    };
    assert_eq!(given.with(more), "violated 06 00 01");
    let and_there = |claim: &mut Claim| {
        more(claim);
        claim.row_mut(3, 0)[0] |= C0;
    };
    assert_eq!(given.with(and_there), "accepted\n00 01 01\n00 01 02\n00 01 03");
}

#[test]
fn receivers_that_are_not_there_lead_nowhere() {
    let given = with_receivers();
    let fewer = |claim: &mut Claim| {
        claim.row_mut(0, 1)[0] = ZN | C3;
        claim.row_mut(1, 0)[..2].fill(0);
        claim.row_mut(3, 0)[..2].fill(0);
        claim.returned[2] = Z | C3;
        claim.returned[3] = Z | C2;
        claim.row_mut(0, 2)[2] = Z | C3;
    };
    assert_eq!(given.with(fewer), "accepted\n00 01 02");
}

#[test]
fn a_call_without_callee_asks_nothing_of_the_result() {
    let given = with_receivers();
    let none = |claim: &mut Claim| {
        claim.row_mut(0, 1)[0] = ZN;
        claim.row_mut(0, 2)[2] = 0;
    };
    assert_eq!(given.with(none), ACCEPTED);
    let lost = |claim: &mut Claim| {
        none(claim);
        claim.row_mut(0, 2)[0] = Z;
    };
    assert_eq!(given.with(lost), "violated 02 00 01");
}

#[test]
fn the_list_rises_and_has_calls_without_arguments_and_unreachable_ones() {
    let methods = vec![
        main_method(1, vec![goto(2), invoke_static(0, 0, 0), invoke_static(2, 0, 0), goto(2)]),
        static_method(1, 1, 0, vec![invoke_static(2, 0, 0), invoke_static(1, 0, 0), goto(0)]),
        static_method(2, 1, 0, vec![return_void()]),
    ];
    let program = program(&[0], &[], 0, methods);
    let row: &[u64] = &[Z, Z];
    let given = given(&program, &[&[row; 4], &[row; 3], &[row]]);
    assert_eq!(given.verdict(), "accepted\n00 01 00\n00 02 02\n01 00 02\n01 01 01");
}

#[test]
fn the_first_place_counts_then_the_lowest_rule() {
    let given = with_arguments();
    let several = |claim: &mut Claim| {
        claim.returned[0] = 0;
        claim.row_mut(1, 0)[3] = 0;
        claim.row_mut(1, 0)[1] = 0;
        claim.row_mut(0, 2)[3] = 0;
    };
    assert_eq!(given.with(several), "violated 06 00 01");
    let later = |claim: &mut Claim| {
        several(claim);
        claim.row_mut(1, 0)[1] = Z | C1;
    };
    assert_eq!(given.with(later), "violated 07 00 01");
    let last = |claim: &mut Claim| {
        later(claim);
        claim.row_mut(0, 2)[3] = Z;
    };
    assert_eq!(given.with(last), "violated 08 00 02");
    let other = |claim: &mut Claim| {
        last(claim);
        claim.returned[0] = Z;
    };
    assert_eq!(given.with(other), "violated 01 01 00");
}
