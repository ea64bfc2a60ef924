//! Rules 9 and 10.

use super::*;

/// Address 2 throws; handlers go to 3. Class 4 lies below Throwable, class 2
/// does not.
fn throwing(handlers: Vec<Handler>) -> Program {
    let code = vec![nop(), return_void(), throw(0), return_void()];
    alone_with(2, code, handlers)
}

/// A throw of numbers other than zero and of classes 1, 2 and 4.
fn given_throw(handlers: Vec<Handler>) -> Given {
    let thrown: &[u64] = &[N | C1 | C2 | C4, Z | C3, Z];
    let target: &[u64] = &[N | C1 | C2 | C4, Z | C3, C1 | C4];
    let before: &[u64] = &[Z, Z, Z];
    given(&throwing(handlers), &[&[before, before, thrown, target]])
}

#[test]
fn rule_9_registers_and_class_go_to_the_handler() {
    let given = given_throw(vec![Handler::new(2, 3, 3, 1)]);
    assert_eq!(given.verdict(), ACCEPTED);
    assert_eq!(given.with_mask(0, 3, 0, N | C1 | C4), "violated 09 00 02");
    assert_eq!(given.with_mask(0, 3, 1, Z), "violated 09 00 02");
    assert_eq!(given.with_mask(0, 3, 2, C1), "violated 09 00 02");
    assert_eq!(given.with_mask(0, 3, 2, C4), "violated 09 00 02");
    // The result at the throw does not flow, and class 2 is not thrown.
    assert_eq!(given.with_mask(0, 2, 2, ZN | C3), ACCEPTED);
}

#[test]
fn rule_9_is_asked_only_if_a_class_is_caught() {
    let given = given_throw(vec![Handler::new(2, 3, 3, 1)]);
    let none = |claim: &mut Claim| {
        claim.row_mut(0, 2)[0] = N | C2;
        claim.row_mut(0, 3).fill(0);
    };
    assert_eq!(given.with(none), ACCEPTED);
}

#[test]
fn rule_10_what_no_handler_takes_leaves() {
    for handlers in [
        vec![],
        vec![Handler::new(0, 2, 3, 0)],
        vec![Handler::new(3, 4, 3, 0)],
        vec![Handler::new(0, 4, 3, 2), Handler::new(0, 4, 3, 3)],
    ] {
        let given = given_throw(handlers);
        assert_eq!(given.verdict(), "violated 0a 00 02");
        assert_eq!(given.with(|claim| claim.leaving[0] = C1), "violated 0a 00 02");
        assert_eq!(given.with(|claim| claim.leaving[0] = C4), "violated 0a 00 02");
        assert_eq!(given.with(|claim| claim.leaving[0] = C1 | C4), ACCEPTED);
    }
}

#[test]
fn the_first_handler_that_fits_takes_a_class() {
    // Class 4 goes to address 0, class 1 to 3.
    let handlers =
        vec![Handler::new(2, 3, 0, 4), Handler::new(0, 4, 3, 1), Handler::new(2, 3, 1, 4)];
    let given = given_throw(handlers);
    let all = ZN | C1 | C2 | C4;
    let kept = |claim: &mut Claim| {
        for address in [0, 1] {
            claim.row_mut(0, address)[..2].copy_from_slice(&[all, Z | C3]);
            claim.row_mut(0, address)[2] = Z | C4;
        }
        claim.row_mut(0, 3)[2] = C1;
    };
    assert_eq!(given.with(kept), ACCEPTED);
    let lost = |claim: &mut Claim| {
        kept(claim);
        claim.row_mut(0, 0)[2] = Z;
    };
    assert_eq!(given.with(lost), "violated 09 00 02");
    let other = |claim: &mut Claim| {
        kept(claim);
        claim.row_mut(0, 3)[2] = C4;
    };
    assert_eq!(given.with(other), "violated 09 00 02");
}

/// A throw of class 4 at address 1 under eight handlers, which go to addresses
/// 2 to 9, the last one to 2; those at these places in the text fit. The masks
/// of the targets are empty.
fn given_eight(fitting: &[usize]) -> Given {
    let mut code = vec![new_instance(0, 4), throw(0)];
    code.extend((2..10).map(goto));
    let others = [(0, 1, 0), (2, 10, 0), (1, 2, 2), (0, 10, 3)];
    let handler = |place: usize| {
        let fits = fitting.contains(&place);
        let (from, to, class) = if fits { (1, 2, [4, 1][place % 2]) } else { others[place % 4] };
        Handler::new(from, to, 9 - place as u8, class)
    };
    let program = alone_with(1, code, (0..8).map(handler).collect());
    let none: &[u64] = &[0, 0];
    given(&program, &[&[&[Z, Z], &[C4, Z], none, none, none, none, none, none, none, none]])
}

#[test]
fn of_eight_handlers_the_first_line_that_fits_takes_a_class() {
    let filled = |claim: &mut Claim, targets: std::ops::Range<usize>| {
        targets.for_each(|target| claim.row_mut(0, target).copy_from_slice(&[C4, C4]));
    };
    for (fitting, target) in
        [(&[0, 1, 2, 3, 4, 5, 6, 7][..], 9), (&[2, 3, 6], 7), (&[6, 7], 3), (&[7], 2)]
    {
        let given = given_eight(fitting);
        let only = |claim: &mut Claim| filled(claim, target..target + 1);
        assert_eq!(given.with(only), ACCEPTED);
        let others = |claim: &mut Claim| {
            filled(claim, 2..target);
            filled(claim, target + 1..10);
        };
        assert_eq!(given.with(others), "violated 09 00 01");
        assert_eq!(given.with(|claim| claim.leaving[0] = C4), "violated 09 00 01");
    }
    let given = given_eight(&[]);
    assert_eq!(given.with(|claim| filled(claim, 2..10)), "violated 0a 00 01");
    assert_eq!(given.with(|claim| claim.leaving[0] = C4), ACCEPTED);
}

#[test]
fn all_of_rule_9_comes_before_rule_10() {
    // Class 1 has no handler; class 4 has, and its bit is not there.
    let given = given_throw(vec![Handler::new(2, 3, 3, 4)]);
    assert_eq!(given.verdict(), "violated 0a 00 02");
    assert_eq!(given.with_mask(0, 3, 2, C1), "violated 09 00 02");
}

/// Method 0 calls method 1, out of which classes 2 and 4 come.
fn given_callee(handlers: Vec<Handler>) -> Given {
    let main = vec![nop(), invoke_static(1, 0, 0), return_void()];
    let methods = vec![
        main_method(1, main).with_handlers(handlers),
        static_method(1, 3, 0, vec![return_void()]),
    ];
    let program = program(&[0, 0, 2, 1], &[], 0, methods);
    let rows: &[&[&[u64]]] =
        &[&[&[Z, Z], &[Z | C3, Z], &[Z | C3, Z | C2 | C4]], &[&[Z | C0, Z, Z, Z]]];
    let mut given = given(&program, rows);
    given.claim.leaving[1] = C2 | C4;
    given
}

#[test]
fn rules_9_and_10_for_a_callee() {
    // Class 2 is no Throwable, and goes its way all the same.
    let given = given_callee(vec![Handler::new(1, 2, 2, 0)]);
    assert_eq!(given.verdict(), "accepted\n00 01 01");
    assert_eq!(given.with_mask(0, 2, 1, Z | C4), "violated 09 00 01");
    assert_eq!(given.with_mask(0, 2, 1, Z | C2), "violated 09 00 01");
    let given = given_callee(vec![Handler::new(1, 2, 2, 1)]);
    assert_eq!(given.verdict(), "violated 0a 00 01");
    assert_eq!(given.with(|claim| claim.leaving[0] = C2), "accepted\n00 01 01");
    assert_eq!(given.with(|claim| claim.leaving[0] = C4), "violated 0a 00 01");
}

#[test]
fn rule_9_takes_the_callers_registers_to_a_handler_that_is_not_next() {
    let mut given = given_callee(vec![Handler::new(1, 2, 0, 0)]);
    assert_eq!(given.verdict(), "violated 09 00 01");
    given.claim.row_mut(0, 0).copy_from_slice(&[Z | C3, Z | C2 | C4]);
    given.claim.row_mut(0, 1)[1] = Z | C2 | C4;
    given.claim.row_mut(0, 2)[1] = Z;
    assert_eq!(given.verdict(), "accepted\n00 01 01");
    assert_eq!(given.with_mask(0, 0, 0, Z), "violated 09 00 01");
    assert_eq!(given.with_mask(0, 0, 1, Z | C2), "violated 09 00 01");
}
