//! What document 01 calls tempting but false.

use super::*;
use compare::program::{Method, STATIC};

#[test]
fn a_calls_handler_does_not_get_the_callees_registers() {
    // The callee has class 3 in its registers, the caller has not: nothing of
    // it is asked for at the handler, address 2.
    let main = vec![invoke_static(1, 0, 0), return_void(), return_void()];
    let methods = vec![
        main_method(1, main).with_handlers(vec![Handler::new(0, 1, 2, 1)]),
        static_method(1, 1, 0, vec![new_instance(0, 1), throw(0)]),
    ];
    let program = program(&[0, 0, 0], &[], 0, methods);
    let rows: &[&[&[u64]]] = &[&[&[Z, Z], &[Z, Z], &[Z, C1]], &[&[Z | C3, Z], &[C1, Z]]];
    let mut given = given(&program, rows);
    given.claim.leaving[1] = C1;
    assert_eq!(given.verdict(), "accepted\n00 00 01");
    assert_eq!(given.with_mask(0, 2, 0, C1 | C3), "violated 09 00 00");
}

#[test]
fn a_search_does_not_stop_at_another_count_or_kind() {
    // Class 4 has the name with two arguments, class 3 a static method of it,
    // class 2 the one that is called.
    let methods = vec![
        main_method(1, vec![new_instance(0, 4), invoke_virtual(7, 1, 0), return_void()]),
        virtual_method((2, 7), 1, 1, vec![return_void()]),
        Method::new(3, 7, STATIC, 1, 1).with_code(vec![return_void()]),
        virtual_method((4, 7), 2, 2, vec![return_void()]),
    ];
    let program = program(&[0, 0, 2, 3], &[], 0, methods);
    let main: &[&[u64]] = &[&[Z, Z], &[C4, Z], &[C4, Z]];
    let given = given(&program, &[main, &[&[C4, Z]], &[&[0, Z]], &[&[0, 0, Z]]]);
    assert_eq!(given.verdict(), "accepted\n00 01 01");
    assert_eq!(given.with_mask(1, 0, 0, Z), "violated 06 00 01");
}

#[test]
fn a_written_register_does_not_flow() {
    let program = alone(1, vec![new_instance(0, 2), constant(0, 1), return_void()]);
    let given = given(&program, &[&[&[Z, Z], &[C2, Z], &[N, Z]]]);
    assert_eq!(given.verdict(), ACCEPTED);
}

#[test]
fn code_that_is_not_reached_is_tested_too() {
    let code = vec![return_void(), new_instance(0, 2), nop(), return_void()];
    let given = given(&alone(1, code), &[&[&[Z, Z], &[0, 0], &[C2, 0], &[C2, 0]]]);
    assert_eq!(given.verdict(), ACCEPTED);
    assert_eq!(given.with_mask(0, 2, 0, 0), "violated 04 00 01");
    assert_eq!(given.with_mask(0, 3, 0, 0), "violated 02 00 02");
    assert_eq!(given.with_mask(0, 1, 1, Z), "violated 02 00 01");
}
