//! Rules 0 and 5.

use super::*;

#[test]
fn rule_0_comes_first() {
    let given = given(&alone(1, vec![nop(), return_void()]), &[&[&[Z, Z], &[Z, Z]]]);
    assert_eq!(given.verdict(), ACCEPTED);
    for class in [5, 6] {
        assert_eq!(given.with(|claim| claim.fields[0][class] = N | C2), "violated 00 00 00");
    }
    for number in [0, 1] {
        assert_eq!(given.with(|claim| claim.statics[number] = 0), "violated 00 00 00");
    }
    // Before rules that are broken at the same place.
    let both = |claim: &mut Claim| {
        claim.row_mut(0, 0)[0] = 0;
        claim.statics[1] = 0;
    };
    assert_eq!(given.with(both), "violated 00 00 00");
    assert_eq!(given.with_mask(0, 0, 0, 0), "violated 01 00 00");
}

#[test]
fn rule_5_into_the_field_of_each_class_that_has_it() {
    let program = alone(2, vec![nop(), iput(0, 1, 0), return_void()]);
    let row: &[u64] = &[Z | C1, ZN | C0 | C3 | C4, Z];
    let mut given = given(&program, &[&[&[Z; 3], row, row]]).leaving(NULL);
    assert_eq!(given.verdict(), "violated 05 00 01");
    given.claim.fields[0][5] = Z | C1;
    assert_eq!(given.verdict(), "violated 05 00 01");
    given.claim.fields[0] = [0; 64];
    given.claim.fields[0][5] = Z;
    given.claim.fields[0][6] = Z | C1;
    assert_eq!(given.verdict(), ACCEPTED);
    let both = |claim: &mut Claim| {
        claim.row_mut(0, 1)[1] |= C2;
        claim.row_mut(0, 2)[1] |= C2;
    };
    assert_eq!(given.with(both), "violated 05 00 01");
    given.claim.fields[0][5] = Z | C1;
    assert_eq!(given.with(both), ACCEPTED);
    // What is not stored is not asked for.
    let none = |claim: &mut Claim| {
        claim.fields[0][6] = Z;
        claim.row_mut(0, 1)[1] = ZN | C0 | C4;
    };
    assert_eq!(given.with(none), ACCEPTED);
}

#[test]
fn rule_5_into_the_static() {
    let program = alone(1, vec![nop(), sput(0, 1), return_void()]);
    let row: &[u64] = &[ZN | C3, Z];
    let given = given(&program, &[&[&[Z, Z], row, row]]);
    assert_eq!(given.verdict(), "violated 05 00 01");
    assert_eq!(given.with(|claim| claim.statics[1] = Z | C3), "violated 05 00 01");
    assert_eq!(given.with(|claim| claim.statics[1] = ZN | C3), ACCEPTED);
    assert_eq!(given.with(|claim| claim.statics[0] = ZN | C3), "violated 05 00 01");
}
