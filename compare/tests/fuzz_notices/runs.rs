//! Runs that leave an accepted claim or its call list.

use super::{case, expected};
use compare::fuzz::differ::{difference, follow};

#[test]
fn a_call_missing_from_the_list() {
    let list = [[0, 0, 1], [0, 3, 2]].concat();
    let expected = expected(&case(100));
    assert_eq!(expected.left.memory.lent()[..6], list);
    let mut got = expected.left.clone();
    got.memory.lent_mut()[5] = 1;
    let what = difference(&expected.left, &got).unwrap().what;
    assert_eq!(what, "memory of the checker: element 5, byte 0 of 1");
    let outside = follow(&case(100), &expected, &got).unwrap_err();
    assert_eq!(outside.got, "step 8: the call [00, 03, 02] is not in the list");
}

/// What is said of the run if a mask of this line of the claim had no bit and
/// the claim were accepted all the same.
fn without_bits(line: usize, mask: usize) -> String {
    let expected = expected(&case(100));
    let mut case = case(100);
    let ends = case.claim.iter().enumerate().filter(|(_, &byte)| byte == b'\n');
    let end = ends.map(|(place, _)| place).nth(line).unwrap();
    case.claim[end - 16 * (mask + 1)..end - 16 * mask].fill(b'0');
    let got = &expected.left;
    follow(&case, &expected, got).map_or_else(|outside| outside.got, |_| "inside".to_string())
}

#[test]
fn a_run_outside_a_mask() {
    // Registers and result at method 0 address 0, where it waits for a call.
    let what = "lies outside its mask";
    assert_eq!(
        without_bits(0, 2),
        format!("register (place 0) of frame 0, method 0 address 0, {what}")
    );
    assert_eq!(
        without_bits(1, 0),
        format!("step 5: result (place 2) of frame 0, method 0 address 1, {what}")
    );
    assert_eq!(
        without_bits(6, 2),
        format!("step 2: register (place 0) of frame 1, method 1 address 1, {what}")
    );
    // Field 0 of class 1, and of the others, which have no object; static 0.
    assert_eq!(without_bits(10, 0), format!("step 2: field 0 of object 0 {what}"));
    assert!([9, 11, 12, 13].iter().all(|&line| without_bits(line, 0) == "inside"));
    assert_eq!(without_bits(14, 0), format!("static 0 {what}"));
    // What leaves method 0, and method 1.
    assert_eq!(without_bits(18, 0), "inside");
    assert_eq!(
        without_bits(19, 0),
        "step 4: an exception of class 1 left method 1 and is not in its mask"
    );
}
