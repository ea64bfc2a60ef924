//! The fuzzer notices what is wrong with a written claim: a text changed or
//! written where it must not be, a check of it that differs, and an accepted
//! claim that lies below it.

use compare::assembly::*;
use compare::checker::{Verdict, LEAST_MEMORY};
use compare::claim::{Claim, OTHER, ZERO};
use compare::fuzz::differ::difference;
use compare::fuzz::left::{Expected, Left};
use compare::fuzz::lengths::Lengths;
use compare::fuzz::written::{accepted, within, written, Checked};
use compare::fuzz::Case;
use compare::least::{greatest, least};
use compare::program::Program;
use compare::writer::{text_length, Written};
use compare::Refusal;

/// Two calls of method 1, which returns an object.
fn calling() -> Program {
    let main = vec![invoke_static(1, 0, 0), move_result(0), invoke_static(1, 0, 0), return_void()];
    let methods =
        vec![main_method(1, main), static_method(1, 1, 0, vec![new_instance(0, 1), give(0)])];
    program(&[0], &[], 1, methods)
}

/// A case with this claim, in which the writer is lent so many bytes more or
/// fewer than the text has.
fn case(claim: &Claim, more: isize) -> Case {
    let program = calling();
    let lent = Lengths {
        frames: 32,
        objects: 256,
        statics: 16,
        memory: LEAST_MEMORY,
        text: text_length(&program).saturating_add_signed(more),
        read_answer: 5,
        step_answer: 5,
        check_answer: 5,
        write_answer: 5,
    };
    let (salt, made) = (0x1234_5678_9abc_def1, ["as made", "least"]);
    Case { claim: claim.text(&program), program: program.text(), n: 5, lent, salt, follow: 5, made }
}

fn expected(case: &Case) -> Expected {
    Expected::of(case, Left::before(case))
}

/// What is said of a text left that is changed in this way.
fn noticed(more: isize, change: impl Fn(&mut [u8])) -> Option<String> {
    let expected = expected(&case(&least(&calling()), more));
    let mut got = expected.left.clone();
    change(got.text.lent_mut());
    difference(&expected.left, &got).map(|difference| difference.what)
}

#[test]
fn a_byte_of_the_text() {
    let length = text_length(&calling());
    for place in [0, 1, 22, length - 1] {
        let what = format!("memory of the writer: element {place}, byte 0 of 1");
        assert_eq!(noticed(0, |text| text[place] ^= 1), Some(what));
    }
    assert_eq!(noticed(0, |_| {}), None);
}

#[test]
fn bytes_written_where_the_text_does_not_fit() {
    let program = calling();
    let text = least(&program).text(&program);
    let expected = expected(&case(&least(&program), -1));
    assert_eq!(expected.written, Written::Refused(Refusal::new(23, 0)));
    assert_eq!(written(&expected, &expected.left), None);
    let what = noticed(-1, |memory| memory.copy_from_slice(&text[..memory.len()]));
    assert_eq!(what.as_deref(), Some("memory of the writer: element 0, byte 0 of 1"));
    let what = noticed(-1, |memory| *memory.last_mut().unwrap() = 0);
    let last = text.len() - 2;
    assert_eq!(what, Some(format!("memory of the writer: element {last}, byte 0 of 1")));
}

#[test]
fn a_check_of_the_written_claim_that_differs() {
    let program = calling();
    let expected = expected(&case(&least(&program), 7));
    let text = written(&expected, &expected.left).expect("a text");
    assert_eq!(text, least(&program).text(&program));
    let good = Checked::of(&program.text(), text);
    assert_eq!(accepted(&good, &good), Ok(2));

    let what = |got: &Checked| accepted(&good, got).unwrap_err().what;
    let mut other = good.clone();
    other.words[1] = 1;
    assert_eq!(what(&other), "check of the written claim: another answer");
    let mut other = good.clone();
    other.memory[4] = 1;
    assert_eq!(what(&other), "check of the written claim: call 1, byte 1");
    let mut other = good.clone();
    other.memory[LEAST_MEMORY - 1] = 1;
    assert_eq!(what(&other), "check of the written claim: call 8191, byte 2");

    let mut claim = least(&program);
    claim.returned[1] = 0;
    let violated = Checked::of(&program.text(), &claim.text(&program));
    let difference = accepted(&violated, &violated).unwrap_err();
    assert_eq!(difference.what, "check of the written claim: not accepted");
    assert_eq!(difference.got, "35");
}

#[test]
fn an_accepted_claim_below_the_written_one() {
    let program = calling();
    let found = |claim: &Claim, change: &dyn Fn(&mut Expected)| {
        let case = case(claim, 0);
        let mut expected = expected(&case);
        change(&mut expected);
        within(&case, &expected, &expected.left)
    };
    assert_eq!(found(&least(&program), &|_| {}), Ok(Some(true)));
    assert_eq!(found(&greatest(&program), &|_| {}), Ok(Some(false)));
    let mut less = least(&program);
    less.statics[0] = OTHER;
    assert_eq!(found(&less, &|_| {}), Ok(None));
    // As if that claim were accepted.
    let accepting = |expected: &mut Expected| expected.verdict = Verdict::Accepted(2);
    let difference = found(&less, &accepting).unwrap_err();
    assert_eq!(difference.what, "an accepted claim below the written one: frame [13, 00], mask 0");
    assert_eq!(difference.expected, format!("{ZERO:016x} and more"));
    assert_eq!(difference.got, format!("{OTHER:016x}"));
}
