//! The fuzzer notices: whatever is changed in what the calls left is given as
//! a difference, and so is a run or a written claim of which something does not
//! hold.

mod runs;
mod written;

use compare::assembly::*;
use compare::checker::{Verdict, LEAST_MEMORY};
use compare::fuzz::differ::{difference, follow};
use compare::fuzz::left::{Expected, Left};
use compare::fuzz::lengths::Lengths;
use compare::fuzz::lent::Lent;
use compare::fuzz::Case;
use compare::least::least;
use compare::program::{Handler, Program};
use compare::writer::text_length;

/// Calls method 1, which throws; catches that, calls method 2, and ends. All
/// is over after 11 steps.
fn program_of_all() -> Program {
    let main = vec![
        invoke_static(1, 0, 0),
        move_exception(0),
        sput(0, 0),
        invoke_static(2, 1, 0),
        return_void(),
    ];
    let methods = vec![
        main_method(2, main).with_handlers(vec![Handler::new(0, 1, 1, 1)]),
        static_method(1, 2, 0, vec![new_instance(0, 1), throw(0)]),
        static_method(2, 2, 1, vec![constant(0, 7), return_void()]),
    ];
    program(&[0], &[0], 1, methods)
}

fn case(n: u64) -> Case {
    let program = program_of_all();
    let lent = Lengths {
        frames: 34,
        objects: 257,
        statics: 17,
        memory: LEAST_MEMORY + 3,
        text: text_length(&program) + 3,
        read_answer: 6,
        step_answer: 6,
        check_answer: 5,
        write_answer: 6,
    };
    let claim = least(&program).text(&program);
    let (salt, made) = (0x1234_5678_9abc_def1, ["as made", "least"]);
    Case { program: program.text(), claim, n, lent, salt, follow: 100, made }
}

fn expected(case: &Case) -> Expected {
    Expected::of(case, Left::before(case))
}

/// What is said if the calls leave this in place of what they should.
fn noticed(n: u64, change: impl Fn(&mut Left)) -> String {
    let expected = expected(&case(n));
    let mut got = expected.left.clone();
    change(&mut got);
    difference(&expected.left, &got).map(|difference| difference.what).unwrap_or_default()
}

#[test]
fn what_is_the_same_does_not_differ() {
    for n in [0, 1, 3, 4, 7, 100] {
        assert_eq!(noticed(n, |_| {}), "");
        assert_eq!(follow(&case(n), &expected(&case(n)), &expected(&case(n)).left), Ok(Some(11)));
    }
    let expected = expected(&case(100));
    assert_eq!(expected.answer.words(), [32, 11, 0, 0, 1]);
    assert_eq!(expected.verdict, Verdict::Accepted(2));
}

#[test]
fn numbers_and_answer_words() {
    assert_eq!(noticed(3, |left| left.numbers[0] = 5), "number given by the reader");
    assert_eq!(noticed(3, |left| left.numbers[1] = 32), "number given by the stepper");
    assert_eq!(noticed(3, |left| left.numbers[2] = 35), "number given by the checker");
    assert_eq!(noticed(3, |left| left.numbers[3] = 23), "number given by the writer");
    for word in 0..6 {
        let what = noticed(3, |left| left.read_answer.lent_mut()[word] ^= 1);
        assert_eq!(what, format!("answer of the reader: element {word}, byte 0 of 8"));
        let what = noticed(3, |left| left.step_answer.lent_mut()[word] ^= 1);
        assert_eq!(what, format!("answer of the stepper: element {word}, byte 0 of 8"));
        let what = noticed(3, |left| left.write_answer.lent_mut()[word] ^= 1);
        assert_eq!(what, format!("answer of the writer: element {word}, byte 0 of 8"));
    }
    let what = noticed(3, |left| left.check_answer.lent_mut()[1] ^= 1 << 63);
    assert_eq!(what, "answer of the checker: element 1, byte 7 of 8");
}

#[test]
fn a_wrong_line_of_the_reader() {
    let two_classes = b"01ff\n0100\n";
    for (text, refusal) in [(&[b'0'; 65_537][..], [1, 0]), (two_classes, [4, 3]), (b"", [4, 1])] {
        let expected = expected(&Case { program: text.to_vec(), ..case(3) });
        let [number, line] = refusal;
        assert_eq!(expected.left.numbers[0], number);
        assert_eq!(expected.left.read_answer.lent()[..5], [number, line, 0, 0, 0]);
        let mut got = expected.left.clone();
        got.read_answer.lent_mut()[1] = line + 1;
        let what = difference(&expected.left, &got).map(|difference| difference.what);
        assert_eq!(what.as_deref(), Some("answer of the reader: element 1, byte 0 of 8"));
    }
}

#[test]
fn an_answer_written_where_too_few_words_are_lent() {
    let answers: [fn(&mut Left) -> &mut Lent<u64>; 4] = [
        |left| &mut left.read_answer,
        |left| &mut left.step_answer,
        |left| &mut left.check_answer,
        |left| &mut left.write_answer,
    ];
    for words in [0, 4] {
        let mut case = case(3);
        let Lengths { read_answer, step_answer, check_answer, write_answer, .. } = &mut case.lent;
        [*read_answer, *step_answer, *check_answer, *write_answer] = [words; 4];
        let mut expected = expected(&case).left;
        for answer in answers {
            assert_eq!(answer(&mut expected).all, answer(&mut Left::before(&case)).all);
            let mut got = expected.clone();
            let first = answer(&mut got).places.start;
            answer(&mut got).all[first] = 22;
            assert!(difference(&expected, &got).is_some());
        }
    }
}

#[test]
fn a_byte_past_the_used_part() {
    let what = noticed(3, |left| left.frames.lent_mut()[32].result.object ^= 0x100);
    assert_eq!(what, "frames: element 32, byte 137 of 144");
    let what = noticed(3, |left| left.objects.lent_mut()[255].cells[15].number = 1 << 24);
    assert_eq!(what, "objects: element 255, byte 131 of 132");
    let what = noticed(3, |left| left.statics.lent_mut()[16].object = 0);
    assert_eq!(what, "statics: element 16, byte 0 of 8");
    let what = noticed(3, |left| left.memory.lent_mut()[6] = 0);
    assert_eq!(what, "memory of the checker: element 6, byte 0 of 1");
    let length = text_length(&program_of_all());
    let what = noticed(3, |left| left.text.lent_mut()[length] = 0);
    assert_eq!(what, format!("memory of the writer: element {length}, byte 0 of 1"));
}

/// After 4 steps frame 1 has been dropped; it had an object in register 0.
#[test]
fn a_register_of_a_popped_frame() {
    let before = expected(&case(2)).left.frames.lent()[1];
    assert_eq!(before.registers[0].object, 1);
    let what = noticed(4, |left| left.frames.lent_mut()[1].registers[0] = before.registers[0]);
    assert_eq!(what, "frames: element 1, byte 8 of 144");
    let what = noticed(100, |left| left.frames.lent_mut()[0].address = 4);
    assert_eq!(what, "frames: element 0, byte 4 of 144");
}

#[test]
fn guards() {
    let what = noticed(3, |left| left.frames.all[3].method = 0);
    assert_eq!(what, "frames: guard 1 before the first element, byte 0 of 144");
    let what = noticed(3, |left| left.objects.all.last_mut().unwrap().class = 0);
    assert_eq!(what, "objects: guard 4 after the last element, byte 0 of 132");
    let what = noticed(3, |left| left.statics.all[0].number = 0);
    assert_eq!(what, "statics: guard 4 before the first element, byte 4 of 8");
    let what = noticed(3, |left| *left.memory.all.last_mut().unwrap() = 0);
    assert_eq!(what, "memory of the checker: guard 64 after the last element, byte 0 of 1");
    let what = noticed(3, |left| *left.text.all.last_mut().unwrap() = 0);
    assert_eq!(what, "memory of the writer: guard 64 after the last element, byte 0 of 1");
    let what = noticed(3, |left| *left.read_answer.all.last_mut().unwrap() = 0);
    assert_eq!(what, "answer of the reader: guard 4 after the last element, byte 0 of 8");
    let what = noticed(3, |left| left.check_answer.all[3] = 0);
    assert_eq!(what, "answer of the checker: guard 1 before the first element, byte 0 of 8");
}

#[test]
fn texts_that_were_written() {
    let what = noticed(3, |left| left.program.lent_mut()[2] = b'x');
    assert_eq!(what, "program text: element 2, byte 0 of 1");
    let what = noticed(3, |left| left.claim.all[0] = b'x');
    assert!(what.starts_with("claim text: guard "), "{what}");
}
