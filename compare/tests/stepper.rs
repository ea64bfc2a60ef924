//! The stepper: the sample, limits, calls and memory.

use compare::assembly::*;
use compare::machine::layout::{FRAMES, OBJECTS, STATICS};
use compare::machine::run::run_after;
use compare::machine::{step, Answer, Report};
use compare::program::{Instruction, Method, Program};
use compare::reader::read;
use compare::Refusal;

const OBJECT: u64 = 1 << 32;

/// The memory after a call; each word was ffff... before.
struct Left {
    frames: Vec<u64>,
    objects: Vec<u64>,
    statics: Vec<u64>,
}

fn call(text: &[u8], n: u64, lent: [usize; 3]) -> (Answer, Left) {
    let [mut frames, mut objects, mut statics] = lent.map(|length| vec![u64::MAX; length]);
    let answer = step(text, n, &mut frames, &mut objects, &mut statics);
    (answer, Left { frames, objects, statics })
}

fn started(text: &[u8], n: u64) -> (Report, Left) {
    match call(text, n, [FRAMES, OBJECTS, STATICS]) {
        (Answer::Started(report), left) => (report, left),
        (answer, _) => panic!("{answer:?}"),
    }
}

fn run(program: &Program) -> (Report, Left) {
    started(&program.text(), 1_000_000)
}

/// A program with method 0 of two registers and these others; class 2 here is 5
/// in the text.
fn calling(code: Vec<Instruction>, others: Vec<Method>) -> Program {
    program(&[0, 0], &[], 1, [vec![main_method(2, code)], others].concat())
}

#[test]
fn sample_after_each_number_of_steps() {
    let expected = [
        (0, 22, 0, vec![[0, 0, 0]]),
        (1, 22, 1, vec![[0, 0, 0], [1, 0, 0]]),
        (2, 22, 2, vec![[0, 1, 0]]),
        (3, 32, 3, vec![]),
        (10, 32, 3, vec![]),
    ];
    for (n, number, steps, frames) in expected {
        let (report, left) = started(SAMPLE.as_bytes(), n);
        let open = frames.len();
        assert_eq!(report, Report { number, steps, pending: None, frames: open, objects: 0 });
        let mut words = vec![0; FRAMES];
        for (place, frame) in words.chunks_mut(19).zip(frames) {
            place[..3].copy_from_slice(&frame);
        }
        assert_eq!(left.frames, words);
        assert!(left.objects.iter().chain(&left.statics).all(|&word| word == 0));
    }
}

#[test]
fn refusals_touch_nothing() {
    let enough = [FRAMES, OBJECTS, STATICS];
    let untouched = |text: &[u8], lent| {
        let (answer, left) = call(text, 3, lent);
        let words = [left.frames, left.objects, left.statics].concat();
        assert!(words.iter().all(|&word| word == u64::MAX));
        answer
    };
    for missing in 0..3 {
        let mut lent = enough;
        lent[missing] -= 1;
        let answer = untouched(SAMPLE.as_bytes(), lent);
        assert_eq!(answer, Answer::Refused(Refusal::new(23, 0)));
        assert_eq!(untouched(b"01ff\n", lent), Answer::Refused(Refusal::new(4, 2)));
    }
    assert_eq!(untouched(b"01fg\n", enough), Answer::Refused(Refusal::new(2, 1)));
}

#[test]
fn memory_beyond_the_sizes_is_untouched() {
    let (_, left) = call(SAMPLE.as_bytes(), 1, [FRAMES + 20, OBJECTS + 20, STATICS + 3]);
    for (words, length) in [(left.frames, FRAMES), (left.objects, OBJECTS), (left.statics, STATICS)]
    {
        assert!(words[..length].iter().all(|&word| word < 2));
        assert!(words[length..].iter().all(|&word| word == u64::MAX));
    }
}

#[test]
fn more_than_a_million_counts_as_a_million() {
    let endless = program(&[0], &[], 0, vec![main_method(1, vec![goto(0)])]);
    for n in [1_000_000, 1_000_001, u64::MAX] {
        let (report, _) = started(&endless.text(), n);
        assert_eq!((report.number, report.steps), (22, 1_000_000));
    }
}

#[test]
fn arguments_lie_in_the_last_registers() {
    let code = vec![constant(0, -5), new_instance(1, 2), invoke_static(1, 2, 0), return_void()];
    let program = calling(code, vec![static_method(1, 4, 2, vec![goto(0)])]);
    let (report, left) = started(&program.text(), 9);
    assert_eq!((report.number, report.frames, report.objects), (22, 2, 1));
    assert_eq!(left.frames[..5], [0, 2, 0, 0xffff_fffb, OBJECT]);
    assert_eq!(left.frames[19..26], [1, 0, 0, 0, 0, 0xffff_fffb, OBJECT]);
    assert_eq!(left.objects[..2], [5, 0]);
}

#[test]
fn results_come_back_and_stay() {
    let code = vec![
        constant(0, 9),
        invoke_static(1, 1, 0),
        move_result(1),
        move_exception(0),
        invoke_static(2, 0, 0),
        goto(5),
    ];
    let others = vec![
        static_method(1, 1, 1, vec![unop(NEG, 0, 0), give(0)]),
        static_method(2, 1, 0, vec![return_void()]),
    ];
    let program = calling(code, others);
    let nine = 0xffff_fff7;
    assert_eq!(started(&program.text(), 6).1.frames[..5], [0, 4, nine, nine, nine]);
    assert_eq!(started(&program.text(), 8).1.frames[..5], [0, 5, 0, nine, nine]);
}

/// Calls itself until its argument is zero.
fn recursion(depth: i32) -> Program {
    let code = vec![constant(0, depth), invoke_static(1, 1, 0), return_void()];
    let callee = vec![
        branch_zero(EQ, 1, 4),
        constant(0, -1),
        binop(ADD, 0, 0, 1),
        invoke_static(1, 1, 0),
        return_void(),
    ];
    calling(code, vec![static_method(1, 2, 1, callee)])
}

#[test]
fn frame_33_is_21() {
    assert_eq!(run(&recursion(30)).0.number, 32);
    let (report, left) = run(&recursion(31));
    assert_eq!((report.number, report.frames, report.pending), (21, 32, None));
    assert_eq!(report.steps, 2 + 30 * 4 + 3);
    assert_eq!(left.frames[31 * 19..31 * 19 + 5], [1, 3, 0, 0, 1]);
    let (report, _) = started(&recursion(31).text(), report.steps);
    assert_eq!(report.number, 22);
    let after = run_after(&read(&recursion(31).text()).unwrap(), 126);
    assert_eq!((after.steps, after.frames.len()), (126, 33));
}

#[test]
fn object_257_is_20() {
    let program = program(&[0], &[], 0, vec![main_method(1, vec![new_instance(0, 1), goto(0)])]);
    let (report, left) = run(&program);
    let expected = Report { number: 20, steps: 512, pending: None, frames: 1, objects: 256 };
    assert_eq!(report, expected);
    assert_eq!(left.frames[..4], [0, 0, 0, OBJECT + 255]);
    assert_eq!(left.objects[255 * 17], 1);
    assert_eq!(started(&program.text(), 512).0.number, 22);
    assert_eq!(run_after(&program, 1000).heap.objects.len(), 500);
}

#[test]
fn the_receivers_faults_and_null_come_before_21() {
    let last = |code: Vec<Instruction>| {
        let mut program = recursion(30);
        program.methods[1].code.splice(4.., code);
        run(&program).0
    };
    let made = last(vec![new_instance(0, 2), invoke_virtual(9, 1, 0), return_void()]);
    assert_eq!((made.number, made.frames), (46, 32));
    let null = last(vec![invoke_virtual(9, 1, 1), return_void()]);
    let expected =
        Report { number: 33, steps: null.steps, pending: Some(0), frames: 0, objects: 1 };
    assert_eq!(null, expected);
    let number = last(vec![constant(0, 3), invoke_virtual(9, 1, 0), return_void()]);
    assert_eq!(number.number, 42);
}
