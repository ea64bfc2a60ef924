//! The stepper: null, a division by zero and a failed cast raise.

use compare::assembly::*;
use compare::machine::layout::{FRAMES, OBJECTS, STATICS};
use compare::machine::{step, Answer, Report};
use compare::program::{Handler, Instruction, Method, Program};
use compare::program::{ARITHMETIC, CAST, NULL, THROWABLE};

/// Class 5 is no Throwable, 6 lies below class 2.
const SUPERCLASSES: [u8; 6] = [0, 1, 1, 1, 0, NULL];
/// Field 0 is of class 5, field 1 of class 2.
const FIELDS: [u8; 2] = [5, NULL];

const OBJECT: u64 = 1 << 32;

/// The words of an object.
const WORDS: usize = 17;

fn of(methods: Vec<Method>) -> Program {
    whole_program(&SUPERCLASSES, &FIELDS, 1, methods)
}

/// The report, and frames and objects; each word was 1 before.
fn run_for(program: &Program, n: u64) -> (Report, Vec<u64>, Vec<u64>) {
    let (mut frames, mut objects) = (vec![1; FRAMES], vec![1; OBJECTS]);
    match step(&program.text(), n, &mut frames, &mut objects, &mut [1; STATICS]) {
        Answer::Started(report) => (report, frames, objects),
        Answer::Refused(refusal) => panic!("{refusal:?}"),
    }
}

fn number(program: &Program) -> u8 {
    run_for(program, 100_000).0.number
}

/// Register 0 is zero, 1 is -1 and 2 an object of class 5 when the instruction
/// comes, at address 2; the rest stands from address 3 on.
fn at_2(instruction: Instruction, rest: &[Instruction], handlers: Vec<Handler>) -> Program {
    let mut code = vec![constant(1, -1), new_instance(2, 5), instruction];
    code.extend(rest);
    let nothing = virtual_method((5, 7), 1, 1, vec![return_void()]);
    of(vec![main_method(4, code).with_handlers(handlers), nothing])
}

/// Instructions with the classes that they raise.
fn raising() -> Vec<(Instruction, u8)> {
    vec![
        (invoke_virtual(7, 1, 0), NULL),
        (invoke_virtual(9, 2, 0), NULL),
        (iget(1, 0, 0), NULL),
        (iput(1, 0, 0), NULL),
        (throw(0), NULL),
        (binop(DIV, 1, 1, 0), ARITHMETIC),
        (binop(REM, 0, 0, 0), ARITHMETIC),
        (check_cast(2, THROWABLE), CAST),
        (check_cast(2, 6), CAST),
    ]
}

#[test]
fn the_step_makes_an_object_pending_and_nothing_else() {
    for (instruction, class) in raising() {
        let program = at_2(instruction, &[goto(3)], vec![Handler::new(0, 4, 3, 1)]);
        let before = run_for(&program, 2);
        let (report, frames, objects) = run_for(&program, 3);
        let expected = Report { number: 22, steps: 3, pending: Some(1), frames: 1, objects: 2 };
        assert_eq!(report, expected, "{instruction:?}");
        assert_eq!(frames, before.1);
        assert_eq!(frames[..7], [0, 2, 0, 0, 0xffff_ffff, OBJECT, 0]);
        assert_eq!(objects[..WORDS], before.2[..WORDS]);
        let mut raised = vec![0; WORDS];
        raised[0] = class.into();
        assert_eq!(objects[WORDS..2 * WORDS], raised);
        // Taken: it is the result, and the registers are as they were.
        let (report, after, _) = run_for(&program, 4);
        assert_eq!((report.pending, report.objects), (None, 2));
        assert_eq!(after[..3], [0, 3, OBJECT + 1]);
        assert_eq!(after[3..], frames[3..]);
    }
}

#[test]
fn handlers_of_the_class_and_above_take_it_and_others_do_not() {
    for (instruction, class) in raising() {
        for caught in 0..=6 {
            let program = at_2(instruction, &[goto(3)], vec![Handler::new(2, 3, 3, caught)]);
            let takes = [0, THROWABLE, class].contains(&caught);
            let (report, _, _) = run_for(&program, 50);
            let expected = if takes { (22, 50, None) } else { (33, 4, Some(1)) };
            assert_eq!((report.number, report.steps, report.pending), expected);
        }
    }
}

#[test]
fn callers_take_it_at_their_call() {
    for (instruction, class) in raising() {
        let mut program = at_2(instruction, &[goto(3)], vec![]);
        let main = |handlers| {
            main_method(1, vec![invoke_static(1, 0, 0), goto(1), goto(2)]).with_handlers(handlers)
        };
        let between = static_method(1, 1, 0, vec![invoke_static(2, 0, 0), goto(1)]);
        let raiser = Method { name: 2, ..program.methods.remove(0) };
        program.methods.splice(0..0, [main(vec![]), between, raiser]);
        let (report, ..) = run_for(&program, 99);
        let expected = Report { number: 33, steps: 8, pending: Some(1), frames: 0, objects: 2 };
        assert_eq!(report, expected);
        program.methods[0] = main(vec![Handler::new(0, 1, 2, class)]);
        let (report, frames, _) = run_for(&program, 8);
        assert_eq!((report.number, report.pending, report.frames), (22, None, 1));
        assert_eq!(frames[..4], [0, 2, OBJECT + 1, 0]);
    }
}

#[test]
fn faults_are_tested_before() {
    let ends = |instruction| number(&at_2(instruction, &[return_void()], vec![]));
    for operation in [DIV, REM] {
        assert_eq!(ends(binop(operation, 1, 2, 0)), 43);
        assert_eq!(ends(binop(operation, 1, 0, 2)), 43);
    }
    assert_eq!([iget(1, 1, 1), throw(1), check_cast(1, 0)].map(ends), [42; 3]);
    assert_eq!([invoke_virtual(9, 1, 2), iget(1, 2, 1)].map(ends), [46, 45]);
    // Null is of every class for a cast, and of none for the question.
    assert_eq!([check_cast(0, CAST), instance_of(0, 0, 0)].map(ends), [32; 2]);
    let asked = at_2(instance_of(1, 0, 0), &[goto(3)], vec![]);
    assert_eq!(run_for(&asked, 9).1[4], 0);
}

/// As many objects as this, all but the first in a loop, before the
/// instruction; what is raised is taken at the last address.
fn crowded(objects: i32, instruction: Instruction) -> Program {
    let code = vec![
        constant(3, objects),
        constant(1, -1),
        new_instance(2, 5),
        binop(ADD, 3, 3, 1),
        branch_zero(GT, 3, 2),
        instruction,
        return_void(),
        return_void(),
    ];
    let nothing = virtual_method((5, 7), 1, 1, vec![return_void()]);
    of(vec![main_method(4, code).with_handlers(vec![Handler::new(5, 6, 7, 1)]), nothing])
}

#[test]
fn a_full_store_gives_20() {
    for (instruction, _) in raising() {
        let program = crowded(256, instruction);
        let (report, frames, objects) = run_for(&program, 5_000);
        let steps = 2 + 3 * 256;
        let expected = Report { number: 20, steps, pending: None, frames: 1, objects: 256 };
        assert_eq!(report, expected);
        let before = run_for(&program, steps);
        assert_eq!((before.0.number, &before.1, &before.2), (22, &frames, &objects));
        let (report, ..) = run_for(&crowded(255, instruction), 5_000);
        assert_eq!((report.number, report.objects), (32, 256));
    }
}

#[test]
fn a_call_on_null_raises_at_32_frames() {
    // Method 1 calls itself until register 1 is zero, and then on null.
    let with = |instruction, handlers| {
        let main = vec![constant(0, 30), invoke_static(1, 1, 0), return_void()];
        let callee = vec![
            branch_zero(EQ, 1, 5),
            constant(0, -1),
            binop(ADD, 1, 1, 0),
            invoke_static(1, 1, 1),
            return_void(),
            instruction,
            goto(4),
        ];
        of(vec![main_method(1, main), static_method(1, 2, 1, callee).with_handlers(handlers)])
    };
    let (report, ..) = run_for(&with(invoke_virtual(7, 1, 1), vec![]), 124);
    let expected = Report { number: 22, steps: 124, pending: Some(0), frames: 32, objects: 1 };
    assert_eq!(report, expected);
    assert_eq!(number(&with(invoke_static(1, 1, 1), vec![])), 21);
    let caught = with(invoke_virtual(7, 1, 1), vec![Handler::new(5, 6, 6, NULL)]);
    assert_eq!(number(&caught), 32);
}

#[test]
fn what_was_raised_is_an_object_like_others() {
    let caught = |rest: &[Instruction]| {
        let handlers = vec![Handler::new(2, 3, 3, NULL)];
        let rest = [&[move_exception(3)], rest].concat();
        run_for(&at_2(iget(1, 0, 0), &rest, handlers), 99).0.number
    };
    assert_eq!(caught(&[iget(0, 3, 1), iput(3, 3, 1), return_void()]), 32);
    assert_eq!(caught(&[iget(0, 3, 0), return_void()]), 45);
    assert_eq!(caught(&[check_cast(3, NULL), check_cast(3, 1), give(3)]), 32);
    assert_eq!(caught(&[check_cast(3, 6), give(3)]), 33);
    assert_eq!(caught(&[throw(3)]), 33);
    assert_eq!(caught(&[invoke_virtual(7, 1, 3), return_void()]), 46);
    assert_eq!(caught(&[binop(ADD, 0, 0, 3), return_void()]), 43);
}
