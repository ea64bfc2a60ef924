//! The stepper: faults and their order, handlers, virtual calls.

use compare::assembly::*;
use compare::machine::layout::{FRAMES, OBJECTS, STATICS};
use compare::machine::{step, Answer, Report};
use compare::program::{Handler, Instruction, Method, Program};

/// Class 2 is no Throwable, 3 lies below 2, and 5 below 4 below Throwable.
const CLASSES: [u8; 5] = [0, 0, 2, 1, 4];
/// Field 0 belongs to class 2, field 1 to class 3.
const FIELDS: [u8; 2] = [2, 3];

fn run_for(program: &Program, n: u64) -> (Report, Vec<u64>) {
    let mut frames = vec![1; FRAMES];
    let answer = step(&program.text(), n, &mut frames, &mut [1; OBJECTS], &mut [1; STATICS]);
    match answer {
        Answer::Started(report) => (report, frames),
        Answer::Refused(refusal) => panic!("{refusal:?}"),
    }
}

fn with_methods(methods: Vec<Method>) -> Program {
    program(&CLASSES, &FIELDS, 1, methods)
}

/// The fault that the last of these meets. Register 0 is zero, 1 is -1, 2 is
/// an object of class 2 and 3 one of class 4. No handler catches a fault.
fn fault(instruction: Instruction) -> u8 {
    let code =
        vec![constant(1, -1), new_instance(2, 2), new_instance(3, 4), instruction, return_void()];
    let handlers = vec![Handler::new(0, 5, 4, 0)];
    let program = with_methods(vec![main_method(4, code).with_handlers(handlers)]);
    let (report, frames) = run_for(&program, 100);
    assert_eq!((report.steps, report.pending, report.frames, report.objects), (4, None, 1, 2));
    let (minus, object) = (0xffff_ffff, 1 << 32);
    assert_eq!(frames[..7], [0, 3, 0, 0, minus, object, object + 1]);
    report.number - 40
}

#[test]
fn each_fault() {
    assert_eq!(fault(iput(1, 1, 0)), 2);
    assert_eq!(fault(binop(ADD, 1, 1, 2)), 3);
    assert_eq!(fault(iget(1, 2, 1)), 5);
    assert_eq!(fault(invoke_virtual(7, 1, 2)), 6);
    assert_eq!(fault(throw(2)), 7);
}

#[test]
fn their_order_and_the_kinds_that_meet_them() {
    assert_eq!(fault(binop(DIV, 1, 2, 0)), 3);
    assert_eq!(fault(binop(DIV, 1, 0, 2)), 3);
    assert_eq!(fault(unop(NEG, 1, 2)), 3);
    assert_eq!(fault(branch(LT, 2, 1, 0)), 3);
    assert_eq!(fault(branch(GE, 1, 3, 0)), 3);
    assert_eq!(fault(branch_zero(GT, 3, 0)), 3);
    assert_eq!(fault(iget(1, 1, 1)), 2);
    assert_eq!(fault(iput(1, 3, 0)), 5);
    assert_eq!(fault(invoke_virtual(7, 2, 1)), 2);
    assert_eq!(fault(throw(1)), 2);
    assert_eq!(fault(instance_of(1, 1, 0)), 2);
    assert_eq!(fault(check_cast(1, 0)), 2);
}

/// Throws an object of this class at address 1; the handlers go to addresses
/// that stand still.
fn caught_at(class: u8, handlers: Vec<Handler>) -> Option<u64> {
    let code = vec![new_instance(0, class), throw(0), goto(2), goto(3), goto(4)];
    let program = with_methods(vec![main_method(1, code).with_handlers(handlers)]);
    let (report, frames) = run_for(&program, 50);
    if report.number == 33 {
        assert_eq!((report.steps, report.pending, report.frames), (3, Some(0), 0));
        return None;
    }
    assert_eq!((report.number, report.pending), (22, None));
    assert_eq!(frames[2..4], [1 << 32, 1 << 32]);
    Some(frames[1])
}

#[test]
fn the_first_fitting_handler_is_taken() {
    let anywhere = |target, class| Handler::new(0, 5, target, class);
    assert_eq!(caught_at(4, vec![anywhere(2, 5), anywhere(3, 4), anywhere(4, 1)]), Some(3));
    assert_eq!(caught_at(5, vec![anywhere(2, 4), anywhere(3, 5)]), Some(2));
    assert_eq!(caught_at(1, vec![anywhere(2, 4), anywhere(3, 2)]), None);
    assert_eq!(caught_at(1, vec![anywhere(2, 0)]), Some(2));
    let ranges = vec![Handler::new(0, 1, 2, 1), Handler::new(2, 5, 3, 1)];
    assert_eq!(caught_at(5, ranges), None);
    assert_eq!(caught_at(5, vec![Handler::new(1, 2, 4, 1)]), Some(4));
}

/// Throws an object of class 5 at address 1 under eight handlers, `x` for one
/// that fits. They go to addresses 2 to 9, the last one to 2.
fn caught_of_eight(pattern: &str) -> Option<u64> {
    let mut code = vec![new_instance(0, 5), throw(0)];
    code.extend((2..10).map(goto));
    let fitting = [(1, 2, 5), (0, 2, 4), (1, 10, 1), (0, 10, 0)];
    let others = [(0, 1, 0), (2, 10, 0), (1, 2, 2), (0, 10, 3)];
    let handler = |(place, written): (usize, char)| {
        let (from, to, class) = if written == 'x' { fitting } else { others }[place % 4];
        Handler::new(from, to, 9 - place as u8, class)
    };
    let handlers = pattern.chars().enumerate().map(handler).collect();
    let program = with_methods(vec![main_method(1, code).with_handlers(handlers)]);
    let (report, frames) = run_for(&program, 50);
    (report.number == 22).then_some(frames[1])
}

#[test]
fn of_eight_handlers_the_first_line_that_fits_is_taken() {
    assert_eq!(caught_of_eight("xxxxxxxx"), Some(9));
    assert_eq!(caught_of_eight(".xxxxxxx"), Some(8));
    assert_eq!(caught_of_eight("...x.x.."), Some(6));
    assert_eq!(caught_of_eight("......xx"), Some(3));
    assert_eq!(caught_of_eight(".......x"), Some(2));
    assert_eq!(caught_of_eight("........"), None);
}

#[test]
fn each_caller_has_its_turn() {
    let thrower = static_method(2, 1, 0, vec![new_instance(0, 5), throw(0)]);
    let between = static_method(1, 1, 0, vec![invoke_static(2, 0, 0), return_void()]);
    let catcher = main_method(1, vec![constant(0, 4), invoke_static(1, 0, 0), goto(2), goto(3)]);
    let handlers = vec![Handler::new(1, 2, 3, 4)];
    let caught = with_methods(vec![
        catcher.clone().with_handlers(handlers),
        between.clone(),
        thrower.clone(),
    ]);
    for (n, pending, open) in [(4, None, 3), (5, Some(0), 3), (6, Some(0), 2), (7, Some(0), 1)] {
        let (report, _) = run_for(&caught, n);
        assert_eq!((report.number, report.steps), (22, n));
        assert_eq!((report.pending, report.frames), (pending, open));
    }
    let (report, frames) = run_for(&caught, 8);
    assert_eq!((report.number, report.pending, report.frames), (22, None, 1));
    assert_eq!(frames[..4], [0, 3, 1 << 32, 4]);

    let uncaught = with_methods(vec![catcher, between, thrower]);
    let (report, frames) = run_for(&uncaught, 99);
    let expected = Report { number: 33, steps: 8, pending: Some(0), frames: 0, objects: 1 };
    assert_eq!(report, expected);
    assert!(frames.iter().all(|&word| word == 0));
}

/// The number that the search gives back for a receiver of this class.
fn found(class: u8, count: u8) -> u64 {
    let giving = |number| vec![constant(0, number), give(0)];
    let main = main_method(2, vec![new_instance(0, class), invoke_virtual(7, count, 0), goto(2)]);
    let methods = vec![
        main,
        virtual_method((0, 7), 2, 1, giving(10)),
        virtual_method((2, 7), 2, 2, giving(12)),
        Method::new(3, 7, 1, 2, 1).with_code(giving(13)),
        virtual_method((4, 7), 2, 1, giving(14)),
    ];
    run_for(&with_methods(methods), 20).1[2]
}

#[test]
fn the_search_goes_upward_past_what_does_not_fit() {
    let with_one = [0, 1, 2, 3, 4, 5].map(|class| found(class, 1));
    assert_eq!(with_one, [10, 10, 10, 10, 14, 14]);
    assert_eq!([2, 3].map(|class| found(class, 2)), [12, 12]);
}
