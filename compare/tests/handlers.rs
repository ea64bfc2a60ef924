//! The numbers of handlers, and the search among them: beside hand-written
//! answers, and beside a search for the first line in the text.

use compare::catching;
use compare::generate;
use compare::generate_claims::random_calls;
use compare::generate_steps::{self, likely_program};
use compare::handlers::handler_for;
use compare::least::demands::{at_address, Place};
use compare::least::{addresses, greatest};
use compare::machine::run::Machine;
use compare::machine::state::{End, Frame, Limits};
use compare::machine::value::Value;
use compare::program::{Handler, Program};
use compare::random::Random;
use compare::reader::read;
use std::collections::HashSet;

/// Class 5 is no Throwable; 7 and 8 lie below 6, which lies below Throwable.
/// Methods with four handlers, one and none.
const TEXT: &str = "\
01ff
0100
0101
0101
0101
0100
0101
0106
0106
040000010100
060000000000000000
060000000000000000
060000000000000000
061100000000000000
0500020306
0501030207
0501040101
0500040008
040001010100
061100000000000000
0500010008
040002010100
061100000000000000
";

fn given() -> Program {
    read(TEXT.as_bytes()).unwrap()
}

#[test]
fn number_0_is_the_last_line() {
    let program = given();
    let [four, one, none] = &program.methods[..] else { panic!("three methods") };
    let numbered = [
        Handler::new(0, 4, 0, 8),
        Handler::new(1, 4, 1, 1),
        Handler::new(1, 3, 2, 7),
        Handler::new(0, 2, 3, 6),
    ];
    for (number, handler) in numbered.iter().enumerate() {
        assert_eq!(four.handler(number), handler);
    }
    assert!(four.by_number().eq(&numbered));
    assert_eq!(one.handler(0), &Handler::new(0, 1, 0, 8));
    assert_eq!(one.by_number().len(), 1);
    assert_eq!(none.by_number().len(), 0);
}

/// What the search answers at an address: a digit for each class, or `-`.
fn answers(program: &Program, method: usize, address: u8) -> String {
    let answer = |class| handler_for(program, &program.methods[method], address, class);
    let digit = |class| answer(class).map_or("-".to_string(), |number| number.to_string());
    (0..program.classes.len() as u8).map(digit).collect()
}

#[test]
fn the_search_answers_the_highest_number() {
    let program = given();
    assert_eq!(answers(&program, 0, 0), "------333");
    assert_eq!(answers(&program, 0, 1), "-1111-333");
    assert_eq!(answers(&program, 0, 2), "-1111-121");
    assert_eq!(answers(&program, 0, 3), "-1111-111");
    assert_eq!(answers(&program, 1, 0), "--------0");
    assert_eq!(answers(&program, 2, 0), "---------");
}

/// Of eight lines in the order of the text, `x` for one that takes class 7.
#[test]
fn the_search_among_eight_lines() {
    for (pattern, number) in [
        ("xxxxxxxx", Some(7)),
        (".xxxxxxx", Some(6)),
        ("...xx..x", Some(4)),
        ("......x.", Some(1)),
        (".......x", Some(0)),
        ("........", None),
    ] {
        let program = catching::apart(&["x.x", pattern]);
        let search = |method: usize| {
            handler_for(&program, &program.methods[method], catching::AT, catching::THROWN)
        };
        assert_eq!((search(0), search(1)), (Some(2), number), "{pattern}");
    }
}

/// A handler's line: from, to, target, class.
type Line = [u8; 4];

/// The handlers of each method, as their lines follow each other in the text.
fn lines(text: &[u8]) -> Vec<Vec<Line>> {
    let mut methods: Vec<Vec<Line>> = Vec::new();
    for line in std::str::from_utf8(text).unwrap().lines() {
        let byte = |place: usize| u8::from_str_radix(&line[2 * place..2 * place + 2], 16).unwrap();
        match byte(0) {
            4 => methods.push(Vec::new()),
            5 => methods.last_mut().unwrap().push([1, 2, 3, 4].map(byte)),
            _ => {}
        }
    }
    methods
}

fn is_below(program: &Program, mut class: u8, other: u8) -> bool {
    while class != other && class != 0 {
        class = program.classes[usize::from(class)].superclass;
    }
    class == other
}

/// The place of the first line that fits.
fn first_line(program: &Program, lines: &[Line], address: u8, class: u8) -> Option<usize> {
    lines.iter().position(|&[from, to, _, caught]| {
        from <= address && address < to && is_below(program, class, caught)
    })
}

/// Programs of the suites, each once, and random ones.
fn programs() -> Vec<Program> {
    let texts = generate::suite().concat().into_iter().map(|case| case.text);
    let runs = generate_steps::suite().concat().into_iter().map(|case| case.text);
    let mut seen = HashSet::new();
    let different = texts.chain(runs).filter(|text| seen.insert(text.clone()));
    let mut programs: Vec<Program> = different.filter_map(|text| read(&text).ok()).collect();
    let mut random = Random::new(93);
    programs.extend((0..40).map(|_| likely_program(&mut random)));
    programs.extend((0..200).map(|_| random_calls(&mut random)));
    programs.extend(catching::programs());
    programs
}

/// Each place and class with the lines of its method, and the first that fits.
fn each_search(program: &Program, mut tried: impl FnMut(usize, u8, u8, &[Line], Option<usize>)) {
    let lines = lines(&program.text());
    for (method, address) in addresses(program) {
        let lines = &lines[method];
        for class in 0..program.classes.len() as u8 {
            let first = first_line(program, lines, address as u8, class);
            tried(method, address as u8, class, lines, first);
        }
    }
}

#[test]
fn the_search_answers_the_first_line_and_none_just_when_none_fits() {
    let mut answered = [0; 9];
    for program in programs() {
        each_search(&program, |method, address, class, lines, first| {
            let number = handler_for(&program, &program.methods[method], address, class);
            assert_eq!(number, first.map(|line| lines.len() - 1 - line));
            if let (Some(number), Some(line)) = (number, first) {
                let Handler { from, to, target, class } = *program.methods[method].handler(number);
                assert_eq!([from, to, target, class], lines[line]);
            }
            answered[number.map_or(0, |number| number + 1)] += 1;
        });
    }
    assert!(answered.iter().all(|&count| count >= 1_000), "{answered:?}");
}

/// The machine goes to the target of the first line, or drops the frame.
#[test]
fn a_pending_object_goes_to_the_first_line() {
    for program in catching_and_random() {
        let start = Machine::new(&program, Limits::NONE);
        each_search(&program, |method, address, class, lines, first| {
            let mut machine = start.clone();
            machine.frames = vec![Frame { address, ..Frame::new(method as u8) }];
            machine.pending = machine.heap.make(class);
            machine.run(1);
            match first {
                Some(line) => {
                    let frame = &machine.frames[0];
                    assert_eq!((frame.address, frame.result), (lines[line][2], Value::Object(0)));
                    assert_eq!(machine.pending, None);
                }
                None => assert_eq!(machine.end, Some(End::Uncaught)),
            }
        });
    }
}

/// The rules one by one ask for the class at the target of the first line, or
/// that it leaves.
#[test]
fn demands_are_those_of_the_first_line() {
    let mut asked = [0; 2];
    for program in catching_and_random() {
        let claim = greatest(&program);
        each_search(&program, |method, address, class, lines, first| {
            let result = usize::from(program.methods[method].registers);
            let demands = at_address(&program, &claim, method, address.into());
            for demand in demands.iter().filter(|demand| demand.bits == 1 << class) {
                match (demand.rule, demand.place) {
                    (9, Place::Register(_, target, register)) if register == result => {
                        let line = first.expect("a line takes the class");
                        assert_eq!(target, usize::from(lines[line][2]));
                        asked[0] += 1;
                    }
                    (10, Place::Leaving(left)) => {
                        assert_eq!((first, left), (None, method));
                        asked[1] += 1;
                    }
                    _ => {}
                }
            }
        });
    }
    assert!(asked.iter().all(|&count| count >= 1_000), "{asked:?}");
}

fn catching_and_random() -> Vec<Program> {
    let mut random = Random::new(94);
    let mut programs = catching::programs();
    programs.extend((0..150).map(|_| random_calls(&mut random)));
    programs
}
