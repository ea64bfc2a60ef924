//! Lists of up to eight handlers: their numbers, which of them is taken, and
//! which of two bad lines is refused.

use super::build::{handler_line, idle_code, tables};
use super::Case;
use crate::catching::*;
use crate::program::{Class, Handler, Method, Program, STATIC, THROWABLE};
use crate::random::Random;

/// Programs in which one line, several or none fit.
pub fn programs() -> Vec<Case> {
    let mut programs = [patterns(), single_lines(), vec![turned()], pairs()].concat();
    programs.extend([nested(), deep()]);
    let mut random = Random::new(5);
    programs.extend((0..12).map(|_| crowded(&mut random)));
    programs.iter().map(|program| Case::read(program.text())).collect()
}

/// A method that does nothing, with these handlers.
fn idle(name: u8, length: usize, handlers: Vec<Handler>) -> Method {
    Method::new(0, name, STATIC, 1, 0).with_code(idle_code(length)).with_handlers(handlers)
}

/// Methods with none to eight lines: all of them fit, those from one on, and
/// none.
fn patterns() -> Vec<Program> {
    let (all, none) = ("xxxxxxxx", "........");
    let rising: Vec<&str> = (0..=8).map(|count| &all[..count]).collect();
    let falling: Vec<&str> = rising.iter().rev().copied().collect();
    let later: Vec<String> =
        (0..=8).map(|first| none[..first].to_string() + &all[first..]).collect();
    let later: Vec<&str> = later.iter().map(String::as_str).collect();
    let mixed = ["..x.xx.x", ".x", "", "x..x..x.", "...", "......x", ".xx.", "........"];
    let mut programs: Vec<Program> =
        [rising, falling, later, mixed.to_vec()].iter().map(|list| apart(list)).collect();
    programs.extend([frames(&["..xx", ".....x.x", "..."]), orders(), ranges()]);
    programs
}

/// Each line of two, three, five and eight alone fits.
fn single_lines() -> Vec<Program> {
    let program = |count: usize| {
        let at = |line: usize| ".".repeat(line) + "x" + &".".repeat(count - line - 1);
        let patterns: Vec<String> = (0..count).map(at).collect();
        apart(&patterns.iter().map(String::as_str).collect::<Vec<_>>())
    };
    [2, 3, 5, 8].map(program).to_vec()
}

/// The same eight lines, each of them first in one method.
fn turned() -> Program {
    let classes = [8, 7, 9, 6, 5, 1, 3, 0];
    let method = |number: u8| {
        let mut handlers = lines_of_classes(&classes);
        for (place, handler) in (0..).zip(&mut handlers) {
            (handler.from, handler.to) = (place, place + 3);
        }
        handlers.rotate_left(number.into());
        idle(number, 10, handlers)
    };
    of((0..8).map(method).collect())
}

/// Two lines of every two of a few classes: the same, one above the other, and
/// one beside the other.
fn pairs() -> Vec<Program> {
    let classes = [1, 5, 6, 7, 9];
    let of_two = |first: u8| classes.map(|second| lines_of_classes(&[first, second]));
    let all: Vec<Vec<Handler>> = classes.into_iter().flat_map(of_two).collect();
    let program = |lists: &[Vec<Handler>]| {
        let lists = (0..).zip(lists.iter().cloned());
        of(lists.map(|(number, handlers)| throwing(number, THROWN, handlers)).collect())
    };
    all.chunks(13).map(program).collect()
}

/// Eight ranges, each in the next, around the middle of sixteen addresses; the
/// same from the widest on; eight that touch, and eight that overlap.
fn nested() -> Program {
    let inner_first: Vec<(u8, u8)> = (0..8).map(|place| (7 - place, 9 + place)).collect();
    let outer_first = inner_first.iter().rev().copied().collect();
    let touching = (0..8).map(|place| (2 * place, 2 * place + 2)).collect();
    let overlapping = (0..8).map(|place| (14 - 2 * place, 16 - place)).collect();
    let lists: [Vec<(u8, u8)>; 4] = [inner_first, outer_first, touching, overlapping];
    let method = |(number, ranges): (u8, &Vec<(u8, u8)>)| {
        let line = |&(from, to)| Handler::new(from, to, from, THROWABLE);
        idle(number, 16, ranges.iter().map(line).collect())
    };
    of((0..).zip(&lists).map(method).collect())
}

/// Sixty classes, each from class 5 on below the one before it, and lines of
/// eight of them, from the highest down and from the lowest up.
fn deep() -> Program {
    let mut program = tables(5, 0, 0);
    program.classes.extend((4..59).map(|superclass| Class { superclass }));
    let down = [1, 4, 5, 13, 27, 42, 58, 59].map(|class| Handler::new(class % 2, 3, 0, class));
    let mut up = down;
    up.reverse();
    let lists = (0..).zip([down, up]);
    program.methods = lists.map(|(name, lines)| idle(name, 3, lines.to_vec())).collect();
    program
}

/// Methods of a few addresses with many lines.
fn crowded(random: &mut Random) -> Program {
    let method = |random: &mut Random, name: u8| {
        let length = random.within(1..=6);
        let handler = |random: &mut Random| {
            let from = random.byte_below(length as u8);
            let to = from + 1 + random.byte_below(length as u8 - from);
            Handler::new(from, to, random.byte_below(length as u8), random.byte_below(10))
        };
        let count = random.within(0..=8);
        idle(name, length, (0..count).map(|_| handler(random)).collect())
    };
    let count = random.within(2..=4) as u8;
    of((0..count).map(|name| method(random, name)).collect())
}

/// Two bad lines of eight, and of two methods: the first in the text counts.
pub fn bad_lines() -> Vec<Case> {
    let bad = [
        Handler::new(1, 1, 0, 1),
        Handler::new(0, 2, 0, 1),
        Handler::new(0, 1, 1, 1),
        Handler::new(0, 1, 0, 5),
    ];
    let mut program = tables(5, 0, 0);
    program.methods = (0..2).map(|name| idle(name, 1, vec![Handler::new(0, 1, 0, 1); 8])).collect();
    let with = |faults: [(usize, usize); 2]| {
        let mut program = program.clone();
        for (method, line) in faults {
            program.methods[method].handlers[line] = bad[(method + line) % bad.len()];
        }
        let (method, line) = faults[0];
        Case::refused(program.text(), 5, handler_line(&program, method, line))
    };
    let mut cases = Vec::new();
    for first in 0..8 {
        cases.extend((first + 1..8).map(|second| with([(0, first), (0, second)])));
        cases.push(with([(0, first), (1, 7 - first)]));
    }
    cases
}
