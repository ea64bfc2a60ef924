//! Methods with up to eight handlers around a throw, each with a target of its
//! own: for the cases of texts, of runs, of claims and of writes.

mod programs;

use crate::assembly::*;
use crate::program::{Handler, Instruction, Method};
use crate::program::{ARITHMETIC, NULL, STATIC, THROWABLE};
use std::ops::Range;

pub use programs::*;

/// Class 5 is no Throwable; 6, 7 and 8 lie one below the other below
/// Throwable, and 9 beside 7.
pub const SUPERCLASSES: [u8; 9] = [0, 1, 1, 1, 0, 1, 6, 7, 6];
const OTHER: u8 = 5;
const ABOVE: u8 = 6;
pub const THROWN: u8 = 7;
const BELOW: u8 = 8;
const BESIDE: u8 = 9;

/// Where the throw, or the call that leads to it, stands; targets follow.
pub const AT: u8 = 1;

/// The addresses before the targets in [`raising`].
const COVERED: usize = 8;

/// Lines that differ in one property, and of some classes or addresses the
/// line that is taken there.
pub struct Known<T: 'static> {
    pub lines: &'static [T],
    pub taken: &'static [(u8, usize)],
}

/// Classes of lines, and by the class that is thrown the line that takes it.
pub const ORDERS: [Known<u8>; 4] = [
    Known { lines: &[8, 7, 6, 1, 0], taken: &[(8, 0), (7, 1), (6, 2), (9, 2), (1, 3)] },
    Known { lines: &[5, 0, 1, 6, 7, 8], taken: &[(8, 1), (6, 1), (1, 1)] },
    Known { lines: &[2, 7, 9, 7, 1, 8, 6], taken: &[(7, 1), (8, 1), (9, 2), (6, 4)] },
    Known { lines: &[9, 9, 8, 8, 6, 6, 6, 7], taken: &[(9, 0), (8, 2), (7, 4)] },
];

/// Ranges of lines over eight addresses, and by address the line that is taken:
/// one range in another, ranges that touch, and ranges that overlap.
pub const RANGES: [Known<(u8, u8)>; 4] = [
    Known {
        lines: &[(3, 5), (2, 6), (1, 7), (0, 8)],
        taken: &[(0, 3), (1, 2), (3, 0), (4, 0), (5, 1), (7, 3)],
    },
    Known { lines: &[(0, 8), (1, 7), (2, 6), (3, 5)], taken: &[(0, 0), (4, 0)] },
    Known { lines: &[(0, 2), (2, 4), (4, 6), (6, 8)], taken: &[(1, 0), (2, 1), (5, 2)] },
    Known { lines: &[(0, 3), (2, 5), (4, 7), (6, 8)], taken: &[(2, 0), (3, 1), (6, 2), (7, 3)] },
];

/// The target of a line: another place among the targets than the line's own.
pub fn target(count: usize, line: usize) -> u8 {
    AT + 1 + ((line + count / 2) % count) as u8
}

/// The target of a line in [`raising`].
pub fn raising_target(count: usize, line: usize) -> u8 {
    target(count, line) - AT - 1 + COVERED as u8
}

/// Handlers in the order of the text: a line written `x` takes an object of
/// class 7 at [`AT`], one written `.` does not.
pub fn lines(pattern: &str) -> Vec<Handler> {
    let count = pattern.len();
    let (next, length) = (AT + 1, AT + 1 + count as u8);
    let fitting = [
        (AT, next, THROWN),
        (0, next, ABOVE),
        (AT, length, THROWABLE),
        (0, length, 0),
        (0, next, THROWN),
    ];
    let others = [
        (AT, next, BELOW),
        (0, length, BESIDE),
        (0, AT, 0),
        (next, length, THROWABLE),
        (AT, next, OTHER),
        (0, length, ARITHMETIC),
    ];
    let line = |(place, written): (usize, char)| {
        let (from, to, class) = match written {
            'x' => fitting[place % fitting.len()],
            _ => others[place % others.len()],
        };
        Handler::new(from, to, target(count, place), class)
    };
    pattern.chars().enumerate().map(line).collect()
}

/// The target of the first line that fits.
pub fn taken(pattern: &str) -> Option<u8> {
    pattern.find('x').map(|line| target(pattern.len(), line))
}

/// Lines of these classes, which cover all addresses.
pub fn lines_of_classes(classes: &[u8]) -> Vec<Handler> {
    let count = classes.len();
    let to = AT + 1 + count as u8;
    let line = |(place, &class)| Handler::new(0, to, target(count, place), class);
    classes.iter().enumerate().map(line).collect()
}

/// So many targets from this address on, which stand still; one if there is to
/// be none, for code to end with.
fn still(first: usize, count: usize) -> impl Iterator<Item = Instruction> {
    (first..first + count.max(1)).map(goto)
}

/// A method that throws an object of this class, with a target for each
/// handler.
pub fn throwing(number: u8, class: u8, handlers: Vec<Handler>) -> Method {
    let mut code = vec![new_instance(0, class), throw(0)];
    code.extend(still(code.len(), handlers.len()));
    Method::new(0, number, STATIC, 1, 0).with_code(code).with_handlers(handlers)
}

/// A method that raises null at these of eight addresses. Each line has a
/// range; the targets follow the eight.
pub fn raising(number: u8, at: Range<u8>, ranges: &[(u8, u8)]) -> Method {
    let mut code = vec![nop(); COVERED];
    at.for_each(|address| code[usize::from(address)] = invoke_virtual(0, 1, 0));
    code.extend(still(COVERED, ranges.len()));
    let classes = [NULL, THROWABLE, 0];
    let line = |(place, &(from, to)): (usize, &(u8, u8))| {
        Handler::new(from, to, raising_target(ranges.len(), place), classes[place % 3])
    };
    let handlers = ranges.iter().enumerate().map(line).collect();
    Method::new(0, number, STATIC, 1, 0).with_code(code).with_handlers(handlers)
}
