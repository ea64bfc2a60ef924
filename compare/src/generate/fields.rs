//! The fields of classes, instance fields, methods and handlers at their edges.

use super::build::{edge_bytes, flat_classes, handler_line, idle_code, main_method, method_line};
use super::build::{every_kind, smallest, tables};
use super::Case;
use crate::program::{Handler, Method, Program, STATIC, VIRTUAL};

pub fn cases() -> Vec<Case> {
    [superclasses(), field_classes(), method_classes(), names(), kinds(), registers(), handlers()]
        .concat()
}

/// The superclass of each of the first classes and of the last two.
fn superclasses() -> Vec<Case> {
    let mut cases = Vec::new();
    for count in [5, 7, 60] {
        for class in [0, 1, 2, 3, 4, count - 2, count - 1] {
            let (low, high) = match class {
                0 => (0xff, 0xff),
                2..=4 => (1, 1),
                _ => (0, class as u8 - 1),
            };
            for value in edge_bytes(low, high).into_iter().chain([class as u8, count as u8]) {
                let mut program = tables(count, 0, 0);
                program.classes[class].superclass = value;
                let allowed = (low..=high).contains(&value);
                cases.push(Case::allowed(program.text(), allowed, class as u32 + 1));
            }
        }
    }
    cases
}

fn field_classes() -> Vec<Case> {
    let mut cases = Vec::new();
    for (classes, fields) in [(5, 1), (6, 16), (8, 3), (60, 2)] {
        for field in [0, fields / 2, fields - 1] {
            for value in edge_bytes(0, classes as u8 - 1) {
                let mut program = tables(classes, fields, 1);
                program.fields[field].class = value;
                let line = (classes + field + 1) as u32;
                cases.push(Case::allowed(program.text(), usize::from(value) < classes, line));
            }
        }
    }
    cases
}

/// A program whose method 1 has this frame, between two others.
fn with_method(classes: usize, method: Method) -> Program {
    let other = Method::new(1, 0xee, VIRTUAL, 1, 1).with_code(idle_code(1));
    let mut program = tables(classes, 1, 0);
    program.methods = vec![main_method(2), method.with_code(idle_code(2)), other];
    program
}

fn method_classes() -> Vec<Case> {
    let mut cases = Vec::new();
    for classes in [5, 6, 60] {
        for value in edge_bytes(0, classes as u8 - 1) {
            for method in [0, 1, 2] {
                let mut program = with_method(classes, Method::new(0, 1, STATIC, 2, 1));
                program.methods[method].class = value;
                let line = method_line(&program, method);
                cases.push(Case::allowed(program.text(), usize::from(value) < classes, line));
            }
        }
    }
    cases
}

/// A name is any byte.
fn names() -> Vec<Case> {
    [1, 2, 0x0a, 0x7f, 0x80, 0xff]
        .into_iter()
        .map(|name| Case::read(with_method(5, Method::new(0, name, VIRTUAL, 3, 2)).text()))
        .collect()
}

/// The kind of method 0 and of others, with and without arguments.
fn kinds() -> Vec<Case> {
    let mut cases = Vec::new();
    for kind in [0, 1, 2, 3, 0x10, 0x80, 0x81, 0xfe, 0xff] {
        for arguments in [0, 1, 2] {
            let mut program = with_method(5, Method::new(1, 1, VIRTUAL, 2, 1));
            program.methods[0].kind = kind;
            program.methods[0].arguments = arguments;
            let allowed = kind == STATIC && arguments == 0;
            cases.push(Case::allowed(program.text(), allowed, method_line(&program, 0)));

            let program = with_method(5, Method::new(1, 1, kind, 2, arguments));
            let allowed = kind == STATIC || kind == VIRTUAL && arguments >= 1;
            cases.push(Case::allowed(program.text(), allowed, method_line(&program, 1)));
        }
    }
    cases
}

/// Registers and arguments together.
fn registers() -> Vec<Case> {
    let mut cases = Vec::new();
    for registers in [0, 1, 2, 15, 16, 17, 0x80, 0xff] {
        let in_range = (1..=16).contains(&registers);
        for arguments in [0, 1, 2, 15, 16, 17, 0x80, 0xff] {
            for kind in [VIRTUAL, STATIC] {
                let program = with_method(5, Method::new(0, 9, kind, registers, arguments));
                let least = if kind == VIRTUAL { 1 } else { 0 };
                let allowed = in_range && (least..=registers).contains(&arguments);
                cases.push(Case::allowed(program.text(), allowed, method_line(&program, 1)));
            }
            let mut program = smallest();
            program.methods[0].registers = registers;
            program.methods[0].arguments = arguments;
            let line = method_line(&program, 0);
            cases.push(Case::allowed(program.text(), in_range && arguments == 0, line));
        }
    }
    cases
}

/// Each byte of a handler, the first two together, in the first and the last
/// handler of the first and the last method.
fn handlers() -> Vec<Case> {
    let mut cases = Vec::new();
    for length in [1, 3, 32] {
        let classes = 6;
        let mut tried = Vec::new();
        for from in [0, 1, length - 1, length, 0xff] {
            for to in [0, 1, length - 1, length, length + 1, 0xff] {
                tried.push(Handler::new(from, to, length - 1, classes - 1));
            }
        }
        for target in [0, length - 1, length, length + 1, 0x80, 0xff] {
            tried.push(Handler::new(0, length, target, 0));
        }
        for class in [0, 1, classes - 1, classes, classes + 1, 0x80, 0xff] {
            tried.push(Handler::new(0, 1, 0, class));
        }
        for (number, handler) in tried.into_iter().enumerate() {
            let (method, count) = if number % 2 == 0 { (0, 3) } else { (1, 1) };
            let place = number % 3 % count;
            let mut program = every_kind();
            program.classes = flat_classes(classes.into());
            program.methods[method].code = idle_code(length.into());
            program.methods[method].handlers = vec![Handler::new(0, 1, 0, 1); count];
            program.methods[method].handlers[place] = handler;
            let allowed = handler.from < handler.to
                && handler.to <= length
                && handler.target < length
                && handler.class < classes;
            let line = handler_line(&program, method, place);
            cases.push(Case::allowed(program.text(), allowed, line));
        }
    }
    cases
}
