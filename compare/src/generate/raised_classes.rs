//! Classes 2 to 4: that they are there, where they lie, and what names them.

use super::build::{method_line, smallest, tables};
use super::Case;
use crate::assembly::SAMPLE;
use crate::frame::{text, CLASS};
use crate::opcode::{CHECK_CAST, INSTANCE_OF, NEW_INSTANCE};
use crate::program::{Class, Field, Handler, Instruction, Method, Program, VIRTUAL};

pub fn cases() -> Vec<Case> {
    [fewer_classes(), every_superclass(), several_superclasses(), hidden(), named()].concat()
}

/// The sample with none to two of its lines `0101`, and with more of them.
fn fewer_classes() -> Vec<Case> {
    let lines: Vec<&str> = SAMPLE.split_inclusive('\n').collect();
    let with = |count: usize| {
        let classes = "0101\n".repeat(count);
        [lines[0], lines[1], &classes, &lines[5..].concat()].concat().into_bytes()
    };
    let mut cases: Vec<Case> =
        (0..3).map(|count| Case::refused(with(count), 4, count as u32 + 3)).collect();
    cases.extend([3, 4, 58].map(|count| Case::read(with(count))));
    cases.push(Case::refused(with(59), 4, 61));
    // The classes alone, up to the least count of them.
    let alone = |count: usize| lines[..count].concat().into_bytes();
    cases.extend((0..=5).map(|count| Case::refused(alone(count), 4, count as u32 + 1)));
    cases
}

/// A program of eight classes with other superclasses of some.
fn with_superclasses(changed: &[(usize, u8)]) -> Program {
    let mut program = tables(8, 1, 1);
    for &(class, superclass) in changed {
        program.classes[class] = Class { superclass };
    }
    program
}

/// Each of the three below every class there is, and below none.
fn every_superclass() -> Vec<Case> {
    let mut cases = Vec::new();
    for class in 2..=4 {
        for superclass in (0..=8).chain([0x11, 0x80, 0xfe, 0xff]) {
            let text = with_superclasses(&[(class, superclass)]).text();
            cases.push(Case::allowed(text, superclass == 1, class as u32 + 1));
        }
    }
    cases
}

/// Two of the first classes elsewhere: the first line counts.
fn several_superclasses() -> Vec<Case> {
    let mut cases = Vec::new();
    for first in 0..=5 {
        for second in first + 1..=5 {
            let text = with_superclasses(&[(first, 9), (second, 8)]).text();
            cases.push(Case::refused(text, 5, first as u32 + 1));
        }
    }
    cases
}

/// A superclass that is not allowed, where a frame is out of order as well.
fn hidden() -> Vec<Case> {
    let mut cases = Vec::new();
    for class in 2..=4 {
        let program = with_superclasses(&[(class, 0)]);
        let late = [program.text(), b"03\n".to_vec()].concat();
        cases.push(Case::refused(late, 4, program.frames().len() as u32 + 1));
        let mut frames = program.frames();
        frames.insert(class + 1, vec![CLASS]);
        cases.push(Case::refused(text(&frames), 3, class as u32 + 2));
        // Only so many classes: the field that follows cannot stand there.
        let mut fewer = program.frames();
        fewer.drain(class + 1..8);
        let refusal = if class < 4 { (4, class as u32 + 2) } else { (5, 5) };
        cases.push(Case::refused(text(&fewer), refusal.0, refusal.1));
    }
    cases
}

/// Programs in which fields, methods, classes, instructions and handlers name
/// one of the three, and the same with one class too few.
fn named() -> Vec<Case> {
    let mut cases = Vec::new();
    for class in 2..=4 {
        let mut program = smallest();
        program.classes.push(Class { superclass: class });
        program.classes.push(Class { superclass: 5 });
        program.fields = vec![Field { class }; 2];
        let code = [
            Instruction::new(NEW_INSTANCE, 0, class, 0, 0),
            Instruction::new(CHECK_CAST, 0, class, 0, 0),
            Instruction::new(INSTANCE_OF, 0, 0, class, 0),
        ];
        program.methods[0].code.splice(0..0, code);
        program.methods[0].handlers = vec![Handler::new(0, 3, 3, class)];
        let method =
            Method::new(class, 9, VIRTUAL, 2, 1).with_code(smallest().methods[0].code.clone());
        program.methods.push(method);
        cases.push(Case::read(program.text()));
        program.methods[1].class = 7;
        cases.push(Case::refused(program.text(), 5, method_line(&program, 1)));
    }
    cases
}
