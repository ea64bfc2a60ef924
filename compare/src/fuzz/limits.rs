//! Programs with a value at an edge, with as many frames of a kind as there
//! can be and one more, and texts of the greatest length and one byte more.

use crate::assembly::{nop, return_void};
use crate::frame::{digits, text};
use crate::opcode::CONST;
use crate::program::{Class, Field, Handler, Instruction, Method, Program, STATIC};
use crate::random::Random;
use crate::reader::MAX_LENGTH;

/// A byte of one frame set to an edge, or the four bytes of an instruction's
/// last field.
pub fn value_at_an_edge(random: &mut Random, program: &Program) -> Vec<u8> {
    let mut frames = program.frames();
    let place = random.below(frames.len());
    let frame = &mut frames[place];
    let wide = [0, 1, 31, 32, 255, 256, 0x7fff_ffff, 0x8000_0000, u32::MAX];
    match frame.len() {
        1 => {}
        9 if random.once_in(4) => {
            frame[5..].copy_from_slice(&random.pick(&wide).to_be_bytes());
        }
        length => {
            let value = &mut frame[random.within(1..=length - 1)];
            let edges = [0, 1, 2, 5, 6, 7, 11, 12, 15, 16, 17, 20, 21, 31, 32, 33, 59, 60, 61];
            *value = match random.below(4) {
                0 => value.wrapping_add(1),
                1 => value.wrapping_sub(1),
                2 => random.pick(&edges),
                _ => random.pick(&[0x7f, 0x80, 0xfe, 0xff]),
            };
        }
    }
    text(&frames)
}

/// One of the classes 2 to 4 below another class than Throwable, mostly one
/// that is there.
pub fn raised_elsewhere(random: &mut Random, program: &Program) -> Vec<u8> {
    let mut program = program.clone();
    let class = random.within(2..=4);
    let superclass = random.pick(&[0, 0, 2, 3, 4, 5, 0xff]);
    program.classes[class] = Class { superclass };
    program.text()
}

/// The last instruction of a method made one that goes on.
pub fn falling_through(random: &mut Random, program: &Program) -> Vec<u8> {
    let mut program = program.clone();
    let method = random.below(program.methods.len());
    if let Some(last) = program.methods[method].code.last_mut() {
        *last = random.pick(&[nop(), Instruction::new(CONST, 0, 0, 0, 7)]);
    }
    program.text()
}

/// The program with as many frames of a kind as there can be, or one more;
/// none if the way is another.
pub fn with_count(random: &mut Random, program: &Program, way: &str) -> Option<Vec<u8>> {
    let mut program = program.clone();
    let more = usize::from(!random.once_in(3));
    let chosen = random.below(program.methods.len());
    let method = &mut program.methods[chosen];
    match way {
        "60 or 61 classes" => program.classes.resize(60 + more, Class { superclass: 0 }),
        "16 or 17 fields" => program.fields.resize(16 + more, Field { class: 1 }),
        "16 or 17 statics" => program.statics = 16 + more,
        "16 or 17 methods" => {
            let new = |number: usize| {
                let name = 200 + number as u8;
                Method::new(0, name, STATIC, 1, 0).with_code(vec![return_void()])
            };
            program.methods.extend((program.methods.len()..16 + more).map(new));
        }
        "32 or 33 instructions" => method.code.resize(32 + more, return_void()),
        "8 or 9 handlers" => method.handlers.resize(8 + more, Handler::new(0, 1, 0, 1)),
        _ => return None,
    }
    Some(program.text())
}

/// Fewer frames than there must be: classes, methods, or code.
pub fn too_few(random: &mut Random, program: &Program) -> Vec<u8> {
    let mut program = program.clone();
    let method = random.below(program.methods.len());
    match random.below(4) {
        0 => program.classes.truncate(random.below(5)),
        1 => program.methods.clear(),
        2 => program.methods[method].code.clear(),
        _ => {
            program.methods[method].code.clear();
            program.methods[method].handlers.clear();
        }
    }
    program.text()
}

/// The program followed by other bytes, as many as make the greatest length
/// or one byte more.
pub fn long_text(random: &mut Random, text: &[u8]) -> Vec<u8> {
    let length = MAX_LENGTH + random.below(2);
    let mut long = text.to_vec();
    match random.below(3) {
        // One line that is too long, the same without its end, or the text
        // over and over.
        0 => {
            long.resize(length - 1, b'0');
            long.push(b'\n');
        }
        1 => long.resize(length, digits(random.byte())[0]),
        _ => long = text.iter().copied().cycle().take(length).collect(),
    }
    long
}
