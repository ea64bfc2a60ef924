//! Reads a program text.
//!
//! Refusals come in three walks, each made only if the one before found
//! nothing: the length (1); by line the form of lines, frames and their order
//! (2, 3, 4), which also builds the program; by line the values (5, 6).

use crate::frame::Frame;
use crate::program::{Method, Program};
use crate::{values, Refusal};

/// The longest text that is read, in bytes.
pub const MAX_LENGTH: usize = 65_536;

/// Bytes of the longest frame, an instruction's.
const LONGEST_FRAME: usize = 9;

/// Class 0, Throwable, and the three that instructions raise.
const MIN_CLASSES: usize = 5;
const MAX_CLASSES: usize = 60;
const MAX_FIELDS: usize = 16;
const MAX_STATICS: usize = 16;
const MAX_METHODS: usize = 16;
const MAX_INSTRUCTIONS: usize = 32;
const MAX_HANDLERS: usize = 8;

/// The program of a text, or the refusal of the text.
pub fn read(text: &[u8]) -> Result<Program, Refusal> {
    if text.len() > MAX_LENGTH {
        return Err(Refusal::new(1, 0));
    }
    let program = parse(text)?;
    values::check(&program)?;
    Ok(program)
}

/// The words of an answer: the refusal's, or zeros for a program.
pub fn words(read: &Result<Program, Refusal>) -> [u64; 5] {
    read.as_ref().map_or_else(Refusal::words, |_| [0; 5])
}

/// The program as written, its values not yet looked at.
fn parse(text: &[u8]) -> Result<Program, Refusal> {
    let mut program = Program::default();
    let mut line = 1;
    for bytes in text.split_inclusive(|&byte| byte == b'\n') {
        let refuse = |number| Refusal::new(number, line);
        let digits = digits(bytes).ok_or(refuse(2))?;
        let frame = frame(digits).ok_or(refuse(3))?;
        if !can_stand(&program, &frame) {
            return Err(refuse(4));
        }
        place(&mut program, frame);
        line += 1;
    }
    // Every other missing frame shows at a frame that stands in its place.
    match program.methods.last() {
        Some(method) if !method.code.is_empty() => Ok(program),
        _ => Err(Refusal::new(4, line)),
    }
}

/// The digits of one line: an even number of lowercase ones, not none, and
/// the line end after them.
pub(crate) fn digits(line: &[u8]) -> Option<&[u8]> {
    let digits = line.strip_suffix(b"\n")?;
    let is_digit = |byte: &u8| matches!(byte, b'0'..=b'9' | b'a'..=b'f');
    let allowed = !digits.is_empty() && digits.len() % 2 == 0 && digits.iter().all(is_digit);
    allowed.then_some(digits)
}

/// The frame of these digits; none for an unknown kind or a wrong length.
fn frame(digits: &[u8]) -> Option<Frame> {
    let mut bytes = [0; LONGEST_FRAME];
    let bytes = bytes.get_mut(..digits.len() / 2)?;
    for (byte, pair) in bytes.iter_mut().zip(digits.chunks_exact(2)) {
        *byte = value(pair[0]) << 4 | value(pair[1]);
    }
    Frame::from_bytes(bytes)
}

/// The value of a digit.
fn value(digit: u8) -> u8 {
    if digit <= b'9' {
        digit - b'0'
    } else {
        digit - b'a' + 10
    }
}

/// Whether a frame of this kind can follow what has been read so far.
fn can_stand(program: &Program, frame: &Frame) -> bool {
    let Program { classes, fields, statics, methods } = program;
    let enough_classes = classes.len() >= MIN_CLASSES;
    match frame {
        Frame::Class(_) => {
            fields.is_empty() && *statics == 0 && methods.is_empty() && classes.len() < MAX_CLASSES
        }
        Frame::Field(_) => {
            enough_classes && *statics == 0 && methods.is_empty() && fields.len() < MAX_FIELDS
        }
        Frame::Static => enough_classes && methods.is_empty() && *statics < MAX_STATICS,
        Frame::Method(_) => {
            enough_classes
                && methods.len() < MAX_METHODS
                && methods.last().is_none_or(|method| !method.code.is_empty())
        }
        Frame::Instruction(_) => methods.last().is_some_and(|method| {
            method.handlers.is_empty() && method.code.len() < MAX_INSTRUCTIONS
        }),
        Frame::Handler(_) => methods
            .last()
            .is_some_and(|method| !method.code.is_empty() && method.handlers.len() < MAX_HANDLERS),
    }
}

/// Adds a frame that can stand here.
fn place(program: &mut Program, frame: Frame) {
    match frame {
        Frame::Class(class) => program.classes.push(class),
        Frame::Field(field) => program.fields.push(field),
        Frame::Static => program.statics += 1,
        Frame::Method(method) => program.methods.push(method),
        Frame::Instruction(instruction) => last_method(program).code.push(instruction),
        Frame::Handler(handler) => last_method(program).handlers.push(handler),
    }
}

fn last_method(program: &mut Program) -> &mut Method {
    program.methods.last_mut().expect("a method's frame stands before its code and handlers")
}
