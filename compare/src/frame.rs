//! Frames: the lines of a program text, as bytes and as parts of a program.

use crate::program::{Class, Field, Handler, Instruction, Method, Program};

/// Kinds of a frame: its first byte.
pub const CLASS: u8 = 0x01;
pub const FIELD: u8 = 0x02;
pub const STATIC: u8 = 0x03;
pub const METHOD: u8 = 0x04;
pub const HANDLER: u8 = 0x05;
pub const INSTRUCTION: u8 = 0x06;

/// A decoded frame. A method's frame has no code and no handlers yet.
#[derive(Clone, Debug, PartialEq, Eq)]
pub enum Frame {
    Class(Class),
    Field(Field),
    Static,
    Method(Method),
    Handler(Handler),
    Instruction(Instruction),
}

impl Frame {
    /// The frame of these bytes; none for an unknown kind or a wrong length.
    pub fn from_bytes(bytes: &[u8]) -> Option<Frame> {
        match *bytes {
            [CLASS, superclass] => Some(Frame::Class(Class { superclass })),
            [FIELD, class] => Some(Frame::Field(Field { class })),
            [STATIC] => Some(Frame::Static),
            [METHOD, class, name, kind, registers, arguments] => {
                Some(Frame::Method(Method::new(class, name, kind, registers, arguments)))
            }
            [HANDLER, from, to, target, class] => {
                Some(Frame::Handler(Handler::new(from, to, target, class)))
            }
            [INSTRUCTION, o, a, b, c, d3, d2, d1, d0] => {
                let d = u32::from_be_bytes([d3, d2, d1, d0]);
                Some(Frame::Instruction(Instruction::new(o, a, b, c, d)))
            }
            _ => None,
        }
    }
}

impl Program {
    /// The bytes of each frame, in the order of the text.
    pub fn frames(&self) -> Vec<Vec<u8>> {
        let mut frames = Vec::new();
        frames.extend(self.classes.iter().map(|class| vec![CLASS, class.superclass]));
        frames.extend(self.fields.iter().map(|field| vec![FIELD, field.class]));
        frames.extend((0..self.statics).map(|_| vec![STATIC]));
        for m in &self.methods {
            frames.push(vec![METHOD, m.class, m.name, m.kind, m.registers, m.arguments]);
            frames.extend(m.code.iter().map(|i| {
                let mut bytes = vec![INSTRUCTION, i.o, i.a, i.b, i.c];
                bytes.extend(i.d.to_be_bytes());
                bytes
            }));
            frames
                .extend(m.handlers.iter().map(|h| vec![HANDLER, h.from, h.to, h.target, h.class]));
        }
        frames
    }

    /// The program's text.
    pub fn text(&self) -> Vec<u8> {
        text(&self.frames())
    }
}

/// The text of these frames: lowercase hexadecimal, one frame a line.
pub fn text(frames: &[Vec<u8>]) -> Vec<u8> {
    frames.iter().map(|frame| line(frame)).collect::<Vec<_>>().concat()
}

/// One frame's line, its line end included.
pub fn line(frame: &[u8]) -> Vec<u8> {
    let mut line = Vec::with_capacity(2 * frame.len() + 1);
    frame.iter().for_each(|&byte| line.extend_from_slice(&digits(byte)));
    line.push(b'\n');
    line
}

/// The two digits of a byte.
#[inline]
pub fn digits(byte: u8) -> [u8; 2] {
    const DIGITS: &[u8; 16] = b"0123456789abcdef";
    [DIGITS[usize::from(byte >> 4)], DIGITS[usize::from(byte & 15)]]
}
