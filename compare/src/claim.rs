//! A claim: a mask for everything a run can put a value into.
//!
//! [`read`] makes it from a text, or gives the refusal (9 to 13); [`write`]
//! gives its frames and its text; [`order`] compares two of one program.

pub(crate) mod digits;
pub mod order;
pub mod read;
pub mod write;

use crate::program::{Method, Program};

/// The longest text that is read, in bytes.
pub const MAX_LENGTH: usize = 262_144;

/// Kinds of a frame: its first byte.
pub const STATE: u8 = 0x11;
pub const FIELD: u8 = 0x12;
pub const STATIC: u8 = 0x13;
pub const RETURNED: u8 = 0x14;
pub const LEAVING: u8 = 0x15;

/// Bits of numbers in a mask; bit c stands for class c.
pub const ZERO: u64 = 1 << 62;
pub const OTHER: u64 = 1 << 63;
pub const NUMBERS: u64 = ZERO | OTHER;

/// The masks of one field by class; those of classes without it stay 0.
pub type ByClass = [u64; 64];

#[derive(Clone, Debug, PartialEq, Eq)]
pub struct Claim {
    pub(crate) states: Vec<u64>,
    pub(crate) rows: Vec<Rows>,
    pub fields: Vec<ByClass>,
    pub statics: Vec<u64>,
    /// What each method returns.
    pub returned: Vec<u64>,
    /// Classes of the exceptions that leave each method.
    pub leaving: Vec<u64>,
}

/// Where a method's states lie: rows of this width, one for each address. A
/// row has the masks of the registers, then that of the result.
#[derive(Clone, Copy, Debug, PartialEq, Eq)]
pub(crate) struct Rows {
    pub start: usize,
    pub width: usize,
}

impl Claim {
    /// The claim of a program in which every mask is empty.
    pub fn empty(program: &Program) -> Claim {
        let mut length = 0;
        let mut place = |method: &Method| {
            let rows = Rows { start: length, width: usize::from(method.registers) + 1 };
            length += rows.width * method.code.len();
            rows
        };
        let rows = program.methods.iter().map(&mut place).collect();
        Claim {
            states: vec![0; length],
            rows,
            fields: vec![[0; 64]; program.fields.len()],
            statics: vec![0; program.statics],
            returned: vec![0; program.methods.len()],
            leaving: vec![0; program.methods.len()],
        }
    }

    /// Masks of registers and, last, of the result.
    #[inline]
    pub fn row(&self, method: usize, address: usize) -> &[u64] {
        let Rows { start, width } = self.rows[method];
        &self.states[start + width * address..][..width]
    }

    #[inline]
    pub fn row_mut(&mut self, method: usize, address: usize) -> &mut [u64] {
        let Rows { start, width } = self.rows[method];
        &mut self.states[start + width * address..][..width]
    }
}

/// The bits of the program's classes.
pub fn class_bits(program: &Program) -> u64 {
    (1 << program.classes.len()) - 1
}

/// For each class the bits of the class itself and of every class below it.
pub fn classes_below(program: &Program) -> ByClass {
    let mut below = [0; 64];
    // A class has a greater number than the class above it.
    for (class, info) in program.classes.iter().enumerate().rev() {
        below[class] |= 1 << class;
        if class != 0 {
            below[usize::from(info.superclass)] |= below[class];
        }
    }
    below
}
