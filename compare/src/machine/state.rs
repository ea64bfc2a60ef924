//! What a run's state is made of.

use super::value::{Fault, Value};
use std::ops::{Index, IndexMut};

/// Registers of a frame, cells of an object, statics of a program.
pub const CELLS: usize = 16;

/// Sixteen values, zero at first, by a number below sixteen.
#[derive(Clone, Copy, Debug, PartialEq, Eq)]
pub struct Cells([Value; CELLS]);

impl Cells {
    pub const ZERO: Cells = Cells([Value::ZERO; CELLS]);

    pub fn iter(&self) -> impl Iterator<Item = &Value> {
        self.0.iter()
    }
}

impl Index<u8> for Cells {
    type Output = Value;

    #[inline(always)]
    fn index(&self, number: u8) -> &Value {
        &self.0[usize::from(number) % CELLS]
    }
}

impl IndexMut<u8> for Cells {
    #[inline(always)]
    fn index_mut(&mut self, number: u8) -> &mut Value {
        &mut self.0[usize::from(number) % CELLS]
    }
}

/// A call frame. Registers that its method does not have stay zero.
#[derive(Clone, Debug, PartialEq, Eq)]
pub struct Frame {
    pub method: u8,
    pub address: u8,
    pub result: Value,
    pub registers: Cells,
}

impl Frame {
    /// A frame at address 0, without arguments yet.
    #[inline(always)]
    pub fn new(method: u8) -> Frame {
        Frame { method, address: 0, result: Value::ZERO, registers: Cells::ZERO }
    }
}

/// Field f lies in cell f; the cells of fields that the class does not have
/// stay zero.
#[derive(Clone, Debug, PartialEq, Eq)]
pub struct Object {
    pub class: u8,
    pub cells: Cells,
}

/// Objects in the order of making, and statics.
#[derive(Clone, Debug)]
pub struct Heap {
    pub objects: Vec<Object>,
    pub max_objects: usize,
    pub statics: Cells,
}

impl Heap {
    /// Makes an object with zero in every cell: its number, or none if the
    /// store is full.
    #[inline]
    pub fn make(&mut self, class: u8) -> Option<u32> {
        let number = self.objects.len();
        (number < self.max_objects).then(|| {
            self.objects.push(Object { class, cells: Cells::ZERO });
            number as u32
        })
    }

    #[inline(always)]
    pub fn class(&self, object: u32) -> usize {
        usize::from(self.objects[object as usize].class)
    }
}

/// How a run ended.
#[derive(Clone, Copy, Debug, PartialEq, Eq)]
pub enum End {
    Done,
    Uncaught,
    Fault(Fault),
}

/// Why a run goes no further for now.
#[derive(Clone, Copy, Debug, PartialEq, Eq)]
pub enum Stop {
    End(End),
    ObjectsFull,
    FramesFull,
    StepsMade,
    AddressOutside,
}

/// How many frames and objects a run may have at once.
#[derive(Clone, Copy, Debug)]
pub struct Limits {
    pub frames: usize,
    pub objects: usize,
}

impl Limits {
    pub const STEPPER: Limits = Limits { frames: 32, objects: 256 };
    pub const NONE: Limits = Limits { frames: usize::MAX, objects: usize::MAX };
}
