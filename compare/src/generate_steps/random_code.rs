//! Random code whose registers mostly hold what the code takes them to hold.

use crate::assembly::*;
use crate::program::{Handler, Instruction};
use crate::random::Random;

#[derive(Clone, Copy, Debug, PartialEq, Eq)]
pub enum Kind {
    Number,
    Object,
}

/// What a method takes and gives; of a virtual one the first is an object.
#[derive(Clone, Debug)]
pub struct Signature {
    pub name: u8,
    pub is_virtual: bool,
    pub takes: Vec<Kind>,
    pub gives: Kind,
}

/// What code can name. Fields and statics of even number hold numbers, the
/// others objects.
pub struct Tables {
    pub classes: u8,
    pub fields: u8,
    pub statics: u8,
    pub methods: Vec<Signature>,
}

/// Registers: three numbers, three objects, three to call with, then the
/// arguments.
pub const NUMBERS: u8 = 3;
pub const SCRATCH: u8 = 6;
pub const FIRST_ARGUMENT: u8 = 9;

pub struct Writer<'t> {
    pub random: &'t mut Random,
    pub tables: &'t Tables,
    pub own: &'t Signature,
    /// The method's number.
    pub number: usize,
    pub code: Vec<Instruction>,
    /// Whether the registers for objects have been filled.
    begun: bool,
    /// Addresses to go to, and branches whose target is still open.
    starts: Vec<usize>,
    pub open: Vec<usize>,
}

impl<'t> Writer<'t> {
    pub fn new(random: &'t mut Random, tables: &'t Tables, number: usize) -> Writer<'t> {
        let own = &tables.methods[number];
        let (code, starts, open) = (Vec::new(), Vec::new(), Vec::new());
        Writer { random, tables, own, number, code, begun: false, starts, open }
    }

    pub(super) fn register(&mut self, kind: Kind) -> u8 {
        let arguments = (FIRST_ARGUMENT..).zip(&self.own.takes);
        let mut all: Vec<u8> = arguments.filter(|(_, &k)| k == kind).map(|(r, _)| r).collect();
        match kind {
            Kind::Number => all.extend(0..NUMBERS),
            Kind::Object if self.begun || all.is_empty() => all.extend(NUMBERS..SCRATCH),
            Kind::Object => {}
        }
        self.random.pick(&all)
    }

    /// A field or static of this kind, if there is one.
    pub(super) fn place(&mut self, kind: Kind, count: u8) -> Option<u8> {
        let all: Vec<u8> = (0..count).filter(|&i| (i % 2 == 0) == (kind == Kind::Number)).collect();
        (!all.is_empty()).then(|| self.random.pick(&all))
    }

    pub(super) fn kind(&mut self) -> Kind {
        self.random.pick(&[Kind::Number, Kind::Object])
    }

    pub(super) fn class(&mut self) -> u8 {
        self.random.byte_below(self.tables.classes)
    }

    /// Numbers and objects to start with.
    pub fn begin(&mut self) {
        self.begun = true;
        for to in 0..NUMBERS {
            let number = self.random.pick(&[1, 2, 3, 7, -1, 31, 1000, i32::MAX, i32::MIN]);
            self.code.push(constant(to, number));
        }
        for to in NUMBERS..SCRATCH {
            let class = self.class();
            self.code.push(new_instance(to, if to == NUMBERS { 1 } else { class }));
        }
    }

    /// Adds pieces while the code is shorter than `length`, then an ending.
    pub fn fill(&mut self, length: usize) {
        loop {
            self.starts.push(self.code.len());
            if self.code.len() >= length {
                break;
            }
            let piece = self.piece();
            self.code.extend(piece);
        }
        let back = self.random.pick(&self.starts);
        let value = self.register(self.own.gives);
        let object = self.register(Kind::Object);
        self.code.push(match self.random.below(8) {
            0..=5 if self.own.name == 0 => goto(back),
            5 => throw(object),
            6 => return_void(),
            _ => give(value),
        });
        for address in std::mem::take(&mut self.open) {
            self.code[address].d = self.random.pick(&self.starts) as u32;
        }
    }

    /// Handlers of random ranges that go to the beginnings of pieces.
    pub fn handlers(&mut self) -> Vec<Handler> {
        let length = self.code.len();
        let mut handlers = Vec::new();
        for _ in 0..self.random.below(4) {
            let from = self.random.below(length.min(6));
            let to = self.random.within(from + 1..=length);
            let target = self.random.pick(&self.starts) as u8;
            let class = self.random.pick(&[0, 1, 1, 2, 3, 4, self.tables.classes - 1]);
            handlers.push(Handler::new(from as u8, to as u8, target, class));
        }
        if self.random.once_in(2) {
            let target = self.random.pick(&self.starts) as u8;
            handlers.push(Handler::new(0, length as u8, target, 1));
        }
        handlers
    }
}
