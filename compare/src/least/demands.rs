//! What the rules ask for: bits in masks.

mod calls;
mod exceptions;
mod flow;

use super::classes::classes_having;
use crate::claim::{Claim, ZERO};
use crate::program::Program;

/// Bits that a rule asks for in a mask, and the address where it does.
#[derive(Clone, Copy, Debug)]
pub struct Demand {
    pub method: usize,
    pub address: usize,
    pub rule: u8,
    pub place: Place,
    pub bits: u64,
}

/// A mask of the claim.
#[derive(Clone, Copy, Debug)]
pub enum Place {
    /// Method, address and register; the result comes after the registers.
    Register(usize, usize, usize),
    Field(u8, usize),
    Static(usize),
    Returned(usize),
    Leaving(usize),
}

impl Demand {
    fn mask<'c>(&self, claim: &'c mut Claim) -> &'c mut u64 {
        match self.place {
            Place::Register(method, address, register) => {
                &mut claim.row_mut(method, address)[register]
            }
            Place::Field(class, field) => &mut claim.fields[field][usize::from(class)],
            Place::Static(number) => &mut claim.statics[number],
            Place::Returned(method) => &mut claim.returned[method],
            Place::Leaving(method) => &mut claim.leaving[method],
        }
    }

    pub fn is_met(&self, claim: &Claim) -> bool {
        let mask = match self.place {
            Place::Register(method, address, register) => claim.row(method, address)[register],
            Place::Field(class, field) => claim.fields[field][usize::from(class)],
            Place::Static(number) => claim.statics[number],
            Place::Returned(method) => claim.returned[method],
            Place::Leaving(method) => claim.leaving[method],
        };
        mask | self.bits == mask
    }

    pub fn meet(&self, claim: &mut Claim) {
        *self.mask(claim) |= self.bits;
    }
}

/// Rules 0 and 1, which ask for the same bits of every claim.
pub fn everywhere(program: &Program) -> Vec<Demand> {
    let zero = |rule, method, place| Demand { method, address: 0, rule, place, bits: ZERO };
    let mut demands = Vec::new();
    for field in 0..program.fields.len() {
        let classes = classes_having(program, field);
        demands.extend(classes.map(|class| zero(0, 0, Place::Field(class, field))));
    }
    demands.extend((0..program.statics).map(|number| zero(0, 0, Place::Static(number))));
    for (number, method) in program.methods.iter().enumerate() {
        let registers = usize::from(method.registers);
        let own = 0..registers - usize::from(method.arguments);
        let places = own.chain([registers]);
        demands.extend(places.map(|place| zero(1, number, Place::Register(number, 0, place))));
    }
    demands
}

/// Rules 2 to 10 at one address of a claim.
pub fn at_address(program: &Program, claim: &Claim, method: usize, address: usize) -> Vec<Demand> {
    let row = claim.row(method, address);
    let mut asking = Asking { program, claim, method, address, row, demands: Vec::new() };
    asking.flow();
    asking.effects();
    asking.demands
}

/// An address of a claim, and the demands found so far.
struct Asking<'a> {
    program: &'a Program,
    claim: &'a Claim,
    method: usize,
    address: usize,
    /// Masks of the registers and, last, of the result.
    row: &'a [u64],
    demands: Vec<Demand>,
}

impl Asking<'_> {
    fn ask(&mut self, rule: u8, place: Place, bits: u64) {
        let Asking { method, address, .. } = *self;
        self.demands.push(Demand { method, address, rule, place, bits });
    }

    fn mask(&self, register: u8) -> u64 {
        self.row[usize::from(register)]
    }

    /// The same register, or the result, at another address of the method.
    fn at(&self, address: usize, register: usize) -> Place {
        Place::Register(self.method, address, register)
    }

    fn result(&self) -> usize {
        self.row.len() - 1
    }

    fn classes(&self) -> std::ops::Range<u8> {
        0..self.program.classes.len() as u8
    }
}
