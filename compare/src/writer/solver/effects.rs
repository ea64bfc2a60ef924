//! Rules 4, 5 and 8: what an instruction writes, stores and returns; and what it
//! raises.

use super::super::sites::CALLEES;
use super::{Site, Slots, Solver};
use crate::checker::sets::elements;
use crate::claim::{NUMBERS, OTHER, ZERO};
use crate::opcode::*;

impl Solver<'_> {
    /// What an instruction does whatever the masks are.
    pub(super) fn begin(&mut self, number: usize, site: Site) {
        let i = site.instruction;
        match i.o {
            CONST => self.write(number, site, if i.d == 0 { ZERO } else { OTHER }),
            NEW_INSTANCE => self.write(number, site, 1 << i.b),
            INSTANCE_OF => self.write(number, site, NUMBERS),
            RETURN_VOID => self.give(site, ZERO),
            INVOKE_STATIC => {
                self.callers[usize::from(i.a)].insert(number);
                self.wait(number, CALLEES);
            }
            _ => {}
        }
    }

    /// What an instruction does with masks that have grown.
    pub(super) fn apply(&mut self, number: usize, site: Site, grown: Slots) {
        let i = site.instruction;
        let numbers = |mask: u64| mask & NUMBERS != 0;
        match i.o {
            MOVE => self.write(number, site, self.mask(site, i.b)),
            UNOP if numbers(self.mask(site, i.b)) => self.write(number, site, NUMBERS),
            BINOP if numbers(self.mask(site, i.b)) && numbers(self.mask(site, i.c)) => {
                self.write(number, site, NUMBERS);
            }
            MOVE_RESULT | MOVE_EXCEPTION => {
                self.write(number, site, self.mask(site, site.result));
            }
            CHECK_CAST => {
                let passing = ZERO | self.sets.below[usize::from(i.b)];
                self.write(number, site, self.mask(site, i.a) & passing);
            }
            IGET => self.get(number, site),
            IPUT => self.put(number, site, grown),
            SPUT => self.store(usize::from(i.b), self.mask(site, i.a)),
            RETURN => self.give(site, self.mask(site, i.a)),
            INVOKE_STATIC => self.static_call(number, site, grown),
            INVOKE_VIRTUAL => self.virtual_call(number, site, grown),
            _ => {}
        }
        let row = &self.claim.states[usize::from(site.row)..][..usize::from(site.result)];
        self.raise(number, site, self.sets.raised(i, row));
    }

    /// Into register a at the next address.
    #[inline]
    fn write(&mut self, number: usize, site: Site, bits: u64) {
        self.grow(number + 1, usize::from(site.instruction.a), bits);
    }

    /// Rule 4 of `iget`, for classes not looked at before: what is put into
    /// the others later, `put` brings.
    fn get(&mut self, number: usize, site: Site) {
        let field = usize::from(site.instruction.c);
        let seen = &mut self.seen[number].fields;
        let new = self.claim.states[usize::from(site.row) + usize::from(site.instruction.b)]
            & self.sets.having[field]
            & !*seen;
        *seen |= new;
        let masks = &self.claim.fields[field];
        let bits = elements(new).fold(0, |bits, class| bits | masks[class]);
        self.write(number, site, bits);
    }

    /// Rule 5 of `iput`: into fields of all its classes if the value has
    /// grown, else of new ones; from there on to every `iget` of them.
    fn put(&mut self, number: usize, site: Site, grown: Slots) {
        let i = site.instruction;
        let field = usize::from(i.c);
        let value = self.mask(site, i.a);
        let having = self.mask(site, i.b) & self.sets.having[field];
        let seen = std::mem::replace(&mut self.seen[number].fields, having);
        let into = if grown >> i.a & 1 == 1 { having } else { having & !seen };
        let mut stored = 0;
        for class in elements(into) {
            let mask = &mut self.claim.fields[field][class];
            stored |= u64::from(value & !*mask != 0) << class;
            *mask |= value;
        }
        if stored == 0 {
            return;
        }
        for number in self.sites.igets[field].iter() {
            let iget = self.sites.all[number];
            if self.mask(iget, iget.instruction.b) & stored != 0 {
                self.write(number, iget, value);
            }
        }
    }

    /// Into a static, and on to every `sget` of it.
    pub(super) fn store(&mut self, number: usize, bits: u64) {
        let mask = &mut self.claim.statics[number];
        if bits & !*mask != 0 {
            *mask |= bits;
            for number in self.sites.sgets[number].iter() {
                self.write(number, self.sites.all[number], bits);
            }
        }
    }

    /// Rule 8.
    fn give(&mut self, site: Site, bits: u64) {
        let method = usize::from(site.method);
        let mask = &mut self.claim.returned[method];
        if bits & !*mask != 0 {
            *mask |= bits;
            self.call_back(method);
        }
    }
}
