//! Masks that grow from none until every rule is kept.
//!
//! Each rule says what flows where, and nothing else ever grows: so what is
//! reached is the least claim. An address is visited again when a mask that it
//! reads has grown, and only grown masks flow on.

mod calls;
mod effects;

use super::addresses::{Addresses, Worklist};
use super::sites::{Site, Sites, Slots, METHODS};
use crate::checker::sets::{elements, Sets};
use crate::claim::{Claim, ZERO};
use crate::program::Program;

pub struct Solver<'p> {
    program: &'p Program,
    sets: &'p Sets,
    sites: Sites,
    claim: Claim,
    seen: Vec<Seen>,
    /// The calls that lead to each method.
    callers: [Addresses; METHODS],
    worklist: Worklist,
}

/// What the visits of an address know.
#[derive(Clone, Copy, Default)]
struct Seen {
    /// Slots that have grown since the last visit.
    grown: Slots,
    /// Handlers that take a class here, as bits by number.
    taking: u8,
    /// Classes whose fields were looked at.
    fields: u64,
    /// Classes that were raised here.
    raised: u64,
}

impl<'p> Solver<'p> {
    pub fn new(program: &'p Program, sets: &'p Sets) -> Solver<'p> {
        let claim = Claim::empty(program);
        let sites = Sites::new(program, &claim);
        Solver {
            program,
            sets,
            seen: vec![Seen::default(); sites.all.len()],
            sites,
            claim,
            callers: [Addresses::default(); METHODS],
            worklist: Worklist::default(),
        }
    }

    /// The least claim that keeps every rule.
    pub fn solved(mut self) -> Claim {
        self.zeros();
        for number in 0..self.sites.all.len() {
            self.begin(number, self.sites.all[number]);
        }
        while let Some(number) = self.worklist.take() {
            self.visit(number, self.sites.all[number]);
        }
        self.claim
    }

    /// Rules 0 and 1.
    fn zeros(&mut self) {
        for (masks, &having) in self.claim.fields.iter_mut().zip(&self.sets.having) {
            elements(having).for_each(|class| masks[class] = ZERO);
        }
        (0..self.claim.statics.len()).for_each(|number| self.store(number, ZERO));
        for (number, method) in self.program.methods.iter().enumerate() {
            let own = method.registers - method.arguments;
            for slot in (0..own).chain([method.registers]) {
                self.grow(self.sites.entries[number], usize::from(slot), ZERO);
            }
        }
    }

    fn visit(&mut self, number: usize, site: Site) {
        let grown = std::mem::take(&mut self.seen[number].grown);
        self.flow(site, grown & site.next, number + 1);
        self.flow(site, grown & site.jump, usize::from(site.target));
        if grown & site.reads != 0 {
            self.apply(number, site, grown);
        }
        for handler in elements(self.seen[number].taking.into()) {
            self.flow(site, grown & site.registers(), self.handler_target(site, handler));
        }
    }

    /// These masks of an address flow into those of another one.
    #[inline]
    fn flow(&mut self, site: Site, slots: Slots, to: usize) {
        if slots == 0 {
            return;
        }
        let (from, into) = (usize::from(site.row), usize::from(self.sites.all[to].row));
        let mut grown = 0;
        for slot in elements(slots.into()) {
            let bits = self.claim.states[from + slot];
            let mask = &mut self.claim.states[into + slot];
            grown |= Slots::from(bits & !*mask != 0) << slot;
            *mask |= bits;
        }
        self.wait(to, grown);
    }

    /// Bits for one mask.
    #[inline]
    fn grow(&mut self, site: usize, slot: usize, bits: u64) {
        let mask = &mut self.claim.states[usize::from(self.sites.all[site].row) + slot];
        let grown = Slots::from(bits & !*mask != 0) << slot;
        *mask |= bits;
        self.wait(site, grown);
    }

    /// An address of which slots have grown is to be visited.
    #[inline]
    fn wait(&mut self, site: usize, grown: Slots) {
        if grown != 0 {
            self.seen[site].grown |= grown;
            self.worklist.insert(site);
        }
    }

    #[inline]
    fn mask(&self, site: Site, register: u8) -> u64 {
        self.claim.states[usize::from(site.row) + usize::from(register)]
    }
}
