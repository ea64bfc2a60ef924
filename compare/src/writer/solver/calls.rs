//! Rules 6, 7, 9 and 10: calls, and exceptions.

use super::super::sites::CALLEES;
use super::{Site, Slots, Solver};
use crate::checker::sets::{elements, falling_elements};

impl Solver<'_> {
    /// Every call of a method is to be visited.
    pub(super) fn call_back(&mut self, method: usize) {
        for number in self.callers[method].iter() {
            self.wait(number, CALLEES);
        }
    }

    pub(super) fn static_call(&mut self, number: usize, site: Site, grown: Slots) {
        let callee = usize::from(site.instruction.a);
        self.pass(site, callee, grown & site.reads & !CALLEES);
        if grown & CALLEES != 0 {
            self.come_back(number, site, callee);
        }
    }

    /// The receiver gives each callee only the classes that lead there.
    pub(super) fn virtual_call(&mut self, number: usize, site: Site, grown: Slots) {
        let i = site.instruction;
        let sets = self.sets;
        let others = site.reads & !CALLEES & !(1 << i.c);
        for (callee, classes) in sets.callees(i.a, i.b, self.mask(site, i.c)) {
            let receiver = self.program.methods[callee].registers - i.b;
            self.grow(self.sites.entries[callee], usize::from(receiver), classes);
            let is_new = self.callers[callee].insert(number);
            self.pass(site, callee, if is_new { others } else { others & grown });
            if is_new || grown & CALLEES != 0 {
                self.come_back(number, site, callee);
            }
        }
    }

    /// Rule 6: these arguments into the callee's parameters.
    fn pass(&mut self, site: Site, callee: usize, arguments: Slots) {
        let i = site.instruction;
        let first = usize::from(self.program.methods[callee].registers - i.b);
        for slot in elements(arguments.into()) {
            let parameter = first + slot - usize::from(i.c);
            self.grow(self.sites.entries[callee], parameter, self.mask(site, slot as u8));
        }
    }

    /// Rules 7, 9 and 10 of a call.
    fn come_back(&mut self, number: usize, site: Site, callee: usize) {
        self.grow(number + 1, usize::from(site.result), self.claim.returned[callee]);
        self.raise(number, site, self.claim.leaving[callee]);
    }

    /// Rules 9 and 10 for those of these classes that were not raised here
    /// before.
    pub(super) fn raise(&mut self, number: usize, site: Site, classes: u64) {
        let seen = self.seen[number];
        let mut new = classes & !seen.raised;
        if new == 0 {
            return;
        }
        self.seen[number].raised |= new;
        let method = &self.program.methods[usize::from(site.method)];
        // Of the handlers that fit a class the highest number takes it.
        for handler in falling_elements(site.handlers.into()) {
            let caught = new & self.sets.below[usize::from(method.handler(handler).class)];
            if caught == 0 {
                continue;
            }
            new &= !caught;
            let target = self.handler_target(site, handler);
            self.grow(target, usize::from(site.result), caught);
            if seen.taking >> handler & 1 == 0 {
                self.seen[number].taking |= 1 << handler;
                self.flow(site, site.registers(), target);
            }
        }
        let method = usize::from(site.method);
        if new & !self.claim.leaving[method] != 0 {
            self.claim.leaving[method] |= new;
            self.call_back(method);
        }
    }

    /// The site that the handler of this number goes to.
    pub(super) fn handler_target(&self, site: Site, handler: usize) -> usize {
        let method = usize::from(site.method);
        let target = self.program.methods[method].handler(handler).target;
        self.sites.entries[method] + usize::from(target)
    }
}
