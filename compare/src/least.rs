//! The least claim that keeps every rule for a program, and the greatest.
//!
//! The rules are written down one by one as document 01 has them, as
//! [`demands`] for bits: they are met until nothing changes. Nothing here is
//! the checker's, so that each tests the other.

pub mod classes;
pub mod demands;

use crate::checker::Violation;
use crate::claim::{class_bits, Claim, NUMBERS};
use crate::program::Program;
use classes::classes_having;
use demands::{at_address, everywhere, Demand};

/// The least claim that is accepted.
pub fn least(program: &Program) -> Claim {
    close(program, Claim::empty(program))
}

/// The least claim that is accepted and has all bits of this one.
pub fn close(program: &Program, mut claim: Claim) -> Claim {
    everywhere(program).iter().for_each(|demand| demand.meet(&mut claim));
    let mut places: Vec<(usize, usize)> = addresses(program).collect();
    let mut grows = true;
    while grows {
        grows = false;
        for &(method, address) in &places {
            for demand in at_address(program, &claim, method, address) {
                grows |= !demand.is_met(&claim);
                demand.meet(&mut claim);
            }
        }
        // What flows backward gets far in every other round.
        places.reverse();
    }
    claim
}

/// The first demand that is not met, by method, address and rule; rule 0
/// comes before all others.
pub fn first_broken(program: &Program, claim: &Claim) -> Option<Violation> {
    let mut all = everywhere(program);
    for (method, address) in addresses(program) {
        all.extend(at_address(program, claim, method, address));
    }
    let broken = all.into_iter().filter(|demand| !demand.is_met(claim));
    let place = |&Demand { method, address, rule, .. }: &Demand| (rule != 0, method, address, rule);
    broken.min_by_key(place).map(|Demand { rule, method, address, .. }| Violation {
        rule,
        method: method as u8,
        address: address as u8,
    })
}

/// The claim of all bits that are allowed.
pub fn greatest(program: &Program) -> Claim {
    let classes = class_bits(program);
    let mut claim = Claim::empty(program);
    for (method, address) in addresses(program) {
        claim.row_mut(method, address).fill(classes | NUMBERS);
    }
    for (field, masks) in claim.fields.iter_mut().enumerate() {
        for class in classes_having(program, field) {
            masks[usize::from(class)] = classes | NUMBERS;
        }
    }
    claim.statics.fill(classes | NUMBERS);
    claim.returned.fill(classes | NUMBERS);
    claim.leaving.fill(classes);
    claim
}

/// Every method and address.
pub fn addresses(program: &Program) -> impl Iterator<Item = (usize, usize)> + '_ {
    let lengths = program.methods.iter().map(|method| method.code.len());
    lengths.enumerate().flat_map(|(method, length)| (0..length).map(move |at| (method, at)))
}
