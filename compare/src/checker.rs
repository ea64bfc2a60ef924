//! The checker: whether a claim keeps every rule for a program, and the calls
//! that it allows.
//!
//! The text of the program is read, then that of the claim; [`sets`] are made
//! of the program once, and [`rules`] are asked at every address.

mod rules;
pub(crate) mod sets;

use crate::claim::{self, Claim, ZERO};
use crate::program::Program;
use crate::reader;
use crate::Refusal;
use rules::Rules;
use sets::{elements, Methods, Sets};

/// The least length of lent memory: a call of every method at every address.
pub const LEAST_MEMORY: usize = 16 * 32 * 16 * CALL;

/// Bytes of a call in memory: caller, address, callee.
pub const CALL: usize = 3;

#[derive(Clone, Copy, Debug, PartialEq, Eq)]
pub enum Verdict {
    /// The count of calls, which lie at the front of memory.
    Accepted(usize),
    Violated(Violation),
    /// 1 to 6 for the program, 9 to 13 for the claim, 23 for too little
    /// memory.
    Refused(Refusal),
}

/// The first broken rule, by method, then address, then rule.
#[derive(Clone, Copy, Debug, PartialEq, Eq)]
pub struct Violation {
    pub rule: u8,
    pub method: u8,
    pub address: u8,
}

/// The calls made at one address.
#[derive(Clone, Copy)]
struct Site {
    caller: u8,
    address: u8,
    callees: Methods,
}

impl Verdict {
    /// Number (34 accepted, 35 violated), then the count of calls, or rule,
    /// method and address, or the line; 0 where there is no such value.
    pub fn words(&self) -> [u64; 5] {
        match *self {
            Verdict::Accepted(count) => [34, count as u64, 0, 0, 0],
            Verdict::Violated(Violation { rule, method, address }) => {
                [35, rule.into(), method.into(), address.into(), 0]
            }
            Verdict::Refused(refusal) => refusal.words(),
        }
    }
}

impl From<Refusal> for Verdict {
    fn from(refusal: Refusal) -> Verdict {
        Verdict::Refused(refusal)
    }
}

/// Checks a claim for a program. Memory is written only if it is accepted,
/// and not past the calls.
pub fn check(program_text: &[u8], claim_text: &[u8], memory: &mut [u8]) -> Verdict {
    match calls(program_text, claim_text, memory.len()) {
        Ok(sites) => Verdict::Accepted(lay(&sites, memory)),
        Err(verdict) => verdict,
    }
}

/// The calls of an accepted claim, or the other verdict.
fn calls(program_text: &[u8], claim_text: &[u8], lent: usize) -> Result<Vec<Site>, Verdict> {
    let program = reader::read(program_text)?;
    let claim = claim::read::read(claim_text, &program)?;
    if lent < LEAST_MEMORY {
        return Err(Refusal::new(23, 0).into());
    }
    examine(&program, &claim).map_err(Verdict::Violated)
}

/// Asks every rule, in the order of reports.
fn examine(program: &Program, claim: &Claim) -> Result<Vec<Site>, Violation> {
    let sets = Sets::new(program);
    if !zeros_are_in_storage(&sets, claim) {
        return Err(Violation { rule: 0, method: 0, address: 0 });
    }
    let rules = Rules { program, claim, sets: &sets };
    let mut sites = Vec::new();
    for (caller, method) in (0..).zip(&program.methods) {
        for address in 0..method.code.len() as u8 {
            match rules.at(usize::from(caller), usize::from(address)) {
                Ok(0) => {}
                Ok(callees) => sites.push(Site { caller, address, callees }),
                Err(rule) => return Err(Violation { rule, method: caller, address }),
            }
        }
    }
    Ok(sites)
}

/// Rule 0: bit 62 is in every field and static mask.
fn zeros_are_in_storage(sets: &Sets, claim: &Claim) -> bool {
    let in_field = |(masks, &having): (&claim::ByClass, &u64)| {
        elements(having).fold(ZERO, |common, class| common & masks[class]) == ZERO
    };
    claim.fields.iter().zip(&sets.having).all(in_field)
        && claim.statics.iter().all(|mask| mask & ZERO != 0)
}

/// Writes the calls, callees of one address in rising order: their count.
fn lay(sites: &[Site], memory: &mut [u8]) -> usize {
    let mut places = memory.chunks_exact_mut(CALL);
    let mut count = 0;
    for site in sites {
        for (callee, place) in elements(site.callees.into()).zip(&mut places) {
            place.copy_from_slice(&[site.caller, site.address, callee as u8]);
            count += 1;
        }
    }
    count
}
