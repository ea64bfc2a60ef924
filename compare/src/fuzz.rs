//! Random and damaged inputs for two implementations, and what is compared.
//!
//! * [`source`] makes the cases in several [`ways`], of the suites' texts
//!   ([`pool`]) and of random [`programs`] ([`crowds`] among them), each a
//!   [`ground`] to be changed ([`damage`], [`limits`]), with [`claims`] and
//!   [`lengths`];
//! * [`lent`] is memory with guards, [`left`] what the calls leave in it,
//!   [`differ`] where two of them differ, and [`written`] what holds of a claim
//!   that was written;
//! * [`watch`] and [`table`], with its [`lines`], say what was reached.
//!
//! Nothing here calls another implementation.

pub mod claims;
pub mod crowds;
pub mod damage;
pub mod differ;
pub mod ground;
pub mod left;
pub mod lengths;
pub mod lent;
pub mod limits;
pub mod lines;
mod names;
pub mod pool;
pub mod programs;
pub mod source;
pub mod table;
pub mod watch;
pub mod ways;
pub mod written;

use lengths::Lengths;

/// One call of the reader, the stepper, the checker and the writer.
#[derive(Clone, Debug, PartialEq, Eq)]
pub struct Case {
    pub program: Vec<u8>,
    pub claim: Vec<u8>,
    pub n: u64,
    pub lent: Lengths,
    /// What memory is filled with before.
    pub salt: u64,
    /// Steps of the run that are followed if the claim is accepted.
    pub follow: u64,
    /// How the program and the claim were made.
    pub made: [&'static str; 2],
}
