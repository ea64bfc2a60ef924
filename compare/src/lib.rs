//! A second implementation of panel programs, to compare answers with.
//!
//! * [`program`]: the structured program, and its [`opcode`]s;
//! * [`handlers`]: the numbers of handlers, and the search among them;
//! * [`assembly`]: programs written down in Rust, and [`raising`], those of
//!   instructions that raise, and [`catching`], those of many handlers;
//! * [`frame`]: one line of a text as bytes, and back;
//! * [`reader`]: text to program, or the refusal (numbers 1 to 4 there,
//!   numbers 5 and 6 in [`values`]);
//! * [`machine`]: the stepper, and the run of a program;
//! * [`claim`]: the claim, and its text;
//! * [`checker`]: whether a claim keeps the rules, and [`report`], what the
//!   tool prints of that;
//! * [`least`]: the least claim that keeps them, and [`inside`], whether a run
//!   stays inside a claim;
//! * [`writer`]: the least claim again, fast, as a text in lent memory;
//! * [`digest`]: an answer as one printed line;
//! * [`generate`]: the texts that both readers answer, with [`random`] numbers
//!   where they are to be many;
//! * [`generate_steps`]: the runs that both steppers make, and [`coverage`],
//!   what they reach;
//! * [`generate_claims`]: the claims that both checkers judge;
//! * [`generate_writes`]: the programs whose claims both write;
//! * [`fuzz`]: random and damaged inputs for both, and what is compared.

#![forbid(unsafe_code)]

pub mod assembly;
pub mod catching;
pub mod checker;
pub mod claim;
pub mod coverage;
pub mod digest;
pub mod frame;
pub mod fuzz;
pub mod generate;
pub mod generate_claims;
pub mod generate_steps;
pub mod generate_writes;
pub mod handlers;
pub mod inside;
pub mod least;
pub mod machine;
pub mod opcode;
pub mod program;
pub mod raising;
pub mod random;
pub mod reader;
pub mod report;
pub mod values;
pub mod writer;

/// Why a text is refused: a number, and the line from 1 (0 for the length).
///
/// Of a program:
/// 1. it is too long;
/// 2. a line is empty, has another byte than digits, an odd count of them, or
///    no line end;
/// 3. a frame has an unknown kind or a wrong length;
/// 4. a frame is out of order, one too many, or missing;
/// 5. a field's value is not allowed;
/// 6. a method's last instruction falls through.
///
/// Of a claim:
/// 9. it is too long;
/// 10. a line is not one, as 2;
/// 11. a frame has an unknown kind;
/// 12. a frame is not the one due, one too many, or missing;
/// 13. a mask has a bit that is not allowed.
///
/// And of the memory lent to the stepper, the checker or the writer: 23, there
/// is too little.
#[derive(Clone, Copy, Debug, PartialEq, Eq, PartialOrd, Ord)]
pub struct Refusal {
    pub number: u8,
    pub line: u32,
}

impl Refusal {
    pub fn new(number: u8, line: u32) -> Refusal {
        Refusal { number, line }
    }

    /// As an answer: number, line, zeros.
    pub fn words(&self) -> [u64; 5] {
        [self.number.into(), self.line.into(), 0, 0, 0]
    }
}
