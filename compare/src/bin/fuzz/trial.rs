//! A case tried with both implementations.

use super::library;
use compare::fuzz::differ::{difference, follow, Difference};
use compare::fuzz::left::{Expected, Left};
use compare::fuzz::lengths::ANSWER;
use compare::fuzz::table::{Found, Table};
use compare::fuzz::written::{accepted, within, written, Checked};
use compare::fuzz::Case;
use compare::machine::structs::Structs;
use std::panic::{catch_unwind, AssertUnwindSafe};

/// Tries a case and counts it. A panic differs from every answer.
pub fn try_case(case: &Case, table: &mut Table) -> Result<(), Difference> {
    catch_unwind(AssertUnwindSafe(|| compared(case, table))).unwrap_or_else(|_| {
        let [expected, got] = ["an answer", "none"].map(String::from);
        Err(Difference { what: "a panic".to_string(), expected, got })
    })
}

/// Makes the calls of both: what differs, or what is counted.
fn compared(case: &Case, table: &mut Table) -> Result<(), Difference> {
    let before = Left::before(case);
    let got = proved(case, before.clone());
    let expected = Expected::of(case, before);
    if let Some(difference) = difference(&expected.left, &got) {
        return Err(difference);
    }
    let found = Found {
        followed: follow(case, &expected, &got)?,
        written_calls: check_written(case, &expected, &got)?,
        is_least: within(case, &expected, &got)?,
    };
    table.add_case(case, &expected, &found);
    Ok(())
}

/// Both check the claim that was written: the calls they list.
fn check_written(case: &Case, expected: &Expected, got: &Left) -> Result<usize, Difference> {
    let Some(claim) = written(expected, got) else {
        return Ok(0);
    };
    let by_library = Checked::by(|memory| {
        let mut answer = [0; ANSWER];
        library::check(&case.program, claim, memory, &mut answer);
        answer
    });
    accepted(&Checked::of(&case.program, claim), &by_library)
}

/// What the calls of the proved implementation leave; `left` is as before
/// them.
fn proved(case: &Case, mut left: Left) -> Left {
    let read = library::read(left.program.lent(), left.read_answer.lent_mut());
    let memory = Structs {
        frames: left.frames.lent_mut(),
        objects: left.objects.lent_mut(),
        statics: left.statics.lent_mut(),
    };
    let step = library::step(left.program.lent(), case.n, memory, left.step_answer.lent_mut());
    let check = library::check(
        left.program.lent(),
        left.claim.lent(),
        left.memory.lent_mut(),
        left.check_answer.lent_mut(),
    );
    let write = library::write_claim(
        left.program.lent(),
        left.text.lent_mut(),
        left.write_answer.lent_mut(),
    );
    left.numbers = [read, step, check, write];
    left
}
