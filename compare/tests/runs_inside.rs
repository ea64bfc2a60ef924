//! Demand 3: the run of a program stays inside the masks of a claim that is
//! accepted, makes only listed calls, and exceptions leave only as claimed.

use compare::catching;
use compare::checker::{check, Verdict, CALL, LEAST_MEMORY};
use compare::generate_claims::{random_calls, suite, written_programs};
use compare::generate_steps::{self, likely_program};
use compare::inside::{calls, Accepted};
use compare::least::least;
use compare::machine::run::{run_after, Machine};
use compare::machine::state::End;
use compare::program::Program;
use compare::raising::chains;
use compare::random::Random;
use compare::reader::read;
use std::collections::HashSet;

const STEPS: u64 = 400;

fn accepted(program: &[u8], text: &[u8]) -> Option<Accepted> {
    let mut memory = vec![0; LEAST_MEMORY];
    let Verdict::Accepted(count) = check(program, text, &mut memory) else {
        return None;
    };
    let program = read(program).ok()?;
    let claim = compare::claim::read::read(text, &program).ok()?;
    let calls = calls(&memory[..count * CALL]);
    Some(Accepted { program, claim, calls })
}

fn accepted_least(program: &Program) -> Accepted {
    let claim = least(program).text(program);
    accepted(&program.text(), &claim).expect("a least claim is accepted")
}

/// Follows a run, and gives its last state.
fn follow(accepted: &Accepted, steps: u64) -> Machine {
    accepted.follow(steps).unwrap_or_else(|outside| panic!("{outside}"))
}

#[test]
fn runs_stay_inside_least_claims() {
    let mut random = Random::new(95);
    let mut programs = [written_programs(), chains(), catching::programs()].concat();
    programs.extend((0..150).map(|_| likely_program(&mut random)));
    programs.extend((0..100).map(|_| random_calls(&mut random)));
    let mut seen = HashSet::new();
    let texts = generate_steps::suite().concat().into_iter().map(|case| case.text);
    let others = texts.filter(|text| seen.insert(text.clone())).filter_map(|text| read(&text).ok());
    programs.extend(others.step_by(5));
    assert!(programs.len() >= 400, "{}", programs.len());
    let mut ends = [0; 4];
    for program in &programs {
        let last = follow(&accepted_least(program), STEPS);
        ends[match last.end {
            None => 0,
            Some(End::Done) => 1,
            Some(End::Uncaught) => 2,
            Some(End::Fault(_)) => 3,
        }] += 1;
        let again = run_after(program, STEPS);
        assert_eq!((last.frames, last.steps, last.end), (again.frames, again.steps, again.end));
    }
    assert!(ends.iter().all(|&count| count >= 10), "{ends:?}");
}

#[test]
fn runs_stay_inside_every_accepted_claim_of_the_cases() {
    let mut count = 0;
    for case in suite().concat() {
        if let Some(accepted) = accepted(&case.program, &case.claim) {
            follow(&accepted, 100);
            count += 1;
        }
    }
    assert!(count >= 400, "{count}");
}

/// A claim that a run leaves is not accepted: without a bit that the run
/// needs, the test above fails.
#[test]
fn a_run_leaves_a_claim_that_is_too_small() {
    let program = written_programs().remove(0);
    let mut given = accepted_least(&program);
    given.claim.row_mut(0, 1)[0] = 0;
    assert!(given.state(&run_after(&program, 1)).is_err());
    assert!(given.state(&run_after(&program, 0)).is_ok());
    assert!(given.follow(1).is_err());
}
