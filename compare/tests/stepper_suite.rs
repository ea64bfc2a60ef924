//! The generated cases for the stepper: answers as meant, and everything that
//! a run can meet among them.

use compare::coverage::{wanted, Coverage};
use compare::generate_steps::{suite, Case, GREATEST, LEAST};
use compare::machine::{step, Answer, MAX_STEPS};

/// Longer runs are left to the program that makes the cases.
const LONG: u64 = 20_000;

fn number(case: &Case) -> u8 {
    let [mut frames, mut objects, mut statics] = case.lent.map(|length| vec![0; length]);
    match step(&case.text, case.n, &mut frames, &mut objects, &mut statics) {
        Answer::Refused(refusal) => refusal.number,
        Answer::Started(report) => report.number,
    }
}

#[test]
fn answers_are_as_meant_and_everything_is_reached() {
    let mut coverage = Coverage::default();
    for case in suite().concat().iter().filter(|case| case.n <= LONG) {
        let number = number(case);
        if let Some(meant) = case.meant {
            let text = String::from_utf8_lossy(&case.text);
            assert_eq!(number, meant, "n = {}\n{text}", case.n);
        }
        coverage.add(case, number);
    }
    for name in wanted() {
        assert!(coverage.reached.contains_key(&name), "{name}");
    }
}

#[test]
fn every_run_makes_the_same_cases() {
    let records = || -> Vec<_> {
        suite().concat().into_iter().map(|case| (case.text, case.n, case.lent)).collect()
    };
    assert_eq!(records(), records());
}

#[test]
fn counts_and_lengths_are_those_wanted() {
    let cases = suite().concat();
    assert!((3_000..=4_600).contains(&cases.len()), "{}", cases.len());
    for n in [0, 1, MAX_STEPS, MAX_STEPS + 1, u64::MAX] {
        assert!(cases.iter().any(|case| case.n == n), "{n}");
    }
    for which in 0..3 {
        let lent = |length| cases.iter().any(|case| case.lent[which] == length);
        assert!([0, LEAST[which] - 1, LEAST[which], GREATEST[which]].into_iter().all(lent));
        assert!(cases.iter().all(|case| case.lent[which] <= GREATEST[which]));
    }
}
