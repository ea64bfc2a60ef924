//! The generated cases for the checker: verdicts as meant, and every verdict
//! among them.

use compare::checker::{check, Verdict, LEAST_MEMORY};
use compare::claim::MAX_LENGTH;
use compare::generate_claims::{suite, Case};
use compare::least::first_broken;
use compare::reader::read;
use std::collections::{BTreeMap, BTreeSet};

/// The verdict; memory has the calls of an accepted claim, and nothing else is
/// touched.
fn verdict(case: &Case) -> Verdict {
    let before: Vec<u8> = (0..case.lent).map(|place| (place % 251) as u8).collect();
    let mut memory = before.clone();
    let verdict = check(&case.program, &case.claim, &mut memory);
    let written = match verdict {
        Verdict::Accepted(count) => 3 * count,
        _ => 0,
    };
    assert_eq!(memory[written..], before[written..]);
    let calls: Vec<&[u8]> = memory[..written].chunks(3).collect();
    assert!(calls.windows(2).all(|pair| pair[0] < pair[1]), "{calls:?}");
    verdict
}

#[test]
fn verdicts_are_as_meant_and_as_the_rules_one_by_one_say() {
    for case in suite().concat() {
        let verdict = verdict(&case);
        let claim = String::from_utf8_lossy(&case.claim);
        assert!(case.meant.fits(verdict), "{verdict:?}, meant {:?}\n{claim}", case.meant);
        if let Ok(program) = read(&case.program) {
            if let Ok(claim) = compare::claim::read::read(&case.claim, &program) {
                let broken = match verdict {
                    Verdict::Violated(violation) => Some(violation),
                    Verdict::Refused(_) => continue,
                    Verdict::Accepted(_) => None,
                };
                assert_eq!(first_broken(&program, &claim), broken);
            }
        }
    }
}

#[test]
fn every_run_makes_the_same_cases() {
    let records = || -> Vec<_> {
        suite().concat().into_iter().map(|case| (case.program, case.claim, case.lent)).collect()
    };
    assert_eq!(records(), records());
}

#[test]
fn every_verdict_is_there_and_rules_are_broken_at_many_places() {
    let mut rules: BTreeMap<u8, Vec<(u8, u8)>> = BTreeMap::new();
    let mut refusals: BTreeMap<u8, usize> = BTreeMap::new();
    for case in suite().concat() {
        match verdict(&case) {
            Verdict::Accepted(_) => {}
            Verdict::Violated(v) => rules.entry(v.rule).or_default().push((v.method, v.address)),
            Verdict::Refused(refusal) => *refusals.entry(refusal.number).or_default() += 1,
        }
    }
    for rule in 0..=10 {
        let places = &rules[&rule];
        assert!(places.len() >= 36, "rule {rule}: {}", places.len());
        let distinct: BTreeSet<_> = places.iter().collect();
        let least = match rule {
            0 => 1,
            1 => 3,
            _ => 10,
        };
        assert!(distinct.len() >= least, "rule {rule}: {distinct:?}");
    }
    let wanted: Vec<u8> = (1..=6).chain(9..=13).chain([23]).collect();
    assert!(refusals.keys().copied().eq(wanted), "{refusals:?}");
    assert!(refusals.iter().all(|(number, &count)| count >= 20 || [1, 9].contains(number)));
}

#[test]
fn counts_and_lengths_are_those_wanted() {
    let cases = suite().concat();
    assert!((3_000..=4_600).contains(&cases.len()), "{}", cases.len());
    for length in [0, 65_537, 165_936, MAX_LENGTH, MAX_LENGTH + 1] {
        let there = |case: &Case| [case.claim.len(), case.program.len()].contains(&length);
        assert!(cases.iter().any(there), "{length}");
    }
    for lent in [0, LEAST_MEMORY - 1, LEAST_MEMORY, LEAST_MEMORY + 1, 65_536] {
        assert!(cases.iter().any(|case| case.lent == lent), "{lent}");
    }
    assert_eq!(LEAST_MEMORY, 24_576);
}
