//! The generated cases for the writer: answers as meant, and every answer
//! among them.

use compare::checker::{check, Verdict, LEAST_MEMORY};
use compare::generate_writes::{suite, written_programs, Case, Meant, MOST_LENT};
use compare::opcode::LAST;
use compare::program::Program;
use compare::reader::read;
use compare::writer::{text_length, write_claim, Written};
use std::collections::{BTreeMap, BTreeSet, HashSet};

#[test]
fn answers_are_as_meant() {
    for case in suite().concat() {
        let before: Vec<u8> = (0..case.lent).map(|place| (place % 251) as u8).collect();
        let mut memory = before.clone();
        let answer = write_claim(&case.program, &mut memory);
        match &case.meant {
            Meant::Text(text) => {
                assert_eq!(answer, Written::Text(text.len()));
                assert!(memory[..text.len()] == text[..]);
                assert!(memory[text.len()..] == before[text.len()..]);
                let verdict = check(&case.program, text, &mut [0; LEAST_MEMORY]);
                assert!(matches!(verdict, Verdict::Accepted(_)), "{verdict:?}");
            }
            Meant::Refused(refusal) => {
                assert_eq!(answer, Written::Refused(*refusal));
                assert!(memory == before);
            }
        }
    }
}

#[test]
fn every_run_makes_the_same_cases() {
    let records =
        || suite().concat().into_iter().map(|case| (case.program, case.lent)).collect::<Vec<_>>();
    let cases = records();
    assert_eq!(records(), cases);
    let distinct: HashSet<_> = cases.iter().collect();
    assert_eq!(distinct.len(), cases.len());
}

#[test]
fn every_answer_is_there_in_its_group() {
    let mut counts: BTreeMap<(usize, u8), usize> = BTreeMap::new();
    for (group, cases) in suite().iter().enumerate() {
        for case in cases {
            let number = match &case.meant {
                Meant::Text(_) => 0,
                Meant::Refused(refusal) => refusal.number,
            };
            *counts.entry((group, number)).or_default() += 1;
        }
    }
    assert!(counts[&(0, 0)] >= 60 && counts[&(1, 0)] >= 500, "{counts:?}");
    assert!((2..=6).all(|number| counts[&(2, number)] >= 20), "{counts:?}");
    assert!(
        counts[&(2, 1)] >= 2 && counts[&(2, 23)] >= 200 && counts[&(2, 0)] >= 100,
        "{counts:?}"
    );
    assert!(counts[&(3, 0)] >= 10 && counts[&(3, 23)] >= 3, "{counts:?}");
}

/// Lengths around that of the text: none, one byte less, just enough, more.
#[test]
fn lengths_are_those_wanted() {
    let mut around = BTreeSet::new();
    for Case { program, lent, .. } in suite().concat() {
        match read(&program) {
            Ok(program) => {
                let length = text_length(&program);
                around.insert(lent as i64 - length as i64);
                around.extend((lent == 0).then_some(i64::MIN));
            }
            Err(_) => around.extend((lent == 0).then_some(i64::MAX)),
        }
        assert!(lent <= MOST_LENT);
    }
    assert!([i64::MIN, -2, -1, 0, 1, 2, 17, i64::MAX].iter().all(|place| around.contains(place)));
}

#[test]
fn written_programs_have_every_opcode_and_the_largest_are_there() {
    let opcodes: BTreeSet<u8> = written_programs()
        .iter()
        .flat_map(|program| &program.methods)
        .flat_map(|method| &method.code)
        .map(|instruction| instruction.o)
        .collect();
    assert!(opcodes.into_iter().eq(0..=LAST));
    let [.., largest] = suite();
    let programs: Vec<Program> =
        largest.iter().filter_map(|case| read(&case.program).ok()).collect();
    assert!(programs.iter().any(|program| text_length(program) == 165_936));
    assert!(programs.iter().any(|p| {
        (p.classes.len(), p.fields.len(), p.statics, p.methods.len()) == (60, 16, 16, 16)
            && p.methods.iter().all(|m| (m.code.len(), m.handlers.len()) == (32, 8))
    }));
}
