//! The generated texts: answers as meant, and every kind of answer among them.

use compare::generate::suite;
use compare::opcode::{BINOP, CHECK_CAST, IF, UNOP};
use compare::program::Program;
use compare::reader::{read, MAX_LENGTH};
use std::collections::BTreeSet;

fn programs() -> Vec<Program> {
    suite().concat().iter().filter_map(|case| read(&case.text).ok()).collect()
}

#[test]
fn answers_are_as_meant() {
    for case in suite().concat() {
        if let Some(meant) = case.meant {
            let text = String::from_utf8_lossy(&case.text);
            assert_eq!(read(&case.text).map(|_| ()), meant, "{text}");
        }
    }
}

#[test]
fn every_run_makes_the_same_texts() {
    let texts = || -> Vec<Vec<u8>> { suite().concat().into_iter().map(|case| case.text).collect() };
    assert_eq!(texts(), texts());
}

#[test]
fn every_answer_is_there() {
    let mut counts = [0; 7];
    for case in suite().concat() {
        counts[read(&case.text).map_or_else(|refusal| refusal.number, |_| 0) as usize] += 1;
    }
    assert!(counts[0] >= 500, "{counts:?}");
    assert!(counts[1] >= 4, "{counts:?}");
    assert!(counts[2..].iter().all(|&count| count > 50), "{counts:?}");
    assert!(suite().concat().iter().any(|case| case.text.len() == MAX_LENGTH));
    assert!(suite().concat().iter().any(|case| case.text.len() == MAX_LENGTH + 1));
}

#[test]
fn every_operation_is_read_somewhere() {
    let instructions: Vec<_> =
        programs().into_iter().flat_map(|p| p.methods).flat_map(|m| m.code).collect();
    let opcodes: BTreeSet<u8> = instructions.iter().map(|i| i.o).collect();
    assert!(opcodes.into_iter().eq(0..=CHECK_CAST));
    let of = |o| instructions.iter().filter(move |i| i.o == o);
    assert!(of(IF).map(|i| i.c).collect::<BTreeSet<_>>().into_iter().eq(0..12));
    assert!(of(UNOP).map(|i| i.c).collect::<BTreeSet<_>>().into_iter().eq(0..2));
    assert!(of(BINOP).map(|i| i.d).collect::<BTreeSet<_>>().into_iter().eq(0..11));
}

#[test]
fn the_largest_program_is_there() {
    assert!(programs().iter().any(|p| {
        (p.classes.len(), p.fields.len(), p.statics, p.methods.len()) == (60, 16, 16, 16)
            && p.methods.iter().all(|m| (m.code.len(), m.handlers.len()) == (32, 8))
    }));
}

#[test]
fn a_read_program_writes_its_own_text() {
    for case in suite().concat() {
        if let Ok(program) = read(&case.text) {
            assert_eq!(program.text(), case.text);
        }
    }
}
