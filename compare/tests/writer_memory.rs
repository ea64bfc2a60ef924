//! The writer: its text goes to the front of memory that is enough, and nothing
//! else is touched.

use compare::assembly::SAMPLE;
use compare::generate::suite;
use compare::generate_claims::{storing_program, written_programs};
use compare::least::least;
use compare::reader::read;
use compare::writer::{text_length, write_claim, Written};
use compare::Refusal;
use std::collections::HashSet;

fn pattern(length: usize) -> Vec<u8> {
    (0..length).map(|place| (place % 251) as u8).collect()
}

#[test]
fn memory_of_the_texts_length_is_enough_and_nothing_past_it_is_touched() {
    for program in written_programs() {
        let claim_text = least(&program).text(&program);
        let length = claim_text.len();
        assert_eq!(text_length(&program), length);
        for lent in [length, length + 1, length + 77, 70_000] {
            let mut memory = pattern(lent);
            assert_eq!(write_claim(&program.text(), &mut memory), Written::Text(length));
            assert!(memory[..length] == claim_text && memory[length..] == pattern(lent)[length..]);
        }
        for lent in [0, 1, length / 2, length - 1] {
            let mut memory = pattern(lent);
            let answer = write_claim(&program.text(), &mut memory);
            assert_eq!(answer, Written::Refused(Refusal::new(23, 0)));
            assert_eq!(memory, pattern(lent));
        }
    }
}

#[test]
fn refusals_of_the_program_come_first() {
    let mut numbers = HashSet::new();
    for case in suite().concat() {
        if let Err(refusal) = read(&case.text) {
            numbers.insert(refusal.number);
            for lent in [0, 300] {
                let mut memory = pattern(lent);
                assert_eq!(write_claim(&case.text, &mut memory), Written::Refused(refusal));
                assert_eq!(memory, pattern(lent));
            }
        }
    }
    assert_eq!(numbers, (1..=6).collect());
}

#[test]
fn words_of_an_answer() {
    assert_eq!(Written::Text(165_936).words(), [36, 165_936, 0, 0, 0]);
    assert_eq!(Written::Refused(Refusal::new(5, 9)).words(), [5, 9, 0, 0, 0]);
    assert_eq!(Written::Refused(Refusal::new(23, 0)).words(), [23, 0, 0, 0, 0]);
}

#[test]
fn the_samples_claim_is_written() {
    let mut memory = [b'x'; 240];
    let answer = write_claim(SAMPLE.as_bytes(), &mut memory);
    let zero = "4000000000000000";
    let none = "0000000000000000";
    let expected = format!(
        "110000{zero}{zero}\n110001{zero}{zero}\n110100{zero}{zero}\n\
         1400{zero}\n1401{zero}\n1500{none}\n1501{none}\n"
    );
    assert_eq!(answer, Written::Text(expected.len()));
    assert_eq!(&memory[..expected.len()], expected.as_bytes());
    assert_eq!(&memory[expected.len()..], [b'x'; 39]);
}

#[test]
fn the_longest_text_is_written() {
    let program = storing_program();
    let claim_text = least(&program).text(&program);
    assert_eq!(claim_text.len(), 165_936);
    let mut memory = pattern(165_937);
    assert_eq!(write_claim(&program.text(), &mut memory), Written::Text(165_936));
    assert!(memory[..165_936] == claim_text && memory[165_936] == pattern(165_937)[165_936]);
    let mut memory = pattern(165_935);
    let answer = write_claim(&program.text(), &mut memory);
    assert_eq!(answer, Written::Refused(Refusal::new(23, 0)));
    assert!(memory == pattern(165_935));
}
