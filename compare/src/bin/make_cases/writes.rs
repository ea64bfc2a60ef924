//! The programs for the writer and the answers to them, and how many cases
//! there are of each answer.

use compare::digest::{describe_written, memory_sum};
use compare::generate_writes::{suite, Case, Meant, MOST_LENT};
use compare::writer::{write_claim, Written};
use std::collections::BTreeMap;
use std::path::Path;
use std::{fs, io};

/// The limit of a file in bytes, and of all files in cases.
const MAX_FILE: usize = 400_000;
const MAX_CASES: usize = 4_000;

/// Byte i of memory is i modulo this before the call.
const FILL: usize = 251;

/// Writes the cases and gives the answers.
pub fn make(data: &Path) -> io::Result<Vec<u8>> {
    let mut answers = String::new();
    let mut counts = BTreeMap::new();
    let (mut bytes, mut all) = (0, 0);
    for (number, cases) in suite().iter().enumerate() {
        let mut records = Vec::new();
        for case in cases {
            answers += &answer(case, &mut counts);
            records.extend(record(case));
        }
        assert!(records.len() <= MAX_FILE, "file {number} has {} bytes", records.len());
        fs::write(data.join(format!("writes{number}.bin")), &records)?;
        println!("writes{number}.bin {:>6} cases {:>8} bytes", cases.len(), records.len());
        bytes += records.len();
        all += cases.len();
    }
    assert!(all <= MAX_CASES, "there are {all} cases");
    println!("all         {all:>6} cases {bytes:>8} bytes");

    let refusals = (1..=6).chain([23]).map(|number| format!("refused {number}"));
    for name in std::iter::once("written".to_string()).chain(refusals) {
        let count = counts.get(&name).copied().unwrap_or(0);
        println!("{name:<12} {count:>6}");
        assert!(count > 0, "no case is {name}");
    }
    Ok(answers.into_bytes())
}

/// The answer's line, then that of the memory's checksum.
fn answer(case: &Case, counts: &mut BTreeMap<String, usize>) -> String {
    let before: Vec<u8> = (0..case.lent).map(|place| (place % FILL) as u8).collect();
    let mut memory = before.clone();
    let answer = write_claim(&case.program, &mut memory);
    let (meant, text) = match &case.meant {
        Meant::Text(text) => (Written::Text(text.len()), &text[..]),
        Meant::Refused(refusal) => (Written::Refused(*refusal), &[][..]),
    };
    let program = String::from_utf8_lossy(&case.program);
    assert_eq!(answer, meant, "{program}");
    let (written, rest) = memory.split_at(text.len());
    assert!(written == text && rest == &before[text.len()..], "another byte\n{program}");
    let name = match answer {
        Written::Text(_) => "written".to_string(),
        Written::Refused(refusal) => format!("refused {}", refusal.number),
    };
    *counts.entry(name).or_default() += 1;
    format!("{}\n{:08x}\n", describe_written(&answer), memory_sum(&memory))
}

/// The program after its length, and the length of memory; four bytes a
/// length, high byte first.
fn record(case: &Case) -> Vec<u8> {
    assert!(case.lent <= MOST_LENT, "{} bytes are lent", case.lent);
    let mut record = (case.program.len() as u32).to_be_bytes().to_vec();
    record.extend(&case.program);
    record.extend((case.lent as u32).to_be_bytes());
    record
}
