//! The checks for the checker and the answers to them, and how many checks
//! there are of each verdict.

use compare::checker::{check, Verdict};
use compare::digest::memory_sum;
use compare::generate_claims::{suite, Case};
use compare::report::report;
use std::collections::BTreeMap;
use std::path::Path;
use std::{fs, io};

/// The limit of all files together, and of a text, in bytes.
const MAX_ALL: usize = 4_500_000;
const MAX_TEXT: usize = 262_200;

/// Byte i of memory is i modulo this before the call.
const FILL: usize = 251;

/// Writes the checks and gives the answers.
pub fn make(data: &Path) -> io::Result<Vec<u8>> {
    let mut answers = Vec::new();
    let mut counts = BTreeMap::new();
    let (mut bytes, mut all) = (0, 0);
    for (number, cases) in suite().iter().enumerate() {
        let mut records = Vec::new();
        for case in cases {
            answers.extend(answer(case, &mut counts));
            records.extend(record(case));
        }
        fs::write(data.join(format!("checks{number}.bin")), &records)?;
        println!("checks{number}.bin {:>6} cases {:>8} bytes", cases.len(), records.len());
        bytes += records.len();
        all += cases.len();
    }
    assert!(bytes <= MAX_ALL, "all files have {bytes} bytes");
    println!("all         {all:>6} cases {bytes:>8} bytes");

    for name in wanted() {
        let count = counts.get(&name).copied().unwrap_or(0);
        println!("{name:<12} {count:>6}");
        assert!(count > 0, "no case is {name}");
    }
    Ok(answers)
}

/// The verdicts that there are to be.
fn wanted() -> Vec<String> {
    let rules = (0..=10).map(|rule| format!("violated {rule}"));
    let refusals = (1..=6).chain(9..=13).chain([23]).map(|number| format!("refused {number}"));
    std::iter::once("accepted".to_string()).chain(rules).chain(refusals).collect()
}

/// What the tool prints, then the checksum of the memory.
fn answer(case: &Case, counts: &mut BTreeMap<String, usize>) -> Vec<u8> {
    let mut memory: Vec<u8> = (0..case.lent).map(|place| (place % FILL) as u8).collect();
    let verdict = check(&case.program, &case.claim, &mut memory);
    if !case.meant.fits(verdict) {
        let [program, claim] = [&case.program, &case.claim].map(|t| String::from_utf8_lossy(t));
        panic!("{verdict:?}, meant {:?}\n{program}\n{claim}", case.meant);
    }
    let name = match verdict {
        Verdict::Accepted(_) => "accepted".to_string(),
        Verdict::Violated(violation) => format!("violated {}", violation.rule),
        Verdict::Refused(refusal) => format!("refused {}", refusal.number),
    };
    *counts.entry(name).or_default() += 1;
    let mut answer = report(&verdict, &memory);
    answer.extend(format!("{:08x}\n", memory_sum(&memory)).into_bytes());
    answer
}

/// Both texts, each after its length, and the length of memory; four bytes a
/// length, high byte first.
fn record(case: &Case) -> Vec<u8> {
    let mut record = Vec::new();
    for text in [&case.program, &case.claim] {
        assert!(text.len() <= MAX_TEXT, "a text has {} bytes", text.len());
        record.extend((text.len() as u32).to_be_bytes());
        record.extend(text);
    }
    record.extend((case.lent as u32).to_be_bytes());
    record
}
