//! The runs for the stepper and the answers to them, and how many runs reach
//! each number, instruction and condition.

use compare::coverage::{wanted, Coverage};
use compare::digest::describe_steps;
use compare::generate_steps::{suite, Case};
use compare::machine::{step, Answer};
use std::path::Path;
use std::{fs, io};

/// The limit of all files together, in bytes.
const MAX_ALL: usize = 2_000_000;

/// What the words of frames, objects and statics are counted from.
const FIRST_WORDS: [u64; 3] = [4096, 8192, 16384];

/// Writes the runs and gives the answers.
pub fn make(data: &Path) -> io::Result<Vec<u8>> {
    let mut answers = String::new();
    let mut coverage = Coverage::default();
    let mut bytes = 0;
    for (number, cases) in suite().iter().enumerate() {
        let mut records = Vec::new();
        for case in cases {
            answers.push_str(&answer(case, &mut coverage));
            answers.push('\n');
            records.extend(record(case));
        }
        fs::write(data.join(format!("runs{number}.bin")), &records)?;
        println!("runs{number}.bin {:>7} cases {:>8} bytes", cases.len(), records.len());
        bytes += records.len();
    }
    assert!(bytes <= MAX_ALL, "all files have {bytes} bytes");
    println!("all       {:>7} cases {bytes:>8} bytes", answers.lines().count());
    println!("steps {}", coverage.steps);

    for name in wanted() {
        let count = coverage.reached.get(&name).copied().unwrap_or(0);
        println!("{name:<26} {count:>6}");
        assert!(count > 0, "no case reaches {name}");
    }
    Ok(answers.into_bytes())
}

/// The answer's line, and what the case reaches.
fn answer(case: &Case, coverage: &mut Coverage) -> String {
    let [mut frames, mut objects, mut statics] =
        [0, 1, 2].map(|i| (FIRST_WORDS[i]..).take(case.lent[i]).collect::<Vec<u64>>());
    let answer = step(&case.text, case.n, &mut frames, &mut objects, &mut statics);
    let number = match answer {
        Answer::Refused(refusal) => refusal.number,
        Answer::Started(report) => report.number,
    };
    if let Some(meant) = case.meant {
        let text = String::from_utf8_lossy(&case.text);
        assert_eq!(number, meant, "n = {}, lent {:?}\n{text}", case.n, case.lent);
    }
    coverage.add(case, number);
    describe_steps(&answer, [&frames, &objects, &statics])
}

/// Text length, text, n, and the lengths of lent memory, high byte first.
fn record(case: &Case) -> Vec<u8> {
    let mut record = Vec::new();
    record.extend((case.text.len() as u32).to_be_bytes());
    record.extend(&case.text);
    record.extend(case.n.to_be_bytes());
    for length in case.lent {
        record.extend((length as u16).to_be_bytes());
    }
    record
}
