//! The texts for the reader and the answers to them, and how many texts there
//! are of each answer.

use compare::digest::describe;
use compare::generate::suite;
use compare::reader::read;
use std::path::Path;
use std::{fs, io};

/// A file's limit in bytes.
const MAX_FILE: usize = 1_000_000;

/// Writes the texts and gives the answers.
pub fn make(data: &Path) -> io::Result<Vec<u8>> {
    let mut answers = String::new();
    let mut counts = [0; 7]; // by refusal number; 0 counts programs
    for (number, cases) in suite().iter().enumerate() {
        let mut records = Vec::new();
        for case in cases {
            let answer = read(&case.text);
            if let Some(meant) = case.meant {
                let given = answer.as_ref().map(|_| ()).map_err(|refusal| *refusal);
                assert_eq!(given, meant, "{}", String::from_utf8_lossy(&case.text));
            }
            counts[answer.as_ref().map_or_else(|refusal| refusal.number, |_| 0) as usize] += 1;
            answers.push_str(&describe(&answer));
            answers.push('\n');
            let length = u32::try_from(case.text.len()).expect("a text is short");
            records.extend(length.to_be_bytes());
            records.extend(&case.text);
        }
        assert!(records.len() <= MAX_FILE, "file {number} has {} bytes", records.len());
        fs::write(data.join(format!("texts{number}.bin")), &records)?;
        println!("texts{number}.bin {:>6} texts {:>8} bytes", cases.len(), records.len());
    }

    println!("all       {:>6}", counts.iter().sum::<i32>());
    println!("read      {:>6}", counts[0]);
    for (number, count) in counts.iter().enumerate().skip(1) {
        println!("refused {number} {count:>6}");
    }
    Ok(answers.into_bytes())
}
