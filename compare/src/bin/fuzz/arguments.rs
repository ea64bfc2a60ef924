//! The arguments of the command line.

use std::path::PathBuf;
use std::time::Duration;

pub const USAGE: &str =
    "usage: fuzz [--cases N] [--seconds S] [--seed X] [--only I] [--files FOLDER]";

const CASES: u64 = 100_000;
const SEED: u64 = 1;

#[derive(Debug, PartialEq, Eq)]
pub struct Arguments {
    pub cases: u64,
    pub seconds: Option<Duration>,
    pub seed: u64,
    /// The only case that is tried, by its number.
    pub only: Option<u64>,
    /// Where the files of a case go.
    pub files: Option<PathBuf>,
}

impl Arguments {
    /// None if an argument is unknown, has no value, or not one of its kind.
    pub fn read(mut given: impl Iterator<Item = String>) -> Option<Arguments> {
        let mut arguments =
            Arguments { cases: CASES, seconds: None, seed: SEED, only: None, files: None };
        while let Some(name) = given.next() {
            let value = given.next()?;
            match name.as_str() {
                "--cases" => arguments.cases = value.parse().ok()?,
                "--seconds" => arguments.seconds = Some(Duration::from_secs(value.parse().ok()?)),
                "--seed" => arguments.seed = value.parse().ok()?,
                "--only" => arguments.only = Some(value.parse().ok()?),
                "--files" => arguments.files = Some(value.into()),
                _ => return None,
            }
        }
        Some(arguments)
    }
}

#[cfg(test)]
mod tests {
    use super::*;

    fn read(given: &str) -> Option<Arguments> {
        Arguments::read(given.split_whitespace().map(String::from))
    }

    #[test]
    fn each_has_its_place() {
        let all = read("--cases 7 --seconds 8 --seed 9 --only 10 --files a/b").unwrap();
        let expected = Arguments {
            cases: 7,
            seconds: Some(Duration::from_secs(8)),
            seed: 9,
            only: Some(10),
            files: Some("a/b".into()),
        };
        assert_eq!(all, expected);
        assert_eq!(read("").map(|none| (none.cases, none.seed)), Some((CASES, SEED)));
    }

    #[test]
    fn others_are_not_taken() {
        for bad in ["--cases", "--cases x", "--cases -1", "--seconds 1.5", "--case 1", "7"] {
            assert_eq!(read(bad), None, "{bad}");
        }
    }
}
