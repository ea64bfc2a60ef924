//! Tries the proved implementation against this one on random and damaged
//! inputs, and prints what was reached.

mod arguments;
mod files;
#[path = "../library/mod.rs"]
mod library;
mod trial;

use arguments::{Arguments, USAGE};
use compare::fuzz::differ::Difference;
use compare::fuzz::source::Source;
use compare::fuzz::table::Table;
use compare::fuzz::Case;
use std::process::ExitCode;
use std::time::Instant;
use trial::try_case;

/// From so many cases on, every line of the table is to be reached.
const MANY: u64 = 100_000;

/// After so many cases a line says how far it is.
const PROGRESS: u64 = 50_000;

fn main() -> ExitCode {
    let Some(arguments) = Arguments::read(std::env::args().skip(1)) else {
        eprintln!("{USAGE}");
        return ExitCode::from(2);
    };
    println!("seed {}", arguments.seed);
    let mut source = Source::new(arguments.seed);
    match arguments.only {
        Some(index) => only(&arguments, &mut source, index),
        None => all(&arguments, &mut source),
    }
}

/// All cases, until one differs or the time is over.
fn all(arguments: &Arguments, source: &mut Source) -> ExitCode {
    let start = Instant::now();
    let in_time = || arguments.seconds.is_none_or(|seconds| start.elapsed() < seconds);
    let mut table = Table::default();
    let mut tried = 0;
    while tried < arguments.cases && in_time() {
        let case = source.case(tried);
        if let Err(difference) = try_case(&case, &mut table) {
            return report(arguments, tried, &case, Some(&difference));
        }
        tried += 1;
        if tried % PROGRESS == 0 {
            eprintln!("{tried} cases, {} seconds", start.elapsed().as_secs());
        }
    }
    print!("{}", table.text());
    println!("no difference, {:.1} seconds", start.elapsed().as_secs_f64());
    let missing = table.missing();
    if tried >= MANY && !missing.is_empty() {
        eprintln!("never: {}", missing.join("; "));
        return ExitCode::FAILURE;
    }
    ExitCode::SUCCESS
}

/// One case, whose files are written whether it differs or not.
fn only(arguments: &Arguments, source: &mut Source, index: u64) -> ExitCode {
    let case = source.case(index);
    let difference = try_case(&case, &mut Table::default()).err();
    report(arguments, index, &case, difference.as_ref())
}

/// Prints what differs, and writes the files.
fn report(
    arguments: &Arguments,
    index: u64,
    case: &Case,
    difference: Option<&Difference>,
) -> ExitCode {
    let heading = format!("seed {}, case {index}", arguments.seed);
    println!("{heading}");
    match difference {
        Some(difference) => println!("{difference}"),
        None => println!("no difference"),
    }
    let given = arguments.files.clone();
    let folder = given.unwrap_or_else(|| files::folder(arguments.seed, index));
    match files::write(&folder, &heading, case, difference) {
        Ok(paths) => paths.iter().for_each(|path| println!("{}", path.display())),
        Err(error) => eprintln!("{}: {error}", folder.display()),
    }
    match difference {
        Some(_) => ExitCode::FAILURE,
        None => ExitCode::SUCCESS,
    }
}
