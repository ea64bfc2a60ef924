//! Makes the texts for the reader, the runs for the stepper, the checks for the
//! checker, the programs for the writer and the answers to them, and prints how
//! many there are of each kind.

use std::path::Path;
use std::{fs, io};

mod checks;
mod runs;
mod texts;
mod writes;

fn main() -> io::Result<()> {
    let target = Path::new(env!("CARGO_MANIFEST_DIR")).join("../crates/compare_cases");
    let data = target.join("data");
    fs::create_dir_all(&data)?;
    let answers =
        [texts::make(&data)?, runs::make(&data)?, checks::make(&data)?, writes::make(&data)?];
    fs::write(target.join("stdout"), answers.concat())
}
