//! The files of a case.

use compare::fuzz::differ::Difference;
use compare::fuzz::Case;
use std::path::{Path, PathBuf};
use std::{fs, io};

/// Where the files go if no folder is given.
pub fn folder(seed: u64, index: u64) -> PathBuf {
    let root = Path::new(env!("CARGO_MANIFEST_DIR")).parent().unwrap_or(Path::new(".."));
    root.join(format!("target/fuzz/{seed}-{index}"))
}

/// Both texts, and the rest of the case after this heading, with what differs;
/// their names.
pub fn write(
    folder: &Path,
    heading: &str,
    case: &Case,
    difference: Option<&Difference>,
) -> io::Result<Vec<PathBuf>> {
    fs::create_dir_all(folder)?;
    let rest = format!("{heading}\n{}", description(case, difference));
    let files =
        [("panel.txt", &case.program), ("claim.txt", &case.claim), ("case.txt", &rest.into())];
    files
        .into_iter()
        .map(|(name, bytes)| {
            let path = folder.join(name);
            fs::write(&path, bytes)?;
            Ok(path)
        })
        .collect()
}

fn description(case: &Case, difference: Option<&Difference>) -> String {
    let lent = &case.lent;
    let numbers = [
        ("n", case.n),
        ("frames lent", lent.frames as u64),
        ("objects lent", lent.objects as u64),
        ("statics lent", lent.statics as u64),
        ("memory of the checker lent", lent.memory as u64),
        ("memory of the writer lent", lent.text as u64),
        ("answer of the reader lent", lent.read_answer as u64),
        ("answer of the stepper lent", lent.step_answer as u64),
        ("answer of the checker lent", lent.check_answer as u64),
        ("answer of the writer lent", lent.write_answer as u64),
        ("salt of the memory", case.salt),
        ("steps followed", case.follow),
    ];
    let mut text: String =
        numbers.iter().map(|(name, number)| format!("{name:<28}{number}\n")).collect();
    text += &format!("program: {}\nclaim: {}\n", case.made[0], case.made[1]);
    match difference {
        Some(difference) => text += &format!("{difference}\n"),
        None => text += "no difference\n",
    }
    text
}
