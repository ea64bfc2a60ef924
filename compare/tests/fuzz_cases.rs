//! The cases of the fuzzer: always the same for a seed and a number, and of
//! all kinds; and the table of what they reach.

use compare::fuzz::differ::follow;
use compare::fuzz::left::{Expected, Left};
use compare::fuzz::lines::{all, Line};
use compare::fuzz::source::Source;
use compare::fuzz::table::{Found, Table};
use compare::fuzz::written::{accepted, within, written, Checked};
use compare::fuzz::Case;

/// Cases whose table is looked at.
const CASES: u64 = 3_000;

/// Runs of more steps are left out here.
const LONG: u64 = 1_000_000;

fn add(table: &mut Table, case: &Case) {
    let expected = Expected::of(case, Left::before(case));
    let left = &expected.left;
    let checked = written(&expected, left).map(|claim| Checked::of(&case.program, claim));
    let calls = checked.map_or(Ok(0), |checked| accepted(&checked, &checked));
    let found = Found {
        followed: follow(case, &expected, left).expect("a run inside the claim"),
        written_calls: calls.expect("the written claim is accepted"),
        is_least: within(case, &expected, left).expect("the written claim is the least"),
    };
    table.add_case(case, &expected, &found);
}

#[test]
fn a_case_depends_on_seed_and_number_alone() {
    let mut source = Source::new(7);
    let numbers = [0, 1, 63, 64, 65, 12_345, u64::MAX];
    let cases = numbers.map(|number| source.case(number));
    for (number, case) in numbers.into_iter().zip(&cases).rev() {
        assert_eq!(source.case(number), *case);
        assert_eq!(numbers.iter().filter(|&&other| source.case(other) == *case).count(), 1);
    }
    let mut other = Source::new(8);
    assert!(numbers.into_iter().zip(&cases).all(|(number, case)| other.case(number) != *case));

    let mut table = Table::default();
    for case in (0..CASES).map(|number| source.case(number)).filter(|case| case.n < LONG) {
        add(&mut table, &case);
    }
    let rare = |name: &&String| name.contains("2^63") || name.contains("1,000,000");
    let missing = table.missing();
    let missing: Vec<&String> = missing.iter().filter(|name| !rare(name)).collect();
    assert!(missing.len() <= 3, "{missing:?}");
}

#[test]
fn an_empty_table_misses_every_line_but_24() {
    let table = Table::default();
    let impossible = all().into_iter().filter(|line| line.is_impossible());
    assert!(impossible.eq([Line::Stopped(24, false)]));
    assert_eq!(table.missing().len(), all().len() - 1);
    let text = table.text();
    assert!(
        text.lines().count() == all().len() && text.lines().all(|line| line.ends_with("never"))
    );
    let widths: Vec<usize> = text.lines().map(str::len).collect();
    assert!(widths.windows(2).all(|pair| pair[0] == pair[1]), "{widths:?}");
}
