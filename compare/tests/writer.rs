//! The writer: its claim is accepted, and it is the least of those that are.

use compare::assembly::{program, *};
use compare::checker::{check, Verdict, LEAST_MEMORY};
use compare::claim::read::read as read_claim;
use compare::claim::{class_bits, Claim, NUMBERS, OTHER, ZERO};
use compare::fuzz::source::Source;
use compare::generate::{largest_program, suite};
use compare::generate_claims::{calling_program, random_calls, storing_program, written_programs};
use compare::generate_steps;
use compare::least::{addresses, close, first_broken, greatest, least};
use compare::program::{Handler, Program};
use compare::random::Random;
use compare::reader::read;
use compare::writer::{least_claim, text_length, write_claim, Written};
use std::collections::HashSet;

/// The text that is written into memory of just its length.
fn written(program: &Program) -> Vec<u8> {
    let mut memory = vec![0; text_length(program)];
    assert_eq!(write_claim(&program.text(), &mut memory), Written::Text(memory.len()));
    memory
}

/// The programs of the suites, each once.
fn suites() -> Vec<Program> {
    let texts = suite().concat().into_iter().map(|case| case.text);
    let runs = generate_steps::suite().concat().into_iter().map(|case| case.text);
    let mut seen = HashSet::new();
    let mut programs = written_programs();
    let different = texts.chain(runs).filter(|text| seen.insert(text.clone()));
    programs.extend(different.filter_map(|text| read(&text).ok()));
    programs
}

/// Programs of the fuzzer's kinds, and of calls and throws.
fn random_programs(seed: u64, count: u64) -> Vec<Program> {
    let mut source = Source::new(seed);
    let mut random = Random::new(seed);
    let mut programs: Vec<Program> =
        (0..count).filter_map(|number| read(&source.case(7 * number).program).ok()).collect();
    programs.extend((0..count / 4).map(|_| random_calls(&mut random)));
    programs.extend((0..count / 16).map(|_| generate_steps::likely_program(&mut random)));
    programs
}

#[test]
fn the_claim_of_every_program_of_the_suites_is_the_least() {
    let programs = suites();
    assert!(programs.len() > 1_000, "{}", programs.len());
    for program in programs {
        assert!(least_claim(&program) == least(&program), "{}", text(&program));
        assert!(written(&program) == least(&program).text(&program), "{}", text(&program));
    }
}

#[test]
fn the_claim_of_random_and_of_the_largest_programs_is_the_least() {
    let mut programs = random_programs(31, 800);
    programs.extend([storing_program(), calling_program(), largest_program()]);
    for program in programs {
        assert!(written(&program) == least(&program).text(&program), "{}", text(&program));
    }
}

fn text(program: &Program) -> String {
    String::from_utf8_lossy(&program.text()).into_owned()
}

#[test]
fn the_checker_accepts_what_is_written_and_the_reader_reads_it_back() {
    for program in random_programs(32, 400) {
        let claim_text = written(&program);
        let mut memory = vec![0; LEAST_MEMORY];
        let verdict = check(&program.text(), &claim_text, &mut memory);
        assert!(matches!(verdict, Verdict::Accepted(_)), "{verdict:?}\n{}", text(&program));
        let claim = read_claim(&claim_text, &program).expect("a claim");
        assert!(claim == least_claim(&program), "{}", text(&program));
        assert_eq!(claim.text(&program), claim_text);
    }
}

/// An accepted claim: random bits, and what they ask for.
fn accepted(random: &mut Random, program: &Program) -> Claim {
    let mut claim = Claim::empty(program);
    let (classes, seldom) = (class_bits(program), random.pick(&[2, 8, 40]));
    for (method, address) in addresses(program) {
        for mask in claim.row_mut(method, address) {
            if random.once_in(seldom) {
                *mask |= random.next_u64() & random.next_u64() & (classes | NUMBERS);
            }
        }
    }
    let method = random.below(program.methods.len());
    claim.leaving[method] |= random.next_u64() & classes;
    claim.returned[method] |= random.next_u64() & classes;
    claim.statics.iter_mut().for_each(|mask| *mask |= random.next_u64() & classes);
    close(program, claim)
}

#[test]
fn no_accepted_claim_lies_below_the_written_one() {
    let mut random = Random::new(33);
    for program in random_programs(33, 240) {
        let least = least_claim(&program);
        let other = accepted(&mut random, &program);
        assert!(least.is_within(&other), "{:?}", least.outside(&other, &program));
        assert!(least.is_within(&greatest(&program)));
        assert!(least == other || !other.is_within(&least));
        assert_eq!(least.outside(&other, &program), None);
    }
}

#[test]
fn the_common_part_of_two_accepted_claims_is_accepted() {
    let mut random = Random::new(34);
    let mut differ = 0;
    for program in random_programs(34, 240) {
        let (one, other) = (accepted(&mut random, &program), accepted(&mut random, &program));
        let common = one.clone().common(&other);
        differ += usize::from(common != one && common != other);
        assert_eq!(first_broken(&program, &common), None, "{}", text(&program));
        let verdict = check(&program.text(), &common.text(&program), &mut [0; LEAST_MEMORY]);
        assert!(matches!(verdict, Verdict::Accepted(_)), "{verdict:?}");
        assert!(common.is_within(&one) && common.is_within(&other));
        assert!(least_claim(&program).is_within(&common));
    }
    assert!(differ > 100, "{differ}");
}

/// A class around a loop, into a callee, and back as an exception; each mask
/// by hand.
#[test]
fn a_claim_by_hand() {
    let main = vec![invoke_static(1, 1, 0), constant(0, 7), goto(0), move_exception(0), goto(0)];
    let callee = vec![new_instance(0, 2), throw(0), give(1)];
    let methods = vec![
        main_method(1, main).with_handlers(vec![Handler::new(0, 1, 3, 2)]),
        static_method(1, 2, 1, callee),
    ];
    let claim = least_claim(&program(&[0, 1], &[], 0, methods));
    let object = 1 << moved(2);
    let any = ZERO | OTHER | object;
    // The callee has no way to its return: nothing comes back.
    assert_eq!(claim.row(0, 0), [any, ZERO | object]);
    assert_eq!(claim.row(0, 1), [any, 0]);
    assert_eq!(claim.row(0, 2), [OTHER, 0]);
    assert_eq!(claim.row(0, 3), [any, object]);
    assert_eq!(claim.row(0, 4), [object, object]);
    assert_eq!(claim.row(1, 0), [ZERO, any, ZERO]);
    assert_eq!(claim.row(1, 1), [object, any, ZERO]);
    assert_eq!(claim.row(1, 2), [0, 0, 0]);
    assert_eq!((claim.returned, claim.leaving), (vec![0, 0], vec![0, object]));
}

/// Null and a division by zero are caught, a failed cast leaves; each mask by
/// hand.
#[test]
fn a_claim_of_what_is_raised_by_hand() {
    let code = vec![
        branch_zero(EQ, 1, 2),
        new_instance(0, 5),
        iget(1, 0, 0),
        give(1),
        check_cast(0, 2),
        binop(REM, 1, 1, 1),
        give(0),
    ];
    let handlers = vec![Handler::new(2, 3, 4, 2), Handler::new(5, 6, 6, 1)];
    let main = main_method(2, code).with_handlers(handlers);
    let claim = least_claim(&whole_program(&[0, 1, 1, 1, 0], &[5], 0, vec![main]));
    let [null, arithmetic, cast, object] = [2, 3, 4, 5].map(|class| 1 << class);
    assert_eq!([claim.row(0, 0), claim.row(0, 1)], [[ZERO; 3]; 2]);
    assert_eq!(claim.row(0, 2), [ZERO | object, ZERO, ZERO]);
    assert_eq!(claim.row(0, 3), [ZERO | object, ZERO, ZERO]);
    assert_eq!(claim.row(0, 4), [ZERO | object, ZERO, null]);
    assert_eq!(claim.row(0, 5), [ZERO, ZERO, null]);
    assert_eq!(claim.row(0, 6), [ZERO, NUMBERS, null | arithmetic]);
    assert_eq!((claim.fields[0][5], claim.returned[0], claim.leaving[0]), (ZERO, ZERO, cast));
}
