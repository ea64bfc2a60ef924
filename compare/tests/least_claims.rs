//! Least and greatest claims are accepted, and a least claim has no bit too
//! many.

use compare::assembly::{program, *};
use compare::catching;
use compare::checker::{check, Verdict, Violation, LEAST_MEMORY};
use compare::claim::write::text;
use compare::claim::{Claim, NUMBERS, ZERO};
use compare::generate::suite;
use compare::generate_claims::{random_calls, written_programs};
use compare::generate_steps::likely_program;
use compare::least::classes::find;
use compare::least::{addresses, close, first_broken, greatest, least};
use compare::opcode::{INVOKE_STATIC, INVOKE_VIRTUAL};
use compare::program::Program;
use compare::raising::chains;
use compare::random::Random;
use compare::reader::read;
use std::collections::BTreeSet;

/// The calls of an accepted claim, or the violation.
fn checked(program: &Program, claim: &[u8]) -> Result<Vec<[u8; 3]>, Violation> {
    let mut memory = vec![0; LEAST_MEMORY];
    match check(&program.text(), claim, &mut memory) {
        Verdict::Accepted(count) => {
            Ok(memory.chunks(3).take(count).map(|call| [call[0], call[1], call[2]]).collect())
        }
        Verdict::Violated(violation) => Err(violation),
        Verdict::Refused(refusal) => panic!("{refusal:?}"),
    }
}

/// The calls of a claim, one class of a receiver at a time.
fn calls(program: &Program, claim: &Claim) -> BTreeSet<[u8; 3]> {
    let mut calls = BTreeSet::new();
    for (method, address) in addresses(program) {
        let i = program.methods[method].code[address];
        let mut call = |callee: usize| calls.insert([method as u8, address as u8, callee as u8]);
        if i.o == INVOKE_STATIC {
            call(usize::from(i.a));
        }
        if i.o == INVOKE_VIRTUAL {
            let receiver = claim.row(method, address)[usize::from(i.c)];
            for class in (0..60).filter(|class| receiver >> class & 1 == 1) {
                find(program, class, i.a, i.b).map(&mut call);
            }
        }
    }
    calls
}

/// Written programs, random ones, and those of the reader's texts.
fn programs() -> Vec<Program> {
    let mut random = Random::new(91);
    let mut programs = [written_programs(), chains(), catching::programs()].concat();
    programs.extend((0..40).map(|_| likely_program(&mut random)));
    programs.extend((0..60).map(|_| random_calls(&mut random)));
    programs.extend(suite()[0].iter().filter_map(|case| read(&case.text).ok()));
    programs
}

#[test]
fn least_and_greatest_claims_are_accepted_with_all_their_calls() {
    for program in programs() {
        for claim in [least(&program), greatest(&program)] {
            let given = checked(&program, &claim.text(&program));
            let expected: Vec<_> = calls(&program, &claim).into_iter().collect();
            assert_eq!(given, Ok(expected));
            assert_eq!(first_broken(&program, &claim), None);
        }
    }
}

/// Without any single bit a rule is broken, the same one for the checker and
/// for the rules one by one.
#[test]
fn no_bit_of_a_least_claim_can_be_missed() {
    for program in [written_programs(), chains(), catching::programs()].concat() {
        let frames = least(&program).frames(&program);
        for frame in 0..frames.len() {
            for place in 0..frames[frame].masks.len() {
                for bit in (0..64).filter(|bit| frames[frame].masks[place] >> bit & 1 == 1) {
                    let mut frames = frames.clone();
                    frames[frame].masks[place] &= !(1 << bit);
                    let claim = text(&frames);
                    let violation = checked(&program, &claim).expect_err("a bit is missing");
                    let claim = compare::claim::read::read(&claim, &program).unwrap();
                    assert_eq!(first_broken(&program, &claim), Some(violation));
                }
            }
        }
    }
}

/// Claims with a few bits more and less than the least or the greatest one.
#[test]
fn the_checker_and_the_rules_one_by_one_agree() {
    let mut random = Random::new(92);
    let mut broken = [0; 11];
    for program in programs() {
        for round in 0..12 {
            let claim = if round < 8 { least(&program) } else { greatest(&program) };
            let mut frames = claim.frames(&program);
            for _ in 0..random.within(1..=3) {
                let place = random.below(frames.len());
                let frame = &mut frames[place];
                let allowed = frame.allowed(&program);
                let bits: Vec<u32> = (0..64).filter(|bit| allowed >> bit & 1 == 1).collect();
                let place = random.below(frame.masks.len());
                frame.masks[place] ^= 1 << random.pick(&bits);
            }
            let claim = text(&frames);
            let violation = checked(&program, &claim).err();
            let claim = compare::claim::read::read(&claim, &program).unwrap();
            assert_eq!(first_broken(&program, &claim), violation);
            violation.inspect(|violation| broken[usize::from(violation.rule)] += 1);
        }
    }
    assert!(broken.iter().all(|&count| count >= 10), "{broken:?}");
}

#[test]
fn the_least_claim_of_a_small_program() {
    // A new object into a field and back; class 0 has the field too.
    let code = vec![new_instance(0, 1), iput(0, 0, 0), iget(1, 0, 0), give(1)];
    let program = program(&[0], &[0], 1, vec![main_method(2, code)]);
    let claim = least(&program);
    let object = 1 << 1;
    assert_eq!(claim.row(0, 0), [ZERO, ZERO, ZERO]);
    assert_eq!(claim.row(0, 1), [object, ZERO, ZERO]);
    assert_eq!(claim.row(0, 2), [object, ZERO, ZERO]);
    assert_eq!(claim.row(0, 3), [object, ZERO | object, ZERO]);
    assert_eq!(claim.fields[0][..2], [ZERO, ZERO | object]);
    assert_eq!(claim.statics, [ZERO]);
    assert_eq!(claim.returned, [ZERO | object]);
    assert_eq!(claim.leaving, [0]);
}

#[test]
fn a_closed_claim_has_what_was_put_in_and_what_follows() {
    let code = vec![nop(), sput(0, 0), sget(1, 0), return_void()];
    let program = program(&[0], &[], 1, vec![main_method(2, code)]);
    let mut claim = Claim::empty(&program);
    claim.row_mut(0, 1)[0] = NUMBERS | 1;
    let claim = close(&program, claim);
    assert_eq!(claim.row(0, 0), [ZERO; 3]);
    assert_eq!(claim.row(0, 2), [NUMBERS | 1, ZERO, ZERO]);
    assert_eq!(claim.row(0, 3), [NUMBERS | 1, NUMBERS | 1, ZERO]);
    assert_eq!(claim.statics, [NUMBERS | 1]);
}
