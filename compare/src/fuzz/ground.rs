//! A program with texts of claims that are accepted, from which cases are
//! made by changes.

use crate::claim::write::ClaimFrame;
use crate::claim::{digits, Claim, OTHER, STATE, ZERO};
use crate::least::{close, greatest, least};
use crate::machine::run::Machine;
use crate::machine::state::Limits;
use crate::program::Program;
use crate::random::Random;

/// Runs are tried for this many steps.
pub const PROBE: u64 = 5_000;

/// Masks are chosen by group, so that none is lost among the others: states
/// at address 0, other states, fields, statics, returned, leaving.
const GROUPS: usize = 6;

pub struct Ground {
    pub program: Program,
    pub text: Vec<u8>,
    pub least: Vec<u8>,
    pub greatest: Vec<u8>,
    /// More than the least claim, less than the greatest.
    pub between: Vec<u8>,
    /// Where the masks of each group lie in a claim's text.
    groups: [Vec<Mask>; GROUPS],
    /// Steps until the run stops, at most [`PROBE`].
    pub steps: u64,
}

/// The place of a mask's digits, and the bits it may have.
#[derive(Clone, Copy, Debug)]
pub struct Mask {
    at: usize,
    pub allowed: u64,
}

impl Mask {
    pub fn get(self, claim: &[u8]) -> u64 {
        let digits = claim[self.at..].first_chunk().and_then(digits::mask);
        digits.expect("a claim of the ground has digits here")
    }

    pub fn set(self, claim: &mut [u8], mask: u64) {
        let digits = mask.to_be_bytes().map(crate::frame::digits);
        claim[self.at..self.at + 16].copy_from_slice(digits.as_flattened());
    }
}

impl Ground {
    pub fn new(random: &mut Random, program: Program) -> Ground {
        let least = least(&program);
        let groups = groups(&least.frames(&program), &program);
        let mut ground = Ground {
            text: program.text(),
            least: least.text(&program),
            greatest: greatest(&program).text(&program),
            between: Vec::new(),
            groups,
            steps: steps(&program),
            program,
        };
        ground.between = ground.between(random, least);
        ground
    }

    /// A claim that is accepted, with some bits more and what they ask for.
    fn between(&self, random: &mut Random, mut claim: Claim) -> Vec<u8> {
        for _ in 0..random.within(1..=6) {
            let method = random.below(self.program.methods.len());
            let address = random.below(self.program.methods[method].code.len());
            let row = claim.row_mut(method, address);
            let place = random.below(row.len());
            let class = 1 << random.below(self.program.classes.len());
            row[place] |= random.pick(&[class, class, ZERO, OTHER]);
            if random.once_in(3) {
                claim.leaving[method] |= class;
            }
        }
        close(&self.program, claim).text(&self.program)
    }

    /// A mask of a group that has one.
    pub fn mask(&self, random: &mut Random) -> Mask {
        loop {
            let group = &self.groups[random.below(GROUPS)];
            if !group.is_empty() {
                return random.pick(group);
            }
        }
    }

    pub fn masks(&self) -> impl Iterator<Item = Mask> + '_ {
        self.groups.iter().flatten().copied()
    }
}

/// The masks of a claim's frames by their groups.
fn groups(frames: &[ClaimFrame], program: &Program) -> [Vec<Mask>; GROUPS] {
    let mut groups: [Vec<Mask>; GROUPS] = Default::default();
    let mut at = 0;
    for frame in frames {
        let group = match frame.kind() {
            STATE => usize::from(frame.head[2] != 0),
            kind => usize::from(kind - STATE) + 1,
        };
        at += 2 * frame.head.len();
        for _ in &frame.masks {
            groups[group].push(Mask { at, allowed: frame.allowed(program) });
            at += 16;
        }
        at += 1;
    }
    groups
}

/// Steps until the run stops, at most [`PROBE`].
pub fn steps(program: &Program) -> u64 {
    let mut machine = Machine::new(program, Limits::STEPPER);
    machine.run(PROBE);
    machine.steps
}
