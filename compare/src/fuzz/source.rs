//! Where cases come from: each depends on the seed and its number alone.

use super::claims::claim;
use super::damage::damaged;
use super::ground::Ground;
use super::lengths::{lengths, steps, tame};
use super::limits::{falling_through, long_text, raised_elsewhere, too_few};
use super::limits::{value_at_an_edge, with_count};
use super::pool::Pool;
use super::programs::grounds;
use super::ways::{pick, CLAIMS, PROGRAMS};
use super::Case;
use crate::generate::mutations::change_values;
use crate::random::Random;
use crate::reader::read;
use crate::writer::text_length;

/// So many cases have their programs in common.
const BLOCK: u64 = 64;

pub struct Source {
    seed: u64,
    pool: Pool,
    /// The number of the block, and its grounds.
    block: Option<(u64, Vec<Ground>)>,
}

impl Source {
    pub fn new(seed: u64) -> Source {
        Source { seed, pool: Pool::new(), block: None }
    }

    pub fn case(&mut self, index: u64) -> Case {
        let block = index / BLOCK;
        if self.block.as_ref().is_none_or(|(number, _)| *number != block) {
            let grounds = grounds(&mut self.random(block, 0), &self.pool);
            self.block = Some((block, grounds));
        }
        let mut random = self.random(index, 1);
        let grounds = self.block.as_ref().map_or(&[][..], |(_, grounds)| grounds);
        make(&mut random, grounds, &self.pool)
    }

    /// Numbers for a block (0) or a case (1).
    fn random(&self, index: u64, kind: u64) -> Random {
        let seed = Random::new(self.seed.wrapping_add(kind << 62)).next_u64();
        Random::new(Random::new(seed ^ index).next_u64())
    }
}

fn make(random: &mut Random, grounds: &[Ground], pool: &Pool) -> Case {
    let which = random.below(grounds.len());
    let ground = &grounds[which];
    let mut n = steps(random, ground.steps);
    let mut made = [pick(random, PROGRAMS), pick(random, CLAIMS)];
    let mut claim = claim(random, grounds, which, made[1]);
    let program = match made[0] {
        "of the reader's suite" => pool.text(random),
        "of the stepper's suite" => {
            let (text, of_suite) = pool.run(random);
            n = if random.once_in(2) { of_suite } else { n };
            text
        }
        "of the checker's suite" | "of the checker's suite, largest" => {
            let largest = made[0] != "of the checker's suite";
            let [program, of_suite] = pool.check(random, largest);
            made[1] = "of the checker's suite";
            claim = of_suite;
            program
        }
        "of the writer's suite" | "of the writer's suite, largest" => {
            let largest = made[0] != "of the writer's suite";
            let [program, least] = pool.write(random, largest);
            made[1] = "of the writer's suite";
            claim = least;
            program
        }
        way => program(random, ground, way),
    };
    let n = tame(random, &program, n);
    let text = read(&program).ok().map(|program| text_length(&program));
    let (lent, follow, salt) = (lengths(random, text), followed(random), random.next_u64());
    Case { program, claim, n, lent, salt, follow, made }
}

/// A program of the ground, made in this way.
fn program(random: &mut Random, ground: &Ground, way: &str) -> Vec<u8> {
    let program = &ground.program;
    match way {
        "as made" => ground.text.clone(),
        "values changed" => change_values(random, program.frames()),
        "value at an edge" => value_at_an_edge(random, program),
        "too few frames" => too_few(random, program),
        "classes 2 to 4 elsewhere" => raised_elsewhere(random, program),
        "falling through" => falling_through(random, program),
        "empty" => Vec::new(),
        "too long" => long_text(random, &ground.text),
        _ => with_count(random, program, way)
            .unwrap_or_else(|| damaged(random, ground.text.clone(), way)),
    }
}

/// Steps of an accepted claim's run.
fn followed(random: &mut Random) -> u64 {
    match random.below(200) {
        0 => random.within(1_000..=5_000) as u64,
        _ => random.within(100..=300) as u64,
    }
}
