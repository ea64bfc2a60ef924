//! The ways in which programs and claims are made, and how often.

use crate::random::Random;

/// Each with its share.
pub type Ways = [(&'static str, usize)];

pub const PROGRAMS: &Ways = &[
    ("as made", 4_800),
    ("values changed", 900),
    ("value at an edge", 700),
    ("too few frames", 140),
    ("classes 2 to 4 elsewhere", 60),
    ("falling through", 170),
    ("60 or 61 classes", 80),
    ("16 or 17 fields", 80),
    ("16 or 17 statics", 80),
    ("16 or 17 methods", 80),
    ("32 or 33 instructions", 80),
    ("8 or 9 handlers", 80),
    ("bytes changed", 170),
    ("lines changed", 170),
    ("digits exchanged", 170),
    ("cut short", 170),
    ("line ends changed", 170),
    ("kinds changed", 170),
    ("empty", 50),
    ("too long", 20),
    ("of the reader's suite", 600),
    ("of the stepper's suite", 500),
    ("of the checker's suite", 600),
    ("of the checker's suite, largest", 10),
    ("of the writer's suite", 300),
    ("of the writer's suite, largest", 6),
];

pub const CLAIMS: &Ways = &[
    ("least", 1_500),
    ("greatest", 600),
    ("between", 1_100),
    ("least, bits less", 2_000),
    ("least, bits more", 900),
    ("least, random bits more", 300),
    ("between, bits less", 500),
    ("greatest, bits less", 400),
    ("greatest, random bits less", 200),
    ("of random bits", 200),
    ("a bit not allowed", 400),
    ("bytes changed", 250),
    ("lines changed", 250),
    ("digits exchanged", 250),
    ("cut short", 250),
    ("line ends changed", 250),
    ("kinds changed", 250),
    ("of another program", 200),
    ("a program's text", 50),
    ("empty", 100),
    ("too long", 16),
    // With the programs of that suite.
    ("of the checker's suite", 0),
    ("of the writer's suite", 0),
];

pub fn pick(random: &mut Random, ways: &Ways) -> &'static str {
    let all: usize = ways.iter().map(|(_, share)| share).sum();
    let mut rest = random.below(all);
    for &(way, share) in ways {
        if rest < share {
            return way;
        }
        rest -= share;
    }
    unreachable!("what is left is below the sum of the shares")
}

#[cfg(test)]
mod tests {
    use super::*;
    use std::collections::HashSet;

    #[test]
    fn every_way_with_a_share_is_picked() {
        let mut random = Random::new(5);
        for ways in [PROGRAMS, CLAIMS] {
            let picked: HashSet<&str> = (0..20_000).map(|_| pick(&mut random, ways)).collect();
            assert!(ways.iter().all(|&(way, share)| picked.contains(way) == (share > 0)));
        }
    }
}
