//! Stepped runs.

use super::runs::{damage, probe, shorten, sound_case};
use super::signed::{disobey, sign};
use crate::calls::{wide, Call, CallCase, SIGNATURE, STEPS, WORK};
use crate::random::Random;
use std::collections::BTreeMap;

/// The words that a work list must have.
const WORK_WORDS: usize = 80 * 4_096;

/// The case of this number under this seed. Call it on a big stack.
pub fn stepped_case(seed: u64, index: u64) -> CallCase {
    let mut random = Random::new(seed ^ 0x7374_6570, index);
    let mut run = sound_case(&mut random);
    run.label = format!("p{}", index);
    let mut lent = BTreeMap::new();
    if random.chance(12) {
        let mut signature = sign(&mut random, &mut run);
        if random.chance(25) {
            disobey(&mut random, &mut run, &mut signature);
        }
        lent.insert(SIGNATURE, wide(&signature));
    }
    if random.chance(15) {
        damage(&mut random, &mut run);
    }
    run.units = run.units.min(20_000);
    shorten(&mut random, &mut run);
    let used = probe(&run, run.units).0.units;
    lent.insert(STEPS, wide(&steps(&mut random, used)));
    lent.insert(WORK, work_list(&mut random));
    CallCase {
        call: Call::Step,
        run,
        lent,
    }
}

/// Step counts for a run of so many visits. There are at most some sixty, for
/// each step of ours runs the whole beginning again.
fn steps(random: &mut Random, used: u32) -> Vec<u32> {
    match random.below(12) {
        0 => Vec::new(),
        1 => vec![0],
        // Steps of one size.
        2 | 3 => vec![1; 60],
        4 => vec![2; 40],
        5 => vec![7; 20],
        // A step that ends at the run's last visit, just before it or after it.
        6 => vec![used],
        7 => vec![used.saturating_sub(1), 0, 1, 1],
        8 => vec![used, 0, 0, 1],
        9 => vec![used.saturating_sub(1), random.within(1, 3)],
        _ => {
            let count = random.within(1, 20);
            let most = match random.below(3) {
                0 => 3,
                1 => used / 4 + 2,
                _ => used + 2,
            };
            (0..count).map(|_| random.below(most)).collect()
        }
    }
}

/// A work list that is long enough, or a little short; it may hold anything.
fn work_list(random: &mut Random) -> Vec<u64> {
    let length = match random.below(30) {
        0 => WORK_WORDS - 1,
        1 => 48 * 4_096,
        2 => random.below(100) as usize,
        3 => WORK_WORDS + random.below(100) as usize,
        _ => WORK_WORDS,
    };
    let garbage = random.pick(&[0, 0, 1, u64::from(u32::MAX)]);
    vec![garbage; length]
}
