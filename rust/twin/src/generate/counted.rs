//! Counted runs.

use super::indexed::{index_memory, limit_room, merge, repeat};
use super::runs::{damage, shorten, sound_case};
use super::signed::{disobey, sign};
use crate::calls::{wide, Call, CallCase, COUNTED, INDEX, SIGNATURE};
use crate::checks::WIDTH;
use crate::random::Random;
use crate::refusals::{COUNTS, MOST_COUNT};
use std::collections::BTreeMap;

/// The case of this number under this seed. Call it on a big stack.
pub fn counted_case(seed: u64, index: u64) -> CallCase {
    let mut random = Random::new(seed ^ 0x636f_756e, index);
    let mut run = sound_case(&mut random);
    run.label = format!("k{}", index);
    let mut lent = BTreeMap::new();
    let mut signature = if random.chance(20) {
        Some(sign(&mut random, &mut run))
    } else {
        None
    };
    // Long stores are searched for every node that is made, so they have no index.
    let indexed = random.chance(25) && run.mark < 10_000;
    if indexed && random.chance(94) {
        merge(&mut run);
        limit_room(&mut random, &mut run);
    }
    if let (true, Some(signature)) = (random.chance(15), &mut signature) {
        disobey(&mut random, &mut run, signature);
    }
    let entries = run.table.len() / WIDTH;
    let mut counts = counts(&mut random, COUNTS * entries);
    if indexed && random.chance(14) {
        repeat(&mut random, &mut run);
    }
    if random.chance(12) {
        damage(&mut random, &mut run);
    }
    if random.chance(6) {
        let length = match random.below(6) {
            0 => counts.len() + 1,
            1 => counts.len() - 1,
            2 => counts.len() + COUNTS,
            3 => counts.len() - COUNTS,
            4 => 0,
            _ => entries,
        };
        counts.resize(length, 0);
    }
    shorten(&mut random, &mut run);
    if indexed {
        lent.insert(INDEX, wide(&index_memory(&mut random, &run)));
    }
    if let Some(signature) = signature {
        lent.insert(SIGNATURE, wide(&signature));
    }
    lent.insert(COUNTED, counts);
    CallCase {
        call: Call::Count,
        run,
        lent,
    }
}

/// Counts of earlier runs: none, some, or as many as there may be and more.
fn counts(random: &mut Random, length: usize) -> Vec<u64> {
    let mut counts = vec![0; length];
    match random.below(10) {
        0..=4 => {}
        5 => counts.fill(MOST_COUNT),
        _ => {
            for word in counts.iter_mut().take(1_000) {
                *word = u64::from(random.below(100));
            }
        }
    }
    // One word at the limit or past it, now and then two.
    while random.chance(12) {
        let word = random.below(length.min(1_000) as u32) as usize;
        counts[word] = match random.below(5) {
            0 | 1 => MOST_COUNT,
            2 => u64::MAX,
            _ => MOST_COUNT + 1,
        };
    }
    counts
}
