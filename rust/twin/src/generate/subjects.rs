//! Calls with many subjects.

use super::runs::{damage, shorten, sound_case};
use super::signed::{disobey, sign};
use crate::calls::{wide, Call, CallCase, RESULTS, SIGNATURE, SUBJECTS};
use crate::checks::WIDTH;
use crate::random::Random;
use crate::text::RunCase;
use std::collections::BTreeMap;

/// The case of this number under this seed. Call it on a big stack.
pub fn many_case(seed: u64, index: u64) -> CallCase {
    let mut random = Random::new(seed ^ 0x6d61_6e79, index);
    let mut run = sound_case(&mut random);
    run.label = format!("m{}", index);
    let mut lent = BTreeMap::new();
    if random.chance(25) {
        let mut signature = sign(&mut random, &mut run);
        if random.chance(25) {
            disobey(&mut random, &mut run, &mut signature);
        }
        lent.insert(SIGNATURE, wide(&signature));
    }
    let mut subjects = subjects(&mut random, &run);
    more_room(&mut random, &mut run, subjects.len());
    let mut results = vec![u32::MAX; 5 * subjects.len()];
    if random.chance(18) {
        damage(&mut random, &mut run);
    }
    if random.chance(15) {
        damage_lists(&mut random, &run, &mut subjects, &mut results);
    }
    // Subjects other than the first may not end by themselves.
    run.units = run.units.min(20_000);
    shorten(&mut random, &mut run);
    run.subject = 0;
    lent.insert(SUBJECTS, wide(&subjects));
    lent.insert(RESULTS, wide(&results));
    CallCase {
        call: Call::Many,
        run,
        lent,
    }
}

/// A few subjects, with the case's own among them, or none.
pub(super) fn subjects(random: &mut Random, run: &RunCase) -> Vec<u32> {
    let count = match random.below(40) {
        0..=2 => 0,
        3 => random.within(20, 60),
        4..=11 => 1,
        _ => random.within(2, 7),
    };
    (0..count)
        .map(|_| match random.below(3) {
            0 => run.subject,
            1 => run.mark - 1 - random.below(run.mark.min(4)),
            _ => random.below(run.mark),
        })
        .collect()
}

/// Room for some of the subjects or for all. What the case had above the mark
/// was room for one.
pub(super) fn more_room(random: &mut Random, run: &mut RunCase, subjects: usize) {
    let one = run.store.len() - WIDTH * run.mark as usize;
    let times = match random.below(3) {
        0 => 0,
        1 => random.below(subjects as u32 + 1) as usize,
        _ => subjects,
    };
    let length = run.store.len() + one * times.min(8);
    run.store.resize(length.min(1_048_576), 0);
}

/// Damages the subjects or the length of the results.
fn damage_lists(random: &mut Random, run: &RunCase, subjects: &mut [u32], results: &mut Vec<u32>) {
    if random.chance(40) || subjects.is_empty() {
        let length = match random.below(5) {
            0 => results.len() + 1,
            1 => results.len() + 5,
            2 => results.len().saturating_sub(5),
            3 => results.len().saturating_sub(1),
            _ => 0,
        };
        results.resize(length, u32::MAX);
        return;
    }
    let place = random.below(subjects.len() as u32) as usize;
    subjects[place] = match random.below(4) {
        0 => run.mark,
        1 => run.mark.saturating_add(random.below(5)),
        2 => u32::MAX,
        _ => random.word(),
    };
}
