//! Runs in the store with one node for one term, and calls with many subjects
//! in it.

use super::runs::{damage, shorten, sound_case, Peak, MOST_UNITS};
use super::signed::{disobey, sign};
use super::subjects::{more_room, subjects};
use crate::calls::{wide, Call, CallCase, INDEX, RESULTS, SIGNATURE, SUBJECTS};
use crate::checks::WIDTH;
use crate::engine::{run_lent, Lent, Outcome};
use crate::random::Random;
use crate::text::RunCase;
use std::collections::BTreeMap;

/// The case of this number under this seed. Call it on a big stack.
pub fn indexed_case(seed: u64, index: u64) -> CallCase {
    let mut random = Random::new(seed ^ 0x696e_6465, index);
    let mut run = sound_case(&mut random);
    run.label = format!("i{}", index);
    let mut lent = BTreeMap::new();
    let mut signature = if random.chance(20) {
        Some(sign(&mut random, &mut run))
    } else {
        None
    };
    // Long stores that repeat one node are left as they are.
    if random.chance(94) && run.mark < 10_000 {
        merge(&mut run);
        limit_room(&mut random, &mut run);
    }
    if let (true, Some(signature)) = (random.chance(15), &mut signature) {
        disobey(&mut random, &mut run, signature);
    }
    let call = if random.chance(22) {
        let all = subjects(&mut random, &run);
        more_room(&mut random, &mut run, all.len());
        lent.insert(RESULTS, vec![9; 5 * all.len()]);
        lent.insert(SUBJECTS, wide(&all));
        run.units = run.units.min(20_000);
        Call::Many
    } else {
        Call::Run
    };
    if random.chance(14) {
        repeat(&mut random, &mut run);
    }
    if random.chance(14) {
        damage(&mut random, &mut run);
    }
    shorten(&mut random, &mut run);
    if call == Call::Many {
        run.subject = 0;
    }
    lent.insert(INDEX, wide(&index_memory(&mut random, &run)));
    if let Some(signature) = signature {
        lent.insert(SIGNATURE, wide(&signature));
    }
    CallCase { call, run, lent }
}

/// Merges equal terms of a sound case: each keeps its lowest node, and the nodes
/// are numbered without gaps. The store's length stays as it was.
pub(super) fn merge(run: &mut RunCase) {
    let mut numbers: Vec<u32> = Vec::new();
    let mut rows: Vec<Vec<u32>> = Vec::new();
    let mut known: BTreeMap<Vec<u32>, u32> = BTreeMap::new();
    for row in run.store.chunks(WIDTH).take(run.mark as usize) {
        let mut row = row.to_vec();
        let count = row[1] as usize;
        for child in &mut row[2..2 + count] {
            *child = numbers[*child as usize];
        }
        let next = rows.len() as u32;
        let number = *known.entry(row.clone()).or_insert(next);
        if number == next {
            rows.push(row);
        }
        numbers.push(number);
    }
    let length = run.store.len();
    let above = run.store.split_off(WIDTH * run.mark as usize);
    run.store = rows.concat();
    run.store.extend(above);
    run.store.resize(length, 0);
    run.mark = rows.len() as u32;
    run.subject = numbers[run.subject as usize];
    for word in run.bindings.iter_mut().filter(|word| **word != 0) {
        *word = numbers[*word as usize - 1] + 1;
    }
}

/// Runs a copy of a case in this store; the outcome and the greatest mark.
fn probe(run: &RunCase, units: u32) -> (Outcome, u32) {
    let mut copy = run.clone();
    let mut index = vec![0; 2 * copy.store.len() / WIDTH];
    let mut peak = Peak { mark: run.mark };
    let lent = Lent {
        signature: None,
        index: Some(&mut index),
    };
    let outcome = run_lent(
        &copy.table,
        &mut copy.store,
        &mut copy.bindings,
        copy.mark,
        copy.start,
        copy.subject,
        units,
        lent,
        &mut peak,
    );
    (outcome, peak.mark)
}

/// Sets the room near to what the run needs in this store.
pub(super) fn limit_room(random: &mut Random, run: &mut RunCase) {
    let (_, peak) = probe(run, run.units.min(MOST_UNITS));
    let nodes = (run.store.len() / WIDTH) as u32;
    let room = match random.below(10) {
        0 | 1 => peak,
        2 if peak > run.mark => peak - 1,
        3 if peak > run.mark => run.mark + random.below(peak - run.mark),
        4 => run.mark,
        _ => nodes,
    };
    run.store.truncate(WIDTH * room as usize);
}

/// Repeats a node, as a new one or in place of another.
pub(super) fn repeat(random: &mut Random, run: &mut RunCase) {
    let nodes = run.store.len() / WIDTH;
    if run.mark == 0 || run.mark as usize > nodes {
        return;
    }
    let old = WIDTH * random.below(run.mark) as usize;
    let row = run.store[old..old + WIDTH].to_vec();
    let new = if (run.mark as usize) < nodes && random.chance(60) {
        run.mark += 1;
        run.mark - 1
    } else {
        (old / WIDTH) as u32 + random.below(run.mark - (old / WIDTH) as u32)
    };
    let new = WIDTH * new as usize;
    run.store[new..new + WIDTH].copy_from_slice(&row);
}

/// Memory for an index: long enough, or a little short; it may hold anything.
pub(super) fn index_memory(random: &mut Random, run: &RunCase) -> Vec<u32> {
    let twice = 2 * (run.store.len() / WIDTH);
    let length = match random.below(24) {
        0 => twice.saturating_sub(1),
        1 => twice / 2,
        2..=5 => twice + random.below(30) as usize,
        _ => twice,
    };
    let garbage = random.pick(&[0, 0, 1, u32::MAX]);
    vec![garbage; length]
}
