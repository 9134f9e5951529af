//! Runs with a signature: most are obeyed, some are not.

use super::runs::{damage, shorten, sound_case};
use crate::calls::{wide, Call, CallCase, SIGNATURE};
use crate::checks::{kind, UNDECLARED, WIDTH};
use crate::random::Random;
use crate::text::RunCase;
use std::collections::BTreeMap;

/// The case of this number under this seed. Call it on a big stack.
pub fn signed_case(seed: u64, index: u64) -> CallCase {
    let mut random = Random::new(seed ^ 0x7369_676e, index);
    let mut run = sound_case(&mut random);
    run.label = format!("s{}", index);
    let mut signature = sign(&mut random, &mut run);
    if random.chance(40) {
        disobey(&mut random, &mut run, &mut signature);
        while random.chance(25) {
            disobey(&mut random, &mut run, &mut signature);
        }
    }
    if random.chance(15) {
        damage(&mut random, &mut run);
    }
    shorten(&mut random, &mut run);
    CallCase {
        call: Call::Run,
        run,
        lent: BTreeMap::from([(SIGNATURE, wide(&signature))]),
    }
}

/// Renames the constructors of a sound case so that each has one count, in the
/// table and in the store alike, and gives the signature of them all. The run
/// does the same as before.
pub(super) fn sign(random: &mut Random, run: &mut RunCase) -> Vec<u32> {
    let mut names: BTreeMap<(u32, u32), u32> = BTreeMap::new();
    let mut taken: BTreeMap<u32, u32> = BTreeMap::new();
    let mut name = |constructor: u32, count: u32| -> u32 {
        *names.entry((constructor, count)).or_insert_with(|| {
            let mut name = constructor;
            while taken.contains_key(&name) {
                name = (name + 1) % 65_536;
            }
            taken.insert(name, count);
            name
        })
    };
    for row in run.store.chunks_mut(WIDTH).take(run.mark as usize) {
        row[0] = name(row[0], row[1]);
    }
    for row in run.table.chunks_mut(WIDTH) {
        if let kind::CONG | kind::PCON = row[0] / 16 {
            row[1] = name(row[1], row[0] % 16);
        }
    }
    let longest = taken.keys().max().map_or(0, |&name| name as usize + 1);
    let length = match random.below(30) {
        0 => 65_536,
        1..=4 => (longest + random.below(40) as usize).min(65_536),
        _ => longest,
    };
    let others = random.chance(50);
    let mut signature = vec![UNDECLARED; length];
    if others && length < 1_000 {
        for word in &mut signature {
            *word = random.below(8);
        }
    }
    for (&name, &count) in &taken {
        signature[name as usize] = count;
    }
    signature
}

/// A constructor that the signature declares, if there is one.
fn declared(random: &mut Random, signature: &[u32]) -> Option<usize> {
    let all: Vec<usize> = (0..signature.len())
        .filter(|&name| signature[name] < UNDECLARED)
        .collect();
    if all.is_empty() {
        return None;
    }
    Some(random.pick(&all))
}

/// Breaks the agreement at one place, or the signature itself.
pub(super) fn disobey(random: &mut Random, run: &mut RunCase, signature: &mut Vec<u32>) {
    match random.below(12) {
        // A declared constructor loses its count or gets another.
        0..=2 => {
            if let Some(name) = declared(random, signature) {
                signature[name] = random.pick(&[7, 7, 0, 1, 2, 3, 6]);
            }
        }
        // The list is shorter, down to an empty one.
        3 => {
            let length = match random.below(4) {
                0 => 0,
                1 => signature.len().saturating_sub(1),
                _ => random.below(signature.len() as u32 + 1) as usize,
            };
            signature.truncate(length);
        }
        // A count word above 7, or a list that is too long.
        4 if !signature.is_empty() => {
            let word = random.below(signature.len() as u32) as usize;
            signature[word] = random.pick(&[8, 9, u32::MAX]);
        }
        5 if random.chance(20) => signature.resize(65_537, UNDECLARED),
        // An entry or a node with another constructor.
        6..=8 => {
            let all: Vec<usize> = (0..run.table.len() / WIDTH)
                .map(|entry| WIDTH * entry)
                .filter(|&first| matches!(run.table[first] / 16, kind::CONG | kind::PCON))
                .collect();
            if !all.is_empty() {
                let first = random.pick(&all);
                run.table[first + 1] = other_constructor(random, signature);
            }
        }
        _ => {
            let nodes = (run.store.len() / WIDTH) as u32;
            if run.mark > 0 && run.mark <= nodes {
                let node = random.below(run.mark) as usize;
                run.store[WIDTH * node] = other_constructor(random, signature);
            }
        }
    }
}

/// A constructor of another count, or one that nobody declared.
fn other_constructor(random: &mut Random, signature: &[u32]) -> u32 {
    match random.below(5) {
        0 => 65_535,
        1 => (signature.len() as u32).min(65_535),
        2 => random.below(65_536),
        _ => declared(random, signature).map_or(0, |name| name as u32),
    }
}
