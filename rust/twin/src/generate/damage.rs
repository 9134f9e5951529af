//! Damage to a table: one fault in an entry, or several.

use crate::checks::{first_operand, kind, sort_of, Sort, WIDTH};
use crate::random::Random;

/// Another value for a word.
pub fn odd(random: &mut Random, old: u32) -> u32 {
    match random.below(9) {
        0 => random.word(),
        1 => old.wrapping_add(1),
        2 => old.wrapping_sub(1),
        3 => old ^ (1 << random.below(32)),
        4 => 0,
        5 => u32::MAX,
        6 => random.below(16),
        7 => 65_535 + random.below(2),
        _ => random.below(400),
    }
}

/// The first word of a random entry; `None` where the table is empty.
fn some_entry(random: &mut Random, table: &[u32]) -> Option<usize> {
    let entries = (table.len() / WIDTH).min(60) as u32;
    if entries == 0 {
        return None;
    }
    Some(WIDTH * random.below(entries) as usize)
}

/// The first word of a random entry of some kind, if there is one.
pub fn entry_of(random: &mut Random, table: &[u32], wanted: &[u32]) -> Option<usize> {
    let all: Vec<usize> = (0..(table.len() / WIDTH).min(60))
        .map(|entry| WIDTH * entry)
        .filter(|&first| wanted.contains(&(table[first] / 16)))
        .collect();
    if all.is_empty() {
        return None;
    }
    Some(random.pick(&all))
}

/// An entry to damage. Kinds with few entries get their share.
fn chosen_entry(random: &mut Random, table: &[u32]) -> Option<usize> {
    if random.chance(60) {
        let wanted = random.below(20);
        if let Some(first) = entry_of(random, table, &[wanted]) {
            return Some(first);
        }
    }
    some_entry(random, table)
}

/// Damages the table in one entry. Now and then the entry gets more faults than
/// one, so that the order in which they are asked is seen.
pub fn damage_table(random: &mut Random, table: &mut [u32]) {
    let first = match chosen_entry(random, table) {
        None => return,
        Some(first) => first,
    };
    one_fault(random, table, first);
    while random.chance(30) {
        one_fault(random, table, first);
    }
}

/// Gives an entry a fault. Some turn out to be harmless.
fn one_fault(random: &mut Random, table: &mut [u32], first: usize) {
    let count = table[first] % 16;
    let operands_at = first_operand(table[first] / 16);
    match random.below(12) {
        // A kind without a sort, or another kind.
        0 => table[first] = 16 * random.within(20, 300) + count,
        1 => table[first] = 16 * random.below(20) + count,
        // A count that the kind does not take.
        2 => table[first] = table[first] - count + random.below(16),
        3..=6 if count > 0 && count < 7 => bad_operand(random, table, first, count),
        7 | 8 => bad_argument(random, table, first),
        // An unused word.
        9 if operands_at + (count as usize) < WIDTH => {
            table[first + operands_at + count as usize] = random.within(1, 3)
        }
        10 => table[first + 7] = 1,
        _ => {
            let word = first + random.below(8) as usize;
            table[word] = odd(random, table[word]);
        }
    }
}

/// An operand that is too low, too high or of some other sort.
fn bad_operand(random: &mut Random, table: &mut [u32], first: usize, count: u32) {
    let entries = (table.len() / WIDTH) as u32;
    let entry = (first / WIDTH) as u32;
    let at = first_operand(table[first] / 16) + random.below(count) as usize;
    let word = first + at.min(WIDTH - 1);
    let operand = table[word];
    match random.below(10) {
        0 => table[word] = entry,
        1 => table[word] = entry.saturating_sub(1),
        2 => table[word] = entries,
        3 => table[word] = random.word(),
        4 => table[word] = random.below(entries),
        // The operand itself loses its sort.
        5 if operand < entries => {
            table[WIDTH * operand as usize] = 16 * random.pick(&[20, 21, 255, 0x0fff_ffff])
        }
        _ => {
            if let Some(other) = other_sort(random, table, entry, operand) {
                table[word] = other;
            }
        }
    }
}

/// An entry above this one whose sort is not the operand's.
fn other_sort(random: &mut Random, table: &[u32], entry: u32, operand: u32) -> Option<u32> {
    let entries = (table.len() / WIDTH) as u32;
    let sort = |entry: u32| sort_of(table[WIDTH * entry as usize] / 16);
    let own = if operand < entries {
        sort(operand)
    } else {
        Some(Sort::Strategy)
    };
    let all: Vec<u32> = (entry.saturating_add(1)..entries.min(60))
        .filter(|&other| sort(other) != own)
        .collect();
    if all.is_empty() {
        return None;
    }
    Some(random.pick(&all))
}

/// An argument at its limit or past it.
fn bad_argument(random: &mut Random, table: &mut [u32], first: usize) {
    let kind = table[first] / 16;
    // A traversal becomes a PATH now and then: there are few of them.
    if (kind::ALL..=kind::SOME).contains(&kind) && random.chance(30) {
        table[first] = table[first] % 16 + 16 * kind::PATH;
    }
    table[first + 1] = match table[first] / 16 {
        kind::PATH => random.pick(&[0, 0, 6, 7, 7]),
        kind::PVAR => random.pick(&[32, 63, 64, 65, u32::MAX]),
        kind::CONG | kind::PCON => random.pick(&[65_535, 65_536, u32::MAX]),
        kind::SCOPE => {
            // The other half too, or the operand in the word where 01 had it.
            match random.below(3) {
                0 => table[first + 2] = random.pick(&[0, u32::MAX, 1 << 31, 1]),
                1 => table.swap(first + 2, first + 3),
                _ => {}
            }
            random.pick(&[0, u32::MAX, 1 << 31])
        }
        _ => random.pick(&[1, 2, u32::MAX]),
    }
}
