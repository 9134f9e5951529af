//! Questions of free variables: tables with cycles of REC and CALL, and scopes
//! over them.

use super::damage::damage_table;
use super::runs::run_case;
use crate::checks::{kind, row_of, sort_of, Sort, VARIABLES, WIDTH};
use crate::random::Random;
use crate::text::FreeCase;

/// The case of this number under this seed.
pub fn free_case(seed: u64, index: u64) -> FreeCase {
    let mut random = Random::new(seed ^ 0x5f72_6565, index);
    let mut case = match random.below(100) {
        0..=19 => {
            let run = run_case(seed, index);
            FreeCase {
                entry: run.start,
                table: run.table,
                label: String::new(),
            }
        }
        20 => {
            let entries = random.within(200, 4_096);
            dense(&mut random, entries)
        }
        _ => {
            let entries = random.within(1, 48);
            dense(&mut random, entries)
        }
    };
    case.label = format!("f{}", index);
    if random.chance(25) {
        damage(&mut random, &mut case);
    }
    case
}

/// A table in which every entry is of a random kind. It is made from its end,
/// so that the operands' sorts are known.
pub(super) fn dense(random: &mut Random, entries: u32) -> FreeCase {
    let mut table = vec![0; WIDTH * entries as usize];
    let mut strategies = Vec::new();
    let mut patterns = Vec::new();
    let mut recs = Vec::new();
    let mut calls = Vec::new();
    let mut sets: Vec<u64> = vec![0; entries as usize];
    let pool = random.within(1, VARIABLES as u32);
    let cyclic = random.within(5, 40);
    for entry in (0..entries).rev() {
        // Of two operands, mostly the one with more variables below it, calls
        // left aside.
        let choose = |random: &mut Random, all: &[u32]| {
            let one = random.pick(all);
            let other = random.pick(all);
            let more = sets[other as usize].count_ones() > sets[one as usize].count_ones();
            if more && random.chance(80) {
                other
            } else {
                one
            }
        };
        let wanted = if entry > entries / 2 && random.chance(60) {
            // The end of the table is rich in patterns.
            random.pick(&[kind::PVAR, kind::PVAR, kind::PCON, kind::MATCH])
        } else if random.chance(cyclic) {
            random.pick(&[kind::REC, kind::CALL, kind::CALL])
        } else {
            // ID and FAIL seldom, the wide kinds and the patterns often.
            let weights = [1, 1, 2, 2, 9, 5, 5, 3, 3, 2, 7, 2, 2, 2, 9, 7, 9, 2, 9, 8];
            random.weighed(&weights) as u32
        };
        let (least, most) = match wanted {
            kind::ID | kind::FAIL | kind::PVAR => (0, 0),
            kind::SEQ | kind::CHOICE | kind::LEFT => (2, 2),
            kind::CONG | kind::PCON => (0, 6),
            _ => (1, 1),
        };
        let sort = match wanted {
            kind::MATCH | kind::BUILD | kind::PCON => Sort::Pattern,
            _ => Sort::Strategy,
        };
        let choices = match sort {
            Sort::Pattern => &patterns,
            Sort::Strategy => &strategies,
        };
        let mut kind = wanted;
        let mut count = random.within(least, most);
        if choices.is_empty() && count > 0 && wanted != kind::CALL {
            kind = random.pick(&[kind::PVAR, kind::ID, kind::PVAR]);
            count = 0;
        }
        let argument = match kind {
            kind::PVAR => u64::from(random.below(pool)),
            kind::PATH => u64::from(random.within(1, 6)),
            kind::CONG | kind::PCON => u64::from(random.below(65_536)),
            kind::SCOPE => match random.below(5) {
                0 => random.bits() & random.bits(),
                1 | 2 => 1 << random.below(pool),
                3 => u64::from(random.word()) << (32 * random.below(2)),
                _ => u64::from(random.below(16)),
            },
            _ => 0,
        };
        let mut operands = vec![0; count as usize];
        let mut set = match kind {
            kind::PVAR => 1 << argument,
            _ => 0,
        };
        if kind == kind::CALL {
            calls.push(entry);
        } else {
            for operand in &mut operands {
                *operand = choose(random, choices);
                set |= sets[*operand as usize];
            }
        }
        if kind == kind::SCOPE {
            set &= !argument;
        }
        let row = row_of(kind, argument, &operands);
        table[WIDTH * entry as usize..WIDTH * entry as usize + WIDTH].copy_from_slice(&row);
        sets[entry as usize] = set;
        match sort_of(kind) {
            Some(Sort::Pattern) => patterns.push(entry),
            _ => strategies.push(entry),
        }
        if kind == kind::REC {
            recs.push(entry);
        }
    }
    for call in calls {
        let first = WIDTH * call as usize;
        if recs.is_empty() {
            table[first] = 16 * kind::ID;
        } else {
            table[first + 2] = random.pick(&recs);
        }
    }
    let entry = match random.below(5) {
        0 if !recs.is_empty() => random.pick(&recs),
        1 => random.below(entries),
        2 => strategies
            .iter()
            .copied()
            .max_by_key(|&entry| sets[entry as usize].count_ones())
            .unwrap_or(0),
        _ => match strategies.last() {
            Some(&first) => first,
            None => 0,
        },
    };
    FreeCase {
        table,
        entry,
        label: String::new(),
    }
}

/// Damages the entry asked for, the length or a word.
fn damage(random: &mut Random, case: &mut FreeCase) {
    let length = case.table.len();
    match random.below(8) {
        0 => case.entry = (length / WIDTH) as u32 + random.below(3),
        1 => case.entry = random.word(),
        2 => case.table.resize((length + 1).min(32_776), 0),
        3 => case.table.resize(length.saturating_sub(1), 0),
        4 if random.chance(10) => case.table.resize(32_776, 0),
        4 if random.chance(10) => case.table.resize(32_768, 0),
        4 if random.chance(30) => case.table.clear(),
        _ => damage_table(random, &mut case.table),
    }
}
