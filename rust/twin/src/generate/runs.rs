//! Inputs of a run: sound ones with tight limits, and damaged ones.

use super::damage::{damage_table, entry_of, odd};
use super::plans::{pool, Plan};
use super::terms::Terms;
use crate::checks::{kind, NO_UNITS, VARIABLES, WIDTH};
use crate::engine::{run_watched, Outcome, Watcher, NO_MISS};
use crate::random::Random;
use crate::text::RunCase;

/// The most visits of a generated run.
pub(super) const MOST_UNITS: u32 = 60_000;

/// Remembers the greatest mark of a run.
pub(super) struct Peak {
    pub mark: u32,
}

impl Watcher for Peak {
    fn made(&mut self, mark: u32) {
        self.mark = self.mark.max(mark);
    }
}

/// The case of this number under this seed. It runs the case to find tight
/// limits, so call it on a big stack.
pub fn run_case(seed: u64, index: u64) -> RunCase {
    let mut random = Random::new(seed, index);
    let mut case = sound_case(&mut random);
    case.label = format!("r{}", index);
    if random.chance(33) {
        damage(&mut random, &mut case);
        while random.chance(20) {
            damage(&mut random, &mut case);
        }
    }
    shorten(&mut random, &mut case);
    case
}

/// A case that nothing refuses.
pub(super) fn sound_case(random: &mut Random) -> RunCase {
    match random.below(1_000) {
        0..=3 => chain(random),
        4..=13 => counter(random),
        14 => long_comparison(random),
        15..=16 => full_table(random),
        17 => full_store(random),
        18..=19 => deep_pattern(random),
        20..=99 => looping(random),
        _ => general(random),
    }
}

/// A changed case may go on for very long: then it gets fewer units.
pub(super) fn shorten(random: &mut Random, case: &mut RunCase) {
    if case.units > MOST_UNITS && probe(case, MOST_UNITS).0.answer == NO_UNITS {
        case.units = random.below(6_000);
    }
}

/// A case around a table and terms, with nothing bound and ample limits.
fn around(terms: &Terms, table: Vec<u32>, start: u32, subject: u32, room: u32) -> RunCase {
    let mut store = terms.words.clone();
    store.resize(store.len() + WIDTH * room as usize, 0);
    RunCase {
        table,
        store,
        bindings: vec![0; VARIABLES],
        mark: terms.mark(),
        start,
        subject,
        units: 0,
        label: String::new(),
    }
}

/// Runs a copy of the case with so many units; the outcome and greatest mark.
pub(super) fn probe(case: &RunCase, units: u32) -> (Outcome, u32) {
    let mut store = case.store.clone();
    let mut bindings = case.bindings.clone();
    let mut peak = Peak { mark: case.mark };
    let outcome = run_watched(
        &case.table,
        &mut store,
        &mut bindings,
        case.mark,
        case.start,
        case.subject,
        units,
        &mut peak,
    );
    (outcome, peak.mark)
}

/// Binds some variables to nodes of the case; the variables bound.
fn bind_some(
    random: &mut Random,
    terms: &Terms,
    pool: &[u32; 6],
    bindings: &mut [u32],
) -> Vec<u32> {
    let mut bound = Vec::new();
    if random.chance(45) {
        let percent = random.within(5, 40);
        for (variable, word) in bindings.iter_mut().enumerate() {
            if (pool.contains(&(variable as u32)) || random.chance(5)) && random.chance(percent) {
                *word = random.below(terms.mark()) + 1;
                bound.push(variable as u32);
            }
        }
    }
    bound
}

/// Puts garbage above the mark, sometimes.
fn soil(random: &mut Random, case: &mut RunCase) {
    let first = WIDTH * case.mark as usize;
    if first >= case.store.len() || !random.chance(35) {
        return;
    }
    if random.chance(60) {
        for word in &mut case.store[first..] {
            *word = u32::MAX;
        }
    }
    let spots = random.below(12);
    for _ in 0..spots {
        let word = first as u32 + random.below((case.store.len() - first) as u32);
        case.store[word as usize] = match random.below(3) {
            0 => random.word(),
            _ => random.below(8),
        };
    }
}

/// Sets the room and the units, near to what the run needs.
fn limit(random: &mut Random, case: &mut RunCase, most: u32) {
    let (_, peak) = probe(case, most);
    let nodes = (case.store.len() / WIDTH) as u32;
    let spare = peak - case.mark;
    let room = match random.weighed(&[62, 14, 12, 7, 5]) {
        0 => nodes,
        1 => peak,
        2 if spare > 0 => peak - 1,
        3 if spare > 0 => case.mark + random.below(spare),
        4 => case.mark,
        _ => peak + random.below(3).min(nodes - peak),
    };
    case.store.resize(WIDTH * room as usize, 0);
    let (outcome, _) = probe(case, most);
    let used = outcome.units;
    let ample = |random: &mut Random| match random.below(6) {
        0 => used.saturating_add(1),
        1 => u32::MAX,
        2 => used + random.below(20),
        3 => 4_096.max(used + 1),
        _ => used + 1 + random.below(1_000),
    };
    case.units = match outcome.answer {
        // It may not end, so it may not get more.
        6 => match random.below(4) {
            0 => most,
            1 => random.below(30),
            _ => random.below(most),
        },
        8 => match random.weighed(&[70, 15, 15]) {
            0 => ample(random),
            1 => used,
            _ => random.below(used + 1),
        },
        _ => match random.weighed(&[72, 12, 8, 6, 2]) {
            0 => ample(random),
            1 => used,
            2 => used.saturating_sub(1),
            3 => random.below(used + 1),
            _ => random.below(4),
        },
    };
}

/// A case with a random store and a random table that fits it.
fn general(random: &mut Random) -> RunCase {
    let mut tries = 0;
    loop {
        tries += 1;
        let nodes = match random.below(50) {
            0 => 1,
            1 => random.within(40, 120),
            2..=20 => random.within(2, 8),
            _ => random.within(4, 24),
        };
        let terms = Terms::random(random, nodes);
        let mut bindings = vec![0; VARIABLES];
        let pool = pool(random);
        let bound = bind_some(random, &terms, &pool, &mut bindings);
        let subject = if random.chance(80) {
            nodes - 1
        } else {
            random.below(nodes)
        };
        let most = random.within(8, 34) as usize;
        let mut plan = Plan::new(random, &terms, pool, bound, most);
        let budget = plan.random.within(2, 8);
        let start = plan.strategy(subject, budget);
        let table = plan.table();
        let room = match random.below(20) {
            0 => random.within(100, 400),
            _ => (64 - nodes.min(44)).min(random.within(8, 44)),
        };
        let mut case = around(&terms, table, start, subject, room);
        case.bindings = bindings;
        let (outcome, _) = probe(&case, 6_000);
        let dull = match outcome.answer {
            6 => 85,
            1 if outcome.units < 5 => 80,
            1 if outcome.place == NO_MISS => 60,
            12 if outcome.units < 8 => 80,
            12 => 30,
            0 if outcome.units < 8 => 80,
            0 if outcome.mark == nodes => 50,
            _ => 0,
        };
        if tries < 8 && random.chance(dull) {
            continue;
        }
        limit(random, &mut case, 6_000);
        if random.rarely(60) {
            other_start(random, &mut case);
        }
        soil(random, &mut case);
        return case;
    }
}

/// Starts at another strategy of the table.
fn other_start(random: &mut Random, case: &mut RunCase) {
    let entries = (case.table.len() / WIDTH) as u32;
    let start = random.below(entries);
    if case.table[WIDTH * start as usize] / 16 <= kind::WHERE {
        case.start = start;
        case.units = random.below(6_000);
    }
}

/// A case that does not end by itself.
fn looping(random: &mut Random) -> RunCase {
    let nodes = random.within(1, 12);
    let terms = Terms::random(random, nodes);
    let mut bindings = vec![0; VARIABLES];
    let pool = pool(random);
    let bound = bind_some(random, &terms, &pool, &mut bindings);
    let mut plan = Plan::new(random, &terms, pool, bound, 24);
    let wraps = plan.random.below(3);
    let start = plan.looping(nodes - 1, wraps);
    let table = plan.table();
    let room = random.within(0, 40);
    let mut case = around(&terms, table, start, nodes - 1, room);
    case.bindings = bindings;
    limit(random, &mut case, MOST_UNITS);
    soil(random, &mut case);
    case
}

/// A long chain and a traversal that reaches the deepest nesting, or nearly.
fn chain(random: &mut Random) -> RunCase {
    let long = random.chance(50);
    let nodes = match (long, random.below(3)) {
        (false, _) => random.within(20, 400),
        (true, 0) => random.within(1_362, 1_368),
        (true, 1) => random.within(1_020, 1_026),
        (true, _) => random.within(900, 1_400),
    };
    let mut terms = Terms::new();
    terms.add(0, &[]);
    for node in 1..nodes {
        terms.add(0, &[node - 1]);
    }
    let mut plan = Plan::new(random, &terms, [0; 6], Vec::new(), 30);
    let start = plan.descent();
    let table = plan.table();
    let room = nodes + random.below(3);
    let mut case = around(&terms, table, start, nodes - 1, room);
    limit(random, &mut case, MOST_UNITS);
    case
}

/// A counter that goes four deeper with each step.
fn counter(random: &mut Random) -> RunCase {
    let bits = if random.chance(40) {
        11
    } else {
        random.within(1, 10)
    };
    // The steps that are left: about 1,010 of them reach the deepest nesting.
    let steps = if bits == 11 {
        random.within(1_000, 1_016)
    } else {
        random.below(1 << bits)
    };
    let value = (1u32 << bits) - 1 - steps;
    let mut terms = Terms::new();
    let mut node = terms.add(1, &[]);
    for bit in (0..bits).rev() {
        node = terms.add(3 + (value >> bit & 1), &[node]);
    }
    let mut plan = Plan::new(random, &terms, [0; 6], Vec::new(), 30);
    let start = plan.counter();
    let table = plan.table();
    let room = if bits < 5 { 50 } else { 4 * steps + 40 };
    let mut case = around(&terms, table, start, node, room);
    limit(random, &mut case, MOST_UNITS);
    soil(random, &mut case);
    case
}

/// A comparison of a long chain with itself, or with one that differs deep
/// down.
fn long_comparison(random: &mut Random) -> RunCase {
    let nodes = random.within(4_088, 4_096);
    let mut terms = Terms::new();
    terms.add(0, &[]);
    for node in 1..nodes {
        terms.add(0, &[node - 1]);
    }
    let low = random.below(2) * random.within(1, 3);
    let top = terms.add(5, &[nodes - 1 - low, nodes - 1]);
    let mut plan = Plan::new(random, &terms, [0; 6], Vec::new(), 30);
    let start = plan.comparison();
    let table = plan.table();
    let mut case = around(&terms, table, start, top, 2);
    limit(random, &mut case, MOST_UNITS);
    case
}

/// A table of the greatest length, mostly of ID entries.
fn full_table(random: &mut Random) -> RunCase {
    let mut case = general(random);
    case.table.resize(32_768, 0);
    if random.chance(30) {
        case.start = 4_095;
    } else if random.chance(30) {
        // A REC at the end that is called from the beginning of the table.
        let last = WIDTH * 4_094;
        case.table[last] = 16 * kind::REC + 1;
        case.table[last + 2] = 4_095;
        let call = WIDTH * 4_000;
        case.table[call] = 16 * kind::CALL + 1;
        case.table[call + 2] = 4_094;
        case.start = 4_000;
    }
    case
}

/// A store of the greatest length, with all or nearly all nodes in use.
fn full_store(random: &mut Random) -> RunCase {
    let mut case = general(random);
    case.store.truncate(WIDTH * case.mark as usize);
    case.store.resize(1_048_576, 0);
    if random.chance(70) {
        case.mark = 131_072 - random.below(3);
        case.bindings[0] = case.mark;
    }
    case
}

/// BUILD or MATCH of a pattern that is a long chain in the table.
fn deep_pattern(random: &mut Random) -> RunCase {
    let entries = match random.below(3) {
        0 => 4_096,
        1 => 4_095,
        _ => random.within(50, 300),
    };
    let mut table = vec![0; WIDTH * entries as usize];
    for entry in 0..entries {
        let row = &mut table[WIDTH * entry as usize..];
        let word = match entry {
            0 => 16 * kind::REC + 1,
            1 => 16 * kind::BUILD + 1,
            _ if entry + 1 == entries => 16 * kind::PCON,
            _ => 16 * kind::PCON + 1,
        };
        row[0] = word;
        if entry + 1 < entries {
            row[2] = entry + 1;
        }
    }
    let mut terms = Terms::new();
    terms.add(0, &[]);
    let start = random.below(2);
    let room = entries - random.within(0, 4);
    let mut case = around(&terms, table, start, 0, room);
    limit(random, &mut case, MOST_UNITS);
    case
}

/// Damages the store at one place.
fn damage_store(random: &mut Random, case: &mut RunCase) {
    let nodes = (case.store.len() / WIDTH) as u32;
    let used = case.mark.min(nodes);
    if nodes == 0 || used == 0 {
        return;
    }
    let above = nodes > used && random.chance(12);
    let node = if above {
        used + random.below(nodes - used)
    } else {
        random.below(used)
    };
    let first = WIDTH * node as usize;
    let row = &mut case.store[first..first + WIDTH];
    let count = row[1].min(6);
    match random.below(8) {
        0 => row[0] = 65_535 + random.below(2),
        1 => row[1] = random.within(6, 9),
        2 => row[1] = random.below(7),
        3 | 4 if count > 0 => {
            let word = 2 + random.below(count) as usize;
            row[word] = match random.below(4) {
                0 => node,
                1 => node + 1,
                2 => random.word(),
                _ => random.below(nodes),
            };
        }
        5 if count < 6 => row[2 + count as usize] = random.within(1, 3),
        6 => row[7] = 1,
        _ => {
            let word = random.below(8) as usize;
            row[word] = odd(random, row[word]);
        }
    }
}

/// Changes a length by a few words.
fn stretch(random: &mut Random, words: &mut Vec<u32>, most: usize) {
    let length = words.len();
    let by = random.within(1, 9) as usize;
    let length = match random.below(6) {
        0 => 0,
        1 | 2 => length + by,
        _ => length.saturating_sub(by),
    };
    words.resize(length.min(most), 0);
}

/// Damages one thing. Some damage turns out to be harmless.
pub(super) fn damage(random: &mut Random, case: &mut RunCase) {
    let nodes = (case.store.len() / WIDTH) as u32;
    let entries = (case.table.len() / WIDTH) as u32;
    match random.weighed(&[40, 28, 4, 4, 4, 6, 12, 10, 10, 5, 1]) {
        0 => damage_table(random, &mut case.table),
        1 => damage_store(random, case),
        2 => {
            let mut table = std::mem::take(&mut case.table);
            stretch(random, &mut table, 32_776);
            case.table = table;
        }
        3 => {
            let mut store = std::mem::take(&mut case.store);
            stretch(random, &mut store, 1_048_584);
            case.store = store;
        }
        4 => {
            let length = random.pick(&[0, 1, 32, 63, 65, 72]);
            case.bindings.resize(length, 0);
        }
        5 => {
            let mark = match random.below(4) {
                0 => nodes + 1,
                1 => u32::MAX,
                2 => random.word(),
                _ => nodes + random.below(10),
            };
            case.mark = mark;
        }
        6 => {
            case.start = match random.below(5) {
                0 => entries,
                1 => entries + random.below(10),
                2 => random.word(),
                _ => match entry_of(random, &case.table, &[kind::PVAR, kind::PCON]) {
                    Some(first) => (first / WIDTH) as u32,
                    None => u32::MAX,
                },
            }
        }
        7 => {
            case.subject = match random.below(4) {
                0 => case.mark,
                1 => case.mark.saturating_add(random.below(5)),
                2 => random.word(),
                _ => case.mark.saturating_sub(1),
            }
        }
        8 => {
            if !case.bindings.is_empty() {
                let variable = random.below(case.bindings.len() as u32) as usize;
                case.bindings[variable] = match random.below(4) {
                    0 => case.mark,
                    1 => case.mark.saturating_add(1),
                    2 => u32::MAX,
                    _ => random.word(),
                };
            }
        }
        9 => {
            // A lower mark: what lay above it is garbage now.
            case.mark = random.below(case.mark.min(nodes) + 1);
            if random.chance(50) {
                case.subject = case.mark.saturating_sub(1);
            }
        }
        _ => match random.below(4) {
            0 => case.table.resize(32_776, 0),
            1 => case.store.resize(1_048_584, 0),
            2 => case.table.resize(32_768, 0),
            _ => {
                case.store.resize(1_048_576, 0);
                case.mark = case.mark.max(131_073);
            }
        },
    }
}
