//! `steps`: the eight tasks as runs in steps, in parts of the speed of `run`. It
//! prints a row for each task: in one step, and in steps of 1,000,000, 1,000 and 1
//! visits, the best of some rounds, the calls in turn.
//!
//! `steps stored FILE`: every run of the stored cases (crates/vectors/stdin) again in
//! steps of 1, 2, 7 and all its visits, each word beside that of `run`.
//!
//! `steps generated SEED COUNT`: COUNT generated runs in steps of random sizes, each
//! word beside that of `run`.
//!
//! `steps touched SEED COUNT`: COUNT steps on a work list that is no run's, or on
//! memory that was written to between steps. Each must end with an answer of the
//! list and leave every word beside what is lent.

#![forbid(unsafe_code)]

use bench::foreign::{self, processor_time, WORK_WORDS};
use bench::tasks::{eight, Task};
use std::collections::BTreeMap;
use twin::generate::run_case;
use twin::random::Random;

const ROUNDS: usize = 5;
const SIZES: [u32; 4] = [u32::MAX, 1_000_000, 1_000, 1];

/// The time of a run, in one call or in steps of so many visits, and its numbers.
fn time(task: &Task, visits: Option<u32>, store: &mut [u32], work: &mut [u32]) -> (f64, [u32; 5]) {
    store.copy_from_slice(&task.store);
    let mut bindings = [0; 64];
    let (table, mark, subject, units) = (&task.table, task.mark, task.subject, task.units);
    let begin = processor_time();
    let mut end = match visits {
        None => foreign::run(table, store, &mut bindings, mark, 0, subject, units),
        Some(_) => foreign::start(table, store, &bindings, work, mark, 0, subject, units),
    };
    while end[0] == 25 {
        end = foreign::step(table, store, &mut bindings, work, visits.unwrap_or(0));
    }
    (processor_time() - begin, end)
}

/// A row for each task, and the means.
fn measure() {
    println!("| task | million visits a second in one call | in one step | of 1,000,000 | of 1,000 | of 1 |");
    println!("|---|---|---|---|---|---|");
    let mut work = vec![0; WORK_WORDS];
    let mut logs = [0.0; SIZES.len()];
    let tasks = eight();
    for task in &tasks {
        let mut store = task.store.clone();
        let mut best = [f64::INFINITY; SIZES.len() + 1];
        let mut visits = 0;
        for _ in 0..ROUNDS {
            let (plain, told) = time(task, None, &mut store, &mut work);
            let left = store.clone();
            visits = told[4];
            best[0] = best[0].min(plain);
            for (k, &size) in SIZES.iter().enumerate() {
                let (taken, end) = time(task, Some(size), &mut store, &mut work);
                assert_eq!(end, told, "{}", task.name);
                assert!(
                    store == left && work.iter().all(|&w| w == 0),
                    "{}",
                    task.name
                );
                best[k + 1] = best[k + 1].min(taken);
            }
        }
        let parts: Vec<f64> = best[1..].iter().map(|taken| best[0] / taken).collect();
        for (sum, part) in logs.iter_mut().zip(&parts) {
            *sum += part.ln();
        }
        let row: Vec<String> = parts.iter().map(|part| format!("{part:.3}")).collect();
        let rate = f64::from(visits) / best[0] / 1e6;
        println!("| {} | {rate:.1} | {} |", task.name, row.join(" | "));
    }
    let means: Vec<String> = logs
        .iter()
        .map(|sum| format!("{:.3}", (sum / tasks.len() as f64).exp()))
        .collect();
    println!("| geometric mean | | {} |", means.join(" | "));
}

/// The words of a stored run, as crates/cases/src/memory.rt says: the table, the
/// store, the bindings, and mark, start, subject and units.
fn stored_run(body: &str) -> ([Vec<u32>; 3], [u32; 4]) {
    let mut numbers = body.split(' ').map(|word| word.parse::<u32>());
    let mut next = || numbers.next().expect("a number").expect("a number");
    let n: Vec<u32> = (0..12).map(|_| next()).collect();
    let [mut table, mut store, bindings] = [0, 1, 2].map(|k| vec![0; n[k] as usize]);
    let (mark, fill, head) = (n[3], n[7], n[8]);
    if fill & 1 != 0 {
        store
            .iter_mut()
            .skip(8 * mark as usize)
            .for_each(|w| *w = u32::MAX);
    }
    for k in 0..mark.min(store.len() as u32 / 8) {
        let row = &mut store[8 * k as usize..];
        if fill & 2 != 0 && k >= 1 {
            row[..3].copy_from_slice(&[1, 1, k - 1]);
        }
        if fill & 4 != 0 && k >= 6 {
            row[..2].copy_from_slice(&[k % 65_536, 6]);
            (0..6).for_each(|c| row[2 + c] = k - 1 - c as u32);
        }
    }
    let entries = table.len() / 8;
    for e in (1..entries).filter(|_| head != 0) {
        let scope = head / 16 == 16;
        let (second, operand) = if scope {
            (n[10], e as u32)
        } else {
            (e as u32, n[10])
        };
        table[8 * (e - 1)..][..4].copy_from_slice(&[head, n[9], second, operand]);
    }
    for e in (3..entries).step_by(2).filter(|_| fill & 8 != 0) {
        table[8 * (e - 1)..][..3].copy_from_slice(&[113, 0, e as u32]);
        table[8 * e..][..3].copy_from_slice(&[129, 0, e as u32 - 3]);
    }
    let mut slices = [table, store, bindings];
    for _ in 0..n[11] {
        let (slice, word, value) = (next(), next(), next());
        slices[slice as usize][word as usize] = value;
    }
    (slices, [n[3], n[4], n[5], n[6]])
}

/// Every stored run again in steps; the number of runs.
fn stored(mut cases: &[u8]) -> usize {
    let mut work = vec![1; WORK_WORDS];
    let mut runs = 0;
    while let Some(end) = cases.iter().position(|&b| b == b'\n') {
        let line = std::str::from_utf8(&cases[..end]).expect("a line of text");
        let (tag, length) = line.split_once(' ').expect("a tag and a length");
        let length: usize = length.parse().expect("a number");
        let body = &cases[end + 1..][..length];
        cases = &cases[end + 2 + length..];
        if tag != "r" {
            continue;
        }
        let body = std::str::from_utf8(body).expect("a case of text");
        let ([table, store, bindings], [mark, start, subject, units]) = stored_run(body);
        let (mut wanted, mut bound) = (store.clone(), bindings.clone());
        let told = foreign::run(&table, &mut wanted, &mut bound, mark, start, subject, units);
        for size in [1, 2, 7, u32::MAX] {
            let (mut store, mut left) = (store.clone(), bindings.clone());
            work.fill(1);
            let mut end = foreign::start(
                &table, &store, &left, &mut work, mark, start, subject, units,
            );
            let refused = end[0] != 25;
            while end[0] == 25 {
                end = foreign::step(&table, &mut store, &mut left, &mut work, size);
            }
            let clean = work.iter().all(|&w| w == u32::from(refused));
            assert!(
                end == told && store == wanted && left == bound && clean,
                "in steps of {size}: {body}"
            );
        }
        runs += 1;
    }
    runs
}

/// So many generated runs in steps of random sizes; how many were not refused.
fn generated(seed: u64, count: u64) -> u64 {
    let mut work = vec![0; WORK_WORDS];
    let mut ran = 0;
    for index in 0..count {
        let mut random = Random::new(seed ^ 0x7369_7a65, index);
        let case = run_case(seed, index);
        let (mark, start, subject, units) = (case.mark, case.start, case.subject, case.units);
        let (mut wanted, mut bound) = (case.store.clone(), case.bindings.clone());
        let told = foreign::run(
            &case.table,
            &mut wanted,
            &mut bound,
            mark,
            start,
            subject,
            units,
        );
        let (mut store, mut left) = (case.store, case.bindings);
        let mut end = foreign::start(
            &case.table,
            &store,
            &left,
            &mut work,
            mark,
            start,
            subject,
            units,
        );
        ran += u64::from(end[0] == 25);
        let most = random.pick(&[2, 8, told[4] / 2 + 2, told[4] + 2]);
        while end[0] == 25 {
            let visits = random.below(most);
            end = foreign::step(&case.table, &mut store, &mut left, &mut work, visits);
        }
        assert!(
            end == told && store == wanted && left == bound,
            "seed {seed}, case {index}"
        );
        assert!(work.iter().all(|&w| w == 0), "seed {seed}, case {index}");
    }
    ran
}

/// Words with others before and behind them, which nothing may write.
struct Guarded {
    words: Vec<u32>,
}

const GUARD: usize = 16;
const KEPT: u32 = 0xa5a5_5a5a;

impl Guarded {
    fn new(lent: &[u32]) -> Guarded {
        let mut words = vec![KEPT; GUARD];
        words.extend_from_slice(lent);
        words.extend([KEPT; GUARD]);
        Guarded { words }
    }

    fn lent(&mut self) -> &mut [u32] {
        let end = self.words.len() - GUARD;
        &mut self.words[GUARD..end]
    }

    fn kept(&self) -> bool {
        let end = self.words.len() - GUARD;
        self.words[..GUARD]
            .iter()
            .chain(&self.words[end..])
            .all(|&w| w == KEPT)
    }
}

/// Writes a few words: anywhere, or in the first rows and the last, where the work
/// list has most of what it says.
fn touch(random: &mut Random, words: &mut [u32], times: u32) {
    for _ in 0..times {
        let n = words.len() as u32;
        if n == 0 {
            return;
        }
        let at = match random.below(3) {
            0 => random.below(n),
            1 => random.below(n.min(400)),
            _ => n - 1 - random.below(n.min(400)),
        };
        words[at as usize] = match random.below(5) {
            0 => 0,
            1 => random.below(8),
            2 => random.below(5_000),
            3 => u32::MAX - random.below(3),
            _ => random.word(),
        };
    }
}

/// So many steps on touched memory, and how often each answer came. Of eight runs
/// one has a list of random words from the start; the others are begun, and their
/// memory is written to between steps.
fn touched(seed: u64, count: u64) -> BTreeMap<u32, u64> {
    let mut answers = BTreeMap::new();
    let mut work = Guarded::new(&vec![0; WORK_WORDS]);
    let mut done = 0;
    let mut index = 0;
    while done < count {
        let mut random = Random::new(seed ^ 0x746f_7563, index);
        let case = run_case(seed, index);
        index += 1;
        let mut table = Guarded::new(&case.table);
        let mut store = Guarded::new(&case.store);
        let mut bindings = Guarded::new(&case.bindings);
        if random.chance(12) {
            let most = random.pick(&[2, 9, 5_000, u32::MAX]);
            work.lent().iter_mut().for_each(|w| *w = random.below(most));
        } else {
            foreign::start(
                table.lent(),
                store.lent(),
                bindings.lent(),
                work.lent(),
                case.mark,
                case.start,
                case.subject,
                case.units.min(10_000),
            );
            let before = random.below(60);
            foreign::step(
                table.lent(),
                store.lent(),
                bindings.lent(),
                work.lent(),
                before,
            );
        }
        for _ in 0..8 {
            let few = 1 + random.below(12);
            match random.below(8) {
                0 => touch(&mut random, table.lent(), few),
                1 => touch(&mut random, store.lent(), few),
                2 => touch(&mut random, bindings.lent(), few),
                _ => touch(&mut random, work.lent(), few),
            }
            let visits = random.below(300);
            let end = foreign::step(
                table.lent(),
                store.lent(),
                bindings.lent(),
                work.lent(),
                visits,
            );
            assert!(
                matches!(end[0], 0 | 1 | 2 | 6 | 7 | 8 | 12 | 25 | 27),
                "seed {seed}, case {index}: {end:?}"
            );
            assert!(
                table.kept() && store.kept() && bindings.kept() && work.kept(),
                "seed {seed}, case {index}: a word beside what is lent"
            );
            *answers.entry(end[0]).or_insert(0) += 1;
            done += 1;
            if end[0] != 25 {
                break;
            }
        }
    }
    answers
}

fn main() {
    let words: Vec<String> = std::env::args().skip(1).collect();
    match words.iter().map(String::as_str).collect::<Vec<_>>()[..] {
        [] => twin::with_big_stack(measure),
        ["generated", seed, count] => {
            let (seed, count) = (
                seed.parse().expect("a number"),
                count.parse().expect("a number"),
            );
            let ran = twin::with_big_stack(move || generated(seed, count));
            println!("{count} runs, {ran} of them not refused");
        }
        ["touched", seed, count] => {
            let (seed, count) = (
                seed.parse().expect("a number"),
                count.parse().expect("a number"),
            );
            twin::with_big_stack(move || {
                for (answer, times) in touched(seed, count) {
                    println!("{answer}: {times}");
                }
            });
        }
        ["stored", file] => {
            let cases = std::fs::read(file).expect("the file can be read");
            println!("{} runs", twin::with_big_stack(move || stored(&cases)));
        }
        _ => panic!("usage: steps | steps stored FILE | steps generated SEED COUNT | steps touched SEED COUNT"),
    }
}
