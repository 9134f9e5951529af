//! `indexed [ROUNDS]`: the eight tasks with an index beside the plain run, each on
//! its store with equal terms merged; and a store whose keys all fall together.
//! Both have the same term and units; marks and times are printed.

#![forbid(unsafe_code)]

use bench::{foreign, tasks};
use std::collections::HashMap;

/// The store with one node for each term, and the subject's number in it.
fn merged(store: &[u32], mark: u32, subject: u32) -> (Vec<u32>, u32, u32) {
    let mut numbers: Vec<u32> = Vec::new();
    let mut seen: HashMap<[u32; 8], u32> = HashMap::new();
    let mut words = Vec::new();
    for node in store[..8 * mark as usize].chunks(8) {
        let mut row: [u32; 8] = node.try_into().expect("eight words");
        for child in 2..2 + row[1] as usize {
            row[child] = numbers[row[child] as usize];
        }
        let next = (words.len() / 8) as u32;
        let number = *seen.entry(row).or_insert_with(|| {
            words.extend(row);
            next
        });
        numbers.push(number);
    }
    let mark = (words.len() / 8) as u32;
    words.resize(store.len(), 0);
    (words, mark, numbers[subject as usize])
}

/// The least of several times of the work, in milliseconds, and its numbers.
fn least(rounds: usize, mut work: impl FnMut() -> [u32; 5]) -> (f64, [u32; 5]) {
    let mut best = f64::MAX;
    let mut numbers = [0; 5];
    for _ in 0..rounds {
        let start = std::time::Instant::now();
        numbers = work();
        best = best.min(start.elapsed().as_secs_f64() * 1e3);
    }
    (best, numbers)
}

/// One line: plain and indexed from the same start.
fn compare(
    name: &str,
    table: &[u32],
    given: &(Vec<u32>, u32, u32),
    start: u32,
    units: u32,
    rounds: usize,
) {
    let (store, mark, subject) = given;
    let (plain, one) = least(rounds, || {
        let mut words = store.clone();
        foreign::run(
            table,
            &mut words,
            &mut [0; 64],
            *mark,
            start,
            *subject,
            units,
        )
    });
    let (indexed, other) = least(rounds, || {
        let mut lent = store.clone();
        lent.resize(store.len() + store.len() / 4, 0);
        foreign::run_indexed(
            table,
            &mut lent,
            store.len() as u32,
            &mut [0; 64],
            *mark,
            start,
            *subject,
            units,
            None,
        )
    });
    println!(
        "{name}: mark {mark}; plain {one:?} {plain:.2} ms; indexed {other:?} {indexed:.2} ms; speed {:.2}",
        plain / indexed
    );
}

/// A store of distinct nodes whose keys all fall to one place of the index: as many
/// as asked for, behind 2,000 constants.
fn adversary(count: usize) -> (Vec<u32>, u32, u32) {
    let key = |words: [u32; 8]| {
        let odd: [u64; 8] = [
            2654435769, 2246822519, 3266489917, 668265263, 374761393, 2870177450, 1640531535,
            3432918353,
        ];
        words.iter().zip(odd).fold(0u64, |sum, (&word, by)| {
            sum.wrapping_add(u64::from(word) * by)
        }) as u32
    };
    // A place is a span of 2^32 / 131,072 keys. The third child closes the gap to the first span.
    let mut third: Vec<(u32, u32)> = (0..2000)
        .map(|c| (key([0, 0, 0, 0, c, 0, 0, 0]), c))
        .collect();
    third.sort_unstable();
    let mut words: Vec<u32> = (0..2000).flat_map(|c| [c, 0, 0, 0, 0, 0, 0, 0]).collect();
    'all: for a in 0..2000 {
        for b in 0..2000 {
            let rest = 0u32.wrapping_sub(key([7, 3, a, b, 0, 0, 0, 0]));
            let at = third.partition_point(|&(k, _)| k < rest);
            for &(k, c) in third[at..].iter().take_while(|&&(k, _)| k - rest < 32_768) {
                debug_assert!(k >= rest);
                words.extend([7, 3, a, b, c, 0, 0, 0]);
                if words.len() / 8 == 2000 + count {
                    break 'all;
                }
            }
        }
    }
    let mark = (words.len() / 8) as u32;
    words.resize(8 * tasks::ROOM, 0);
    (words, mark, mark - 1)
}

fn main() {
    let rounds = std::env::args().nth(1).map_or(9, |word| {
        word.parse().expect("the word is a number of rounds")
    });
    twin::with_big_stack(move || {
        for task in tasks::eight() {
            let given = merged(&task.store, task.mark, task.subject);
            compare(&task.name, &task.table, &given, 0, task.units, rounds);
            compare(
                &format!("{}, once, kept", task.name),
                &task.table,
                &given,
                tasks::ONCE,
                task.units,
                rounds,
            );
        }
        for count in [1_000, 10_000, 40_000] {
            compare(
                &format!("an adversary's {count} nodes"),
                &[0; 8],
                &adversary(count),
                0,
                9,
                1,
            );
        }
    });
}
