//! The collection's time: full stores of rising size, half of each live, beside
//! the store check that is a part of it and one pass of copying the words. It
//! prints a row for each size, in milliseconds of processor time, the best of
//! some rounds.

#![forbid(unsafe_code)]

use bench::foreign::{check_store, collect, processor_time};

const ROUNDS: usize = 60;

/// A full store of two interleaved terms: each node has two children, both of
/// its own parity. So the last node reaches just every other one.
fn full_store(nodes: usize) -> Vec<u32> {
    let mut words = vec![0; 8 * nodes];
    for (k, row) in words.chunks_mut(8).enumerate() {
        row[0] = (k % 1_000) as u32;
        if k >= 4 {
            row[1] = 2;
            row[2] = (k - 2) as u32;
            row[3] = (k / 4 * 2 + k % 2) as u32;
        }
    }
    words
}

/// The least time of some rounds, in milliseconds.
fn least(mut round: impl FnMut() -> f64) -> f64 {
    (0..ROUNDS).map(|_| round()).fold(f64::INFINITY, f64::min) * 1e3
}

fn main() {
    println!("| nodes | kept | collection | store check | copying |");
    println!("|---|---|---|---|---|");
    for nodes in [16_384, 32_768, 65_536, 131_072] {
        let given = full_store(nodes);
        let mut store = given.clone();
        let mut work = vec![0; nodes];
        let mut kept = 0;
        let collecting = least(|| {
            store.copy_from_slice(&given);
            let begin = processor_time();
            let numbers = collect(
                &mut store,
                &mut [0; 64],
                &mut work,
                nodes as u32,
                nodes as u32 - 1,
            );
            let end = processor_time();
            assert_eq!(numbers[0], 0, "the store is sound");
            kept = numbers[3];
            end - begin
        });
        let checking = least(|| {
            let begin = processor_time();
            assert_eq!(check_store(&given, nodes as u32), [0, 0]);
            processor_time() - begin
        });
        let copying = least(|| {
            let begin = processor_time();
            store.copy_from_slice(&given);
            processor_time() - begin
        });
        println!("| {nodes} | {kept} | {collecting:.2} | {checking:.2} | {copying:.2} |");
    }
}
