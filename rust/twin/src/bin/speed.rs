//! The program `speed`: visits a second on three simple runs.

#![forbid(unsafe_code)]

use std::time::Instant;
use twin::checks::kind::{ALL, CALL, CHOICE, ID, LEFT, MATCH, PCON, PVAR, REC, SEQ};
use twin::checks::row_of;
use twin::{run, with_big_stack, Outcome};

/// A table from rows of kind, argument and operands.
fn table(rows: &[(u32, u64, &[u32])]) -> Vec<u32> {
    rows.iter()
        .flat_map(|&(kind, argument, operands)| row_of(kind, argument, operands))
        .collect()
}

/// Sixteen levels of 5(k, k) over a constant: a tree of 131,071 positions in
/// 17 nodes.
fn store() -> Vec<u32> {
    let mut words = vec![0; 1_048_576];
    words[0] = 1;
    for node in 1..17 {
        let first = 8 * node;
        words[first] = 5;
        words[first + 1] = 2;
        words[first + 2] = node as u32 - 1;
        words[first + 3] = node as u32 - 1;
    }
    words
}

/// Runs a table many times and prints the visits a second.
fn measure(name: &str, table: &[u32], rounds: u32) {
    let mut visits = 0u64;
    let mut spent = 0.0;
    let mut last = None;
    for _ in 0..rounds {
        let mut store = store();
        let mut bindings = [0; 64];
        let begin = Instant::now();
        let outcome: Outcome = run(table, &mut store, &mut bindings, 17, 0, 16, u32::MAX);
        spent += begin.elapsed().as_secs_f64();
        visits += u64::from(outcome.units);
        last = Some(outcome.answer);
    }
    println!(
        "{}: answer {:?}, {} visits a run, {:.1} million visits a second",
        name,
        last,
        visits / u64::from(rounds.max(1)),
        visits as f64 / spent / 1e6
    );
}

fn main() {
    with_big_stack(|| {
        // REC x. ALL(x): every position is rebuilt.
        let rebuild = table(&[(REC, 0, &[1]), (ALL, 0, &[2]), (CALL, 0, &[0])]);
        measure("rebuild every position", &rebuild, 20);
        // REC x. SEQ(LEFT(MATCH 1(), ID), ALL(x)): a rule is tried everywhere.
        let tried = table(&[
            (REC, 0, &[1]),
            (SEQ, 0, &[2, 3]),
            (LEFT, 0, &[4, 5]),
            (ALL, 0, &[6]),
            (MATCH, 0, &[7]),
            (ID, 0, &[]),
            (CALL, 0, &[0]),
            (PCON, 1, &[]),
        ]);
        measure("try a match at every position", &tried, 20);
        // CHOICE(MATCH 5(x, x), ID): one comparison of a big term with itself.
        let compare = table(&[
            (CHOICE, 0, &[1, 2]),
            (MATCH, 0, &[3]),
            (ID, 0, &[]),
            (PCON, 5, &[4, 4]),
            (PVAR, 0, &[]),
        ]);
        measure("compare a term with itself", &compare, 20);
    });
}
