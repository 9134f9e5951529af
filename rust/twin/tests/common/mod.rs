//! What the tests share: tables and stores from rows, and one run.
#![allow(dead_code, unused_imports)]

pub use twin::checks::kind::*;
use twin::{run, with_big_stack, Outcome};

/// A table from rows of kind, argument and operands.
pub fn table(rows: &[(u32, u64, &[u32])]) -> Vec<u32> {
    let mut words = Vec::new();
    for &(kind, argument, operands) in rows {
        let mut row = [0; 8];
        row[0] = 16 * kind + operands.len() as u32;
        row[1] = argument as u32;
        // 02, wish 9: a scope's mask has two words.
        let mut first = 2;
        if kind == SCOPE {
            row[2] = (argument >> 32) as u32;
            first = 3;
        }
        row[first..first + operands.len()].copy_from_slice(operands);
        words.extend_from_slice(&row);
    }
    words
}

/// A store of so many nodes' room, from rows of constructor and children.
pub fn store(rows: &[(u32, &[u32])], room: usize) -> Vec<u32> {
    let mut words = vec![0; 8 * room];
    for (node, &(constructor, children)) in rows.iter().enumerate() {
        let row = &mut words[8 * node..8 * node + 8];
        row[0] = constructor;
        row[1] = children.len() as u32;
        row[2..2 + children.len()].copy_from_slice(children);
    }
    words
}

/// The store of 01's small runs: 1(), 2(), 5(0, 1), with room for 64 nodes.
pub fn small_store() -> Vec<u32> {
    store(&[(1, &[]), (2, &[]), (5, &[0, 1])], 64)
}

/// Everything that a run gives back.
#[derive(Clone, Debug, PartialEq, Eq)]
pub struct After {
    pub outcome: Outcome,
    pub store: Vec<u32>,
    pub bindings: Vec<u32>,
}

/// The outcome from its five numbers.
pub fn outcome(answer: u32, place: u32, subject: u32, mark: u32, units: u32) -> Outcome {
    Outcome {
        answer,
        place,
        subject,
        mark,
        units,
    }
}

/// Runs from entry 0 with three nodes in use.
pub fn run_small(table: &[u32], store: Vec<u32>, subject: u32, units: u32) -> After {
    run_with(table, store, vec![0; 64], 3, 0, subject, units)
}

/// Runs on a big stack.
pub fn run_with(
    table: &[u32],
    mut store: Vec<u32>,
    mut bindings: Vec<u32>,
    mark: u32,
    start: u32,
    subject: u32,
    units: u32,
) -> After {
    let table = table.to_vec();
    with_big_stack(move || {
        let outcome = run(
            &table,
            &mut store,
            &mut bindings,
            mark,
            start,
            subject,
            units,
        );
        After {
            outcome,
            store,
            bindings,
        }
    })
}

/// A job's text with a space written for each tab, answered; tabs again shown
/// as spaces.
pub fn job_spaced(text: &str) -> String {
    let text = text.replace(' ', "\t").into_bytes();
    answer_to(text).replace('\t', " ")
}

/// The answer to a job's bytes, as text.
pub fn answer_to(text: Vec<u8>) -> String {
    let answer = with_big_stack(move || twin::job(&text));
    String::from_utf8(answer).expect("an answer is plain text")
}
