//! The three engines behind one signature.

#![forbid(unsafe_code)]

use crate::tasks::Task;
use crate::{foreign, optimised};

/// The signature: table, store, bindings, mark, start, subject, units; then
/// answer, place, subject, mark and units used.
pub type Run = fn(&[u32], &mut [u32], &mut [u32], u32, u32, u32, u32) -> [u32; 5];

/// An engine: its name, its run and its two checks.
pub struct Engine {
    /// The name in the report.
    pub name: &'static str,
    /// The run.
    pub run: Run,
    /// The table check: answer and place.
    pub check_table: fn(&[u32]) -> [u32; 2],
    /// The store check: answer and place.
    pub check_store: fn(&[u32], u32) -> [u32; 2],
}

/// The run of the plain engine.
pub fn plain_run(
    table: &[u32],
    store: &mut [u32],
    bindings: &mut [u32],
    mark: u32,
    start: u32,
    subject: u32,
    units: u32,
) -> [u32; 5] {
    let outcome = twin::run(table, store, bindings, mark, start, subject, units);
    [
        outcome.answer,
        outcome.place,
        outcome.subject,
        outcome.mark,
        outcome.units,
    ]
}

fn plain_check_table(table: &[u32]) -> [u32; 2] {
    let (answer, place) = twin::check_table(table);
    [answer, place]
}

fn plain_check_store(store: &[u32], mark: u32) -> [u32; 2] {
    let (answer, place) = twin::check_store(store, mark);
    [answer, place]
}

/// The engines in the order of the report.
pub const ENGINES: [Engine; 3] = [
    Engine {
        name: "proved",
        run: foreign::run,
        check_table: foreign::check_table,
        check_store: foreign::check_store,
    },
    Engine {
        name: "plain",
        run: plain_run,
        check_table: plain_check_table,
        check_store: plain_check_store,
    },
    Engine {
        name: "optimised",
        run: optimised::run,
        check_table: optimised::check_table,
        check_store: optimised::check_store,
    },
];

/// What a run leaves: five numbers, every store word, every binding.
pub type Left = ([u32; 5], Vec<u32>, Vec<u32>);

/// Runs a task once on fresh copies of its words.
pub fn outcome(run: Run, task: &Task) -> Left {
    let mut store = task.store.clone();
    let mut bindings = vec![0; 64];
    let numbers = run(
        &task.table,
        &mut store,
        &mut bindings,
        task.mark,
        0,
        task.subject,
        task.units,
    );
    (numbers, store, bindings)
}

/// Runs a task on all three engines and compares what they leave word by word.
///
/// # Panics
///
/// When they differ, or when the answer is not the task's.
pub fn agreed(task: &Task) -> [u32; 5] {
    let first = outcome(ENGINES[0].run, task);
    for engine in &ENGINES[1..] {
        let other = outcome(engine.run, task);
        assert!(
            first.0 == other.0,
            "{}: {} gives {:?} and {} gives {:?}",
            task.name,
            ENGINES[0].name,
            first.0,
            engine.name,
            other.0
        );
        assert!(
            first.1 == other.1 && first.2 == other.2,
            "{}: {} and {} leave different words",
            task.name,
            ENGINES[0].name,
            engine.name
        );
    }
    assert!(
        first.0[0] == task.answer,
        "{}: the answer is {:?}",
        task.name,
        first.0
    );
    first.0
}
