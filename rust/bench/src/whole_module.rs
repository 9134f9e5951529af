//! A pass over a module of 1,200 functions in a full store: one call with all
//! functions as subjects against 1,200 calls, and what a subject costs beside its
//! visits. Before any timing both are compared: the five numbers of each function
//! and every word of the store.

#![forbid(unsafe_code)]

use crate::foreign::{check_store, check_table, processor_time, run, run_many};
use crate::strategies::{call, con, id, left, one, rec, rule, table, var, Tree};
use crate::terms::{Terms, WIDTH};
use twin::checks::kind;

/// The functions of the module.
pub const FUNCTIONS: usize = 1_200;
/// The nodes of a full store.
pub const NODES: usize = 131_072;
/// The entries of a full table.
pub const ENTRIES: usize = 4_096;
/// What is dropped: 6(x) becomes x.
const DEAD: u32 = 6;
/// Units for each function.
const UNITS: u32 = 100_000;

/// What was measured, the times in seconds.
pub struct Whole {
    /// The nodes in use before the pass.
    pub mark: u32,
    /// The functions in which something was dropped; the others failed.
    pub done: usize,
    /// The visits of all functions.
    pub visits: u32,
    /// The nodes that the pass made.
    pub made: u32,
    /// One call with all functions as subjects.
    pub together: f64,
    /// A call for each function.
    pub one_by_one: f64,
    /// The checks of table and store, once.
    pub checks: f64,
    /// One call with all functions as subjects, and ID as the strategy.
    pub all_idle: f64,
    /// One call with one subject, and ID as the strategy.
    pub one_idle: f64,
}

impl Whole {
    /// How many times as long the calls one by one take.
    pub fn ratio(&self) -> f64 {
        self.one_by_one / self.together
    }

    /// What a subject costs beside its visits, in nanoseconds.
    pub fn overhead(&self) -> f64 {
        (self.all_idle - self.one_idle) * 1e9 / (FUNCTIONS as f64 - 1.0)
    }
}

/// The table of a strategy, filled up to 4,096 entries with patterns of six
/// operands, as other passes would have them.
fn full_table(strategy: &Tree) -> Vec<u32> {
    let mut words = table(strategy);
    let last = ENTRIES as u32 - 1;
    while words.len() < WIDTH * (ENTRIES - 1) {
        words.extend([16 * kind::PCON + 6, 5, last, last, last, last, last, last]);
    }
    words.extend([16 * kind::PVAR, 0, 0, 0, 0, 0, 0, 0]);
    words
}

/// Drops the topmost, leftmost dead thing of a function; fails where there is none.
fn pass() -> Tree {
    let drop = rule(con(DEAD, vec![var(0)]), var(0));
    rec("s", left(vec![drop, one(call("s"))]))
}

/// The functions, in a store of 131,072 nodes. Each has a name and a body of 103
/// or 105 nodes, and every tenth has something dead in it.
struct Module {
    store: Vec<u32>,
    mark: u32,
    functions: Vec<u32>,
}

fn module() -> Module {
    let mut terms = Terms::new();
    let mut functions = Vec::new();
    for function in 0..FUNCTIONS {
        let name = terms.node(1_000 + function as u32, &[]);
        let mut body = terms.balanced(5, 52);
        if function % 10 == 0 {
            let dead = terms.node(DEAD, &[name]);
            body = terms.node(5, &[body, dead]);
        }
        functions.push(terms.node(2, &[name, body]));
    }
    // The rest of the program, but for room for what the pass makes.
    while terms.mark() < NODES - 1_000 {
        terms.node(7, &[functions[0]]);
    }
    let mark = terms.mark() as u32;
    Module {
        store: terms.store(NODES),
        mark,
        functions,
    }
}

/// One call: its time and what it leaves.
fn together(table: &[u32], module: &Module, store: &mut [u32], results: &mut [u32]) -> f64 {
    store.copy_from_slice(&module.store);
    let subjects = &module.functions[..results.len() / 5];
    let begin = processor_time();
    let numbers = run_many(
        table,
        store,
        &[0; 64],
        module.mark,
        0,
        subjects,
        UNITS,
        results,
    );
    let end = processor_time();
    assert_eq!(numbers, [0, 0], "the call is not refused");
    end - begin
}

/// A call for each function: the time and what they leave.
fn one_by_one(table: &[u32], module: &Module, store: &mut [u32], results: &mut [u32]) -> f64 {
    store.copy_from_slice(&module.store);
    let mut mark = module.mark;
    let begin = processor_time();
    for (&subject, five) in module.functions.iter().zip(results.chunks_mut(5)) {
        let numbers = run(table, store, &mut [0; 64], mark, 0, subject, UNITS);
        mark = numbers[3];
        five.copy_from_slice(&numbers);
    }
    processor_time() - begin
}

/// The least of some times.
fn least(rounds: usize, mut round: impl FnMut() -> f64) -> f64 {
    (0..rounds).map(|_| round()).fold(f64::INFINITY, f64::min)
}

/// Compares both ways and measures them, with so many rounds.
pub fn measure(rounds: usize) -> Whole {
    let module = module();
    let table = full_table(&pass());
    let mut store = module.store.clone();
    let mut results = vec![0; 5 * FUNCTIONS];
    one_by_one(&table, &module, &mut store, &mut results);
    let single = (store.clone(), results.clone());
    results.fill(u32::MAX);
    together(&table, &module, &mut store, &mut results);
    assert!(
        (&store, &results) == (&single.0, &single.1),
        "one call does what 1,200 do"
    );
    let (store, results) = (&mut store, &mut results);
    let nothing = full_table(&id());
    // In turn, so that what else the machine does falls on both.
    let (mut all_idle, mut one_idle) = (f64::INFINITY, f64::INFINITY);
    for _ in 0..8 * rounds {
        all_idle = all_idle.min(together(&nothing, &module, store, results));
        one_idle = one_idle.min(together(&nothing, &module, store, &mut results[..5]));
    }
    Whole {
        mark: module.mark,
        done: single.1.chunks(5).filter(|five| five[0] == 0).count(),
        visits: single.1.chunks(5).map(|five| five[4]).sum(),
        made: single.1[5 * FUNCTIONS - 2] - module.mark,
        together: least(rounds, || together(&table, &module, store, results)),
        one_by_one: least(rounds.min(5), || {
            one_by_one(&table, &module, store, results)
        }),
        checks: least(rounds, || {
            let begin = processor_time();
            assert_eq!(check_table(&table), [0, 0]);
            assert_eq!(check_store(&module.store, module.mark), [0, 0]);
            processor_time() - begin
        }),
        all_idle,
        one_idle,
    }
}
