//! `counted`: the eight tasks with counts, in parts of the speed of `run`, beside a
//! run in one step. It prints a row for each task, the best of some rounds, the
//! calls in turn; each call leaves the store that `run` leaves, and the counts make
//! the units. Then a walk over so many nodes with an index and counts, where each
//! node that is made is looked for among those in use.

#![forbid(unsafe_code)]

use bench::foreign::{self, processor_time, WORK_WORDS};
use bench::strategies::{all, call, rec, table};
use bench::tasks::{eight, Task};
use bench::terms::Terms;

const ROUNDS: usize = 5;
/// The leaves of the walks with an index.
const WALKS: [u32; 4] = [500, 2_000, 8_000, 32_000];

/// How a task is run.
#[derive(Clone, Copy, PartialEq)]
enum Way {
    Run,
    Step,
    Counted,
}

const WAYS: [Way; 3] = [Way::Run, Way::Step, Way::Counted];

/// The time of a task, and its five numbers. A counted one's counts make its units.
fn time(task: &Task, way: Way, store: &mut [u32], work: &mut [u32]) -> (f64, [u32; 5]) {
    store.copy_from_slice(&task.store);
    let mut bindings = [0; 64];
    let mut counts = vec![0; task.table.len() / 2];
    let (table, mark, subject, units) = (&task.table, task.mark, task.subject, task.units);
    let own = &mut bindings;
    let begin = processor_time();
    let end = match way {
        Way::Run => foreign::run(table, store, own, mark, 0, subject, units),
        Way::Step => {
            foreign::start(table, store, own, work, mark, 0, subject, units);
            foreign::step(table, store, own, work, u32::MAX)
        }
        Way::Counted => {
            let [answer, place, subject, mark, used, patterns, pairs] = foreign::run_counted(
                table,
                store,
                own,
                mark,
                0,
                subject,
                units,
                &mut counts,
                None,
            );
            let visits: u64 = counts.iter().step_by(4).sum();
            assert_eq!(visits + u64::from(patterns) + u64::from(pairs), used.into());
            [answer, place, subject, mark, used]
        }
    };
    (processor_time() - begin, end)
}

/// A row for each task, and the means.
fn measure() {
    println!("| task | million visits a second of `run` | in one step | with counts |");
    println!("|---|---|---|---|");
    let mut work = vec![0; WORK_WORDS];
    let mut logs = [0.0; WAYS.len()];
    let tasks = eight();
    for task in &tasks {
        let mut store = task.store.clone();
        let mut best = [f64::INFINITY; WAYS.len()];
        let mut visits = 0;
        for _ in 0..ROUNDS {
            let mut left = Vec::new();
            let mut told = [0; 5];
            for (way, best) in WAYS.into_iter().zip(&mut best) {
                let (taken, end) = time(task, way, &mut store, &mut work);
                *best = best.min(taken);
                if way == Way::Run {
                    (told, visits) = (end, end[4]);
                    left.clone_from(&store);
                }
                assert!(end == told && store == left, "{}", task.name);
            }
        }
        let parts = best.map(|taken| best[0] / taken);
        for (sum, part) in logs.iter_mut().zip(parts) {
            *sum += part.ln();
        }
        let rate = f64::from(visits) / best[0] / 1e6;
        println!(
            "| {} | {rate:.1} | {:.3} | {:.3} |",
            task.name, parts[1], parts[2]
        );
    }
    let [_, step, counted] = logs.map(|sum| (sum / tasks.len() as f64).exp());
    println!("| geometric mean | | {step:.3} | {counted:.3} |");
}

/// A walk over a balanced tree of so many leaves, of which no two are equal. It makes
/// each node again, and with an index finds it.
fn walk(leaves: u32) -> Task {
    let mut terms = Terms::new();
    let mut level: Vec<u32> = (0..leaves)
        .map(|leaf| terms.node(1_000 + leaf, &[]))
        .collect();
    while level.len() > 1 {
        level = level.chunks(2).map(|pair| terms.node(5, pair)).collect();
    }
    let mark = terms.mark() as u32;
    Task {
        name: "walk".to_string(),
        about: String::new(),
        times: 1,
        answer: 0,
        table: table(&rec("walk", all(call("walk")))),
        store: terms.store(2 * mark as usize),
        mark,
        subject: level[0],
        units: u32::MAX,
    }
}

/// The least time of some rounds of a walk with counts, with an index or not, in
/// milliseconds. A round with an index leaves the mark as it was.
fn walk_time(task: &Task, indexed: bool) -> f64 {
    let mut least = f64::INFINITY;
    let mut counts = vec![0; task.table.len() / 2];
    let words = task.store.len();
    for _ in 0..ROUNDS {
        let mut lent = task.store.clone();
        let bindings = &mut [0; 64];
        let (table, mark, subject, units) = (&task.table, task.mark, task.subject, task.units);
        let begin = processor_time();
        let end = if indexed {
            lent.resize(words + words / 4, 0);
            foreign::run_indexed_counted(
                table,
                &mut lent,
                words as u32,
                bindings,
                mark,
                0,
                subject,
                units,
                &mut counts,
                None,
            )
        } else {
            foreign::run_counted(
                table,
                &mut lent,
                bindings,
                mark,
                0,
                subject,
                units,
                &mut counts,
                None,
            )
        };
        least = least.min(1e3 * (processor_time() - begin));
        assert_eq!(end[0], 0);
        assert_eq!(end[3] == mark, indexed);
    }
    least
}

fn main() {
    twin::with_big_stack(|| {
        measure();
        println!();
        println!("| nodes in use | milliseconds with counts | with counts and an index |");
        println!("|---|---|---|");
        for leaves in WALKS {
            let task = walk(leaves);
            let (plain, indexed) = (walk_time(&task, false), walk_time(&task, true));
            println!("| {} | {plain:.2} | {indexed:.2} |", task.mark);
        }
    });
}
