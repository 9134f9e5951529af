//! Timing: engines in turn, several rounds, the best time of each.

#![forbid(unsafe_code)]

use crate::engines::{agreed, Run, ENGINES};
use crate::foreign::processor_time;
use crate::maude::{self, Maude};
use crate::optimised;
use crate::tasks::{by_entries, by_nodes, by_units, eight, Task};
use crate::terms::Terms;
use crate::whole_module::{self, Whole};

/// A task with its visits and the best time of each engine, in seconds.
pub struct Measured {
    /// The task's name.
    pub name: String,
    /// What the task does.
    pub about: String,
    /// How often it does so in one run.
    pub times: usize,
    /// The units used.
    pub visits: u32,
    /// The best times: proved, plain, optimised.
    pub best: [f64; 3],
    /// The best time of the optimised engine where it skips no alternative.
    pub trying: f64,
}

impl Measured {
    /// Million visits a second of an engine.
    pub fn rate(&self, engine: usize) -> f64 {
        f64::from(self.visits) / self.best[engine] / 1e6
    }

    /// Million visits a second where no alternative is skipped.
    pub fn rate_trying(&self) -> f64 {
        f64::from(self.visits) / self.trying / 1e6
    }

    /// The speed of the proved engine over that of another.
    pub fn ratio(&self, engine: usize) -> f64 {
        self.best[engine] / self.best[0]
    }
}

/// A piece of work with the best time of each engine, in seconds.
pub struct Cost {
    /// What is done.
    pub name: String,
    /// The best times: proved, plain, optimised.
    pub best: [f64; 3],
}

/// All that is measured.
pub struct All {
    /// The eight tasks.
    pub tasks: Vec<Measured>,
    /// The same tasks in Maude, where it is installed.
    pub maude: Option<Maude>,
    /// The checks and the clearing.
    pub costs: Vec<Cost>,
    /// A whole module in one call.
    pub whole: Whole,
    /// The time by nodes, by entries, by units.
    pub growth: [Vec<Measured>; 3],
    /// How many rounds the tasks had.
    pub rounds: usize,
}

/// The time of one run, with its words copied before the clock starts.
fn time(run: Run, task: &Task, store: &mut [u32]) -> f64 {
    store.copy_from_slice(&task.store);
    let mut bindings = [0; 64];
    let begin = processor_time();
    let numbers = run(
        &task.table,
        store,
        &mut bindings,
        task.mark,
        0,
        task.subject,
        task.units,
    );
    let spent = processor_time() - begin;
    assert_eq!(numbers[0], task.answer, "{}", task.name);
    spent
}

/// Compares the engines on a task, then times them.
pub fn measure(task: &Task, rounds: usize) -> Measured {
    let visits = agreed(task)[4];
    let runs = [
        ENGINES[0].run,
        ENGINES[1].run,
        ENGINES[2].run,
        optimised::run_trying,
    ];
    let mut store = task.store.clone();
    let mut best = [f64::INFINITY; 4];
    for round in 0..rounds {
        for turn in 0..4 {
            // The order goes round, so that no engine is always the first.
            let engine = (turn + round) % 4;
            best[engine] = best[engine].min(time(runs[engine], task, &mut store));
        }
    }
    Measured {
        name: task.name.clone(),
        about: task.about.clone(),
        times: task.times,
        visits,
        best: [best[0], best[1], best[2]],
        trying: best[3],
    }
}

/// Times a piece of work on each engine in turn.
fn cost<F: FnMut(usize)>(name: &str, rounds: usize, mut work: F) -> Cost {
    let mut best = [f64::INFINITY; 3];
    for round in 0..rounds {
        for turn in 0..3 {
            let engine = (turn + round) % 3;
            let begin = processor_time();
            work(engine);
            best[engine] = best[engine].min(processor_time() - begin);
        }
    }
    Cost {
        name: name.to_string(),
        best,
    }
}

/// The cost of the checks and of the clearing.
fn costs(rounds: usize) -> Vec<Cost> {
    let tables = by_entries();
    let table = &tables[tables.len() - 1].table;
    let mut terms = Terms::new();
    let subject = terms.balanced(5, 65_536);
    let mark = terms.mark() as u32;
    let mut store = terms.store(crate::tasks::ROOM);
    let mut bindings = [0; 64];
    let mut all = vec![
        cost("table check, 4,096 entries", rounds, |engine| {
            assert_eq!((ENGINES[engine].check_table)(table), [0, 0]);
        }),
        cost("store check, 131,071 nodes", rounds, |engine| {
            assert_eq!((ENGINES[engine].check_store)(&store, mark), [0, 0]);
        }),
    ];
    // The last entry of that table is an ID.
    let start = (table.len() / 8 - 1) as u32;
    all.push(cost(
        "a run of one ID over both: checks and copies, 1 node cleared",
        rounds,
        |engine| {
            let run = ENGINES[engine].run;
            let numbers = run(
                table,
                &mut store,
                &mut bindings,
                mark,
                start,
                subject,
                u32::MAX,
            );
            assert_eq!(numbers, [0, 0, subject, mark, 1]);
        },
    ));
    all.push(cost(
        "a run of one ID, one entry, one node: 131,071 nodes cleared",
        rounds,
        |engine| {
            let run = ENGINES[engine].run;
            let numbers = run(&[0; 8], &mut store, &mut bindings, 1, 0, 0, u32::MAX);
            assert_eq!(numbers, [0, 0, 0, 1, 1]);
        },
    ));
    all
}

/// Measures all. The rounds are those of the tasks.
pub fn all(rounds: usize) -> All {
    let several = |tasks: &[Task], rounds| -> Vec<Measured> {
        tasks.iter().map(|task| measure(task, rounds)).collect()
    };
    let tasks = eight();
    All {
        tasks: several(&tasks, rounds),
        maude: maude::beside(&tasks),
        costs: costs(4 * rounds),
        whole: whole_module::measure(rounds),
        growth: [
            several(&by_nodes(), 2 * rounds),
            several(&by_entries(), rounds),
            several(&by_units(), 1 + rounds / 3),
        ],
        rounds,
    }
}
