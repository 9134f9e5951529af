//! The three engines agree word by word, on every task and on generated runs.

#![forbid(unsafe_code)]

use bench::engines::{agreed, plain_run, Run, ENGINES};
use bench::tasks::{BOTH, CALLS, DEFINITION, MODULE, NODE, RETURN};
use bench::{foreign, optimised, tasks};
use std::collections::{BTreeMap, BTreeSet};
use twin::text::RunCase;
use twin::with_big_stack;

/// How many generated runs are compared.
const CASES: u64 = 6_000;

#[test]
fn on_every_task() {
    with_big_stack(|| {
        for task in tasks::eight() {
            agreed(&task);
        }
        for task in tasks::by_nodes() {
            agreed(&task);
        }
        for task in tasks::by_entries() {
            agreed(&task);
        }
        for task in tasks::by_units().iter().take(3) {
            agreed(task);
        }
    });
}

fn left_by(run: Run, case: &RunCase) -> ([u32; 5], Vec<u32>, Vec<u32>) {
    let mut store = case.store.clone();
    let mut bindings = case.bindings.clone();
    let numbers = run(
        &case.table,
        &mut store,
        &mut bindings,
        case.mark,
        case.start,
        case.subject,
        case.units,
    );
    (numbers, store, bindings)
}

#[test]
fn on_generated_runs() {
    with_big_stack(|| {
        let mut answers = [0; 18];
        for index in 0..CASES {
            let case = twin::generate::run_case(7, index);
            let plain = left_by(plain_run, &case);
            answers[plain.0[0] as usize] += 1;
            for run in [optimised::run, optimised::run_trying, foreign::run] {
                let other = left_by(run, &case);
                assert!(plain == other, "{} differ", case.label);
            }
        }
        // Each answer is among them; 3 is no longer given, 9 is of jobs, 10 and 11 of
        // signatures.
        for (answer, &count) in answers.iter().enumerate() {
            let given = !matches!(answer, 3 | 9 | 10 | 11);
            assert_eq!(given, count > 0, "{}: {}", answer, count);
        }
    });
}

#[test]
fn on_the_checks_of_generated_words() {
    for index in 0..CASES / 6 {
        let case = twin::generate::run_case(8, index);
        let table = (ENGINES[0].check_table)(&case.table);
        let store = (ENGINES[0].check_store)(&case.store, case.mark);
        for engine in &ENGINES[1..] {
            assert_eq!(table, (engine.check_table)(&case.table), "{}", case.label);
            assert_eq!(
                store,
                (engine.check_store)(&case.store, case.mark),
                "{}",
                case.label
            );
        }
    }
}

/// What the plain engine leaves of a task's work done once.
fn once(task: &tasks::Task) -> ([u32; 5], Vec<u32>) {
    let mut store = task.store.clone();
    let numbers = plain_run(
        &task.table,
        &mut store,
        &mut [0; 64],
        task.mark,
        tasks::ONCE,
        task.subject,
        task.units,
    );
    (numbers, store)
}

#[test]
fn fibonacci_of_fifteen_is_610() {
    with_big_stack(|| {
        let (numbers, store) = once(&tasks::fibonacci(15, 2));
        assert_eq!(numbers[0], 0);
        let mut node = numbers[2] as usize;
        let mut value = 0;
        while store[8 * node] == tasks::NEXT {
            value += 1;
            node = store[8 * node + 2] as usize;
        }
        assert_eq!((value, store[8 * node]), (610, tasks::ZERO));
        // The sums of fib(20) are nested too deep.
        assert_eq!(once(&tasks::fibonacci(20, 2)).0[0], 8);
    });
}

#[test]
fn tasks_are_as_large_as_they_say() {
    with_big_stack(|| {
        let sizes: Vec<(u32, u32)> = tasks::eight()
            .iter()
            .map(|task| (task.mark, once(task).0[3]))
            .collect();
        assert_eq!(
            sizes[..5],
            [
                (87_381, 131_071),
                (65_535, 131_069),
                (131_071, 131_071),
                (128_003, 128_003),
                (84_350, 126_965)
            ]
        );
    });
}

/// A term as its constructors, from the outside in and from left to right. The
/// constructors here have one count of children each, so two terms with the same
/// constructors are equal.
fn constructors(store: &[u32], node: u32) -> Vec<u32> {
    let words = &store[8 * node as usize..][..8];
    let (constructor, children) = (words[0], &words[2..2 + words[1] as usize]);
    let expected = match constructor {
        MODULE | NODE | DEFINITION | BOTH => 2,
        CALLS => 1,
        RETURN | 1_000.. => 0,
        _ => panic!("a constructor that no module has: {}", constructor),
    };
    assert_eq!(children.len(), expected);
    let mut all = vec![constructor];
    for &child in children {
        all.extend(constructors(store, child));
    }
    all
}

/// The bodies of a tree of definitions by their names, and the names in order.
fn definitions(store: &[u32], node: u32) -> (BTreeMap<u32, Vec<u32>>, Vec<u32>) {
    let words = &store[8 * node as usize..][..8];
    let name = store[8 * words[2] as usize];
    if words[0] == DEFINITION {
        let body = constructors(store, words[3]);
        return (BTreeMap::from([(name, body)]), vec![name]);
    }
    assert_eq!(words[0], NODE);
    let (mut bodies, mut names) = definitions(store, words[2]);
    let (others, after) = definitions(store, words[3]);
    bodies.extend(others);
    names.extend(after);
    (bodies, names)
}

/// The names that a body calls.
fn called(body: &[u32]) -> impl Iterator<Item = u32> + '_ {
    let pairs = body.windows(2).filter(|two| two[0] == CALLS);
    pairs.map(|two| two[1])
}

#[test]
fn the_full_size_pruner_keeps_just_what_is_reached() {
    with_big_stack(|| {
        let task = tasks::full_size_pruner();
        let (numbers, store) = once(&task);
        assert_eq!(numbers[4], 230_929_427);
        assert_eq!((numbers[0], task.mark, numbers[3]), (0, 47_908, 91_679));
        let part = |store: &[u32], module: u32, child: usize| {
            assert_eq!(store[8 * module as usize], MODULE);
            store[8 * module as usize + 1 + child]
        };
        let (bodies, names) = definitions(&task.store, part(&task.store, task.subject, 1));
        let needed = constructors(&task.store, part(&task.store, task.subject, 2));
        let mut reached = BTreeSet::new();
        let mut work: Vec<u32> = called(&needed).collect();
        while let Some(name) = work.pop() {
            if let Some(body) = bodies.get(&name) {
                if reached.insert(name) {
                    work.extend(called(body));
                }
            }
        }
        let (kept, kept_names) = definitions(&store, part(&store, numbers[2], 1));
        let (live, dead): (Vec<u32>, Vec<u32>) =
            names.iter().partition(|&name| reached.contains(name));
        assert_eq!((live.len(), dead.len()), (870, 330));
        assert_eq!(kept_names, live);
        assert!(kept.iter().all(|(name, body)| bodies[name] == *body));
        assert_eq!(constructors(&store, part(&store, numbers[2], 2)), needed);
        // Most of what goes is called by something else that goes.
        let by_others = |name: u32| {
            let mut others = dead.iter().filter(|&&other| other != name);
            others.any(|other| called(&bodies[other]).any(|of| of == name))
        };
        let among = dead.iter().filter(|&&name| by_others(name)).count();
        assert_eq!(among, 287);
    });
}
