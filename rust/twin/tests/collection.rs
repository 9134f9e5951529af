//! 02, wish 7: room back between passes.

mod common;
use common::*;
use twin::generate::run_case;
use twin::{check_store, collect, run, with_big_stack, Collected};

/// An input of the call, and what it left.
#[derive(Clone, Debug, PartialEq)]
struct Input {
    store: Vec<u32>,
    bindings: Vec<u32>,
    mark: u32,
    subject: u32,
    work: Vec<u32>,
}

fn call(input: &mut Input) -> Collected {
    collect(
        &mut input.store,
        &mut input.bindings,
        input.mark,
        input.subject,
        &mut input.work,
    )
}

fn collected(answer: u32, place: u32, subject: u32, mark: u32) -> Collected {
    Collected {
        answer,
        place,
        subject,
        mark,
    }
}

/// Six nodes, of which 1, 3 and 4 are reachable from subject 4; garbage above
/// the mark and in the work list.
fn input() -> Input {
    let rows: [(u32, &[u32]); 6] = [
        (7, &[]),
        (1, &[]),
        (2, &[0, 1]),
        (3, &[1, 1]),
        (4, &[3, 1, 3]),
        (5, &[4, 2]),
    ];
    let mut words = store(&rows, 10);
    words[48..].fill(77);
    Input {
        store: words,
        bindings: vec![0; 64],
        mark: 6,
        subject: 4,
        work: vec![9; 12],
    }
}

/// Expects a refusal that wrote nothing.
fn refused(input: &Input, answer: u32, place: u32) {
    let mut after = input.clone();
    let end = call(&mut after);
    assert_eq!(end, collected(answer, place, input.subject, input.mark));
    assert_eq!(after, *input);
}

#[test]
fn it_keeps_just_the_reachable_nodes_in_their_old_order() {
    let mut after = input();
    assert_eq!(call(&mut after), collected(0, 0, 2, 3));
    let rows: [(u32, &[u32]); 3] = [(1, &[]), (3, &[0, 0]), (4, &[1, 0, 1])];
    // Everything from the new mark on is zero, what was garbage included.
    assert_eq!(after.store, store(&rows, 10));
    assert_eq!(after.bindings, vec![0; 64]);
    // The whole work list is zero, also beyond the store's nodes.
    assert_eq!(after.work, vec![0; 12]);
}

#[test]
fn bound_variables_are_roots_and_are_moved() {
    let mut after = input();
    after.bindings[0] = 3;
    after.bindings[63] = 5;
    assert_eq!(call(&mut after), collected(0, 0, 4, 5));
    let rows: [(u32, &[u32]); 5] = [
        (7, &[]),
        (1, &[]),
        (2, &[0, 1]),
        (3, &[1, 1]),
        (4, &[3, 1, 3]),
    ];
    assert_eq!(after.store, store(&rows, 10));
    assert_eq!((after.bindings[0], after.bindings[63]), (3, 5));
    // The greatest word is the mark.
    let mut after = input();
    after.subject = 1;
    after.bindings[4] = 6;
    assert_eq!(call(&mut after), collected(0, 0, 1, 6));
    let mut after = input();
    after.subject = 3;
    after.bindings[4] = 2;
    assert_eq!(call(&mut after), collected(0, 0, 1, 2));
    assert_eq!(after.bindings[4], 1);
}

#[test]
fn a_node_that_only_a_dropped_one_names_is_dropped() {
    let mut after = input();
    after.subject = 1;
    assert_eq!(call(&mut after), collected(0, 0, 0, 1));
    assert_eq!(after.store, store(&[(1, &[])], 10));
}

#[test]
fn equal_terms_at_different_numbers_both_stay() {
    let rows: [(u32, &[u32]); 4] = [(1, &[]), (9, &[]), (1, &[]), (5, &[0, 2])];
    let mut after = Input {
        store: store(&rows, 4),
        bindings: vec![0; 64],
        mark: 4,
        subject: 3,
        work: vec![0; 4],
    };
    assert_eq!(call(&mut after), collected(0, 0, 2, 3));
    let rows: [(u32, &[u32]); 3] = [(1, &[]), (1, &[]), (5, &[0, 1])];
    assert_eq!(after.store, store(&rows, 4));
}

#[test]
fn a_second_collection_changes_nothing() {
    let mut once = input();
    once.bindings[7] = 3;
    let end = call(&mut once);
    let mut twice = Input {
        mark: end.mark,
        subject: end.subject,
        ..once.clone()
    };
    assert_eq!(call(&mut twice), end);
    assert_eq!((twice.store, twice.bindings), (once.store, once.bindings));
}

#[test]
fn refusals_and_their_order() {
    // 5: the subject, a binding, no node at all.
    for subject in [6, 7, u32::MAX] {
        refused(&Input { subject, ..input() }, 5, 0);
    }
    for word in [7, u32::MAX] {
        let mut bad = input();
        bad.bindings[63] = word;
        refused(&bad, 5, 0);
    }
    refused(
        &Input {
            mark: 0,
            subject: 0,
            ..input()
        },
        5,
        0,
    );
    // 4 before 5, the lowest; a bad node need not be reachable.
    let mut bad = input();
    bad.subject = 6;
    bad.store[8 * 5 + 7] = 1;
    refused(&bad, 4, 5);
    bad.store[8 * 2 + 2] = 2;
    refused(&bad, 4, 2);
    bad.store[0] = 65_536;
    refused(&bad, 4, 0);
    // 2 before 4: the store, the mark, the bindings, the work list.
    for length in [79, 81, 1_048_584] {
        let mut other = bad.clone();
        other.store.resize(length, 0);
        other.work.resize(140_000, 0);
        refused(&other, 2, 0);
    }
    refused(
        &Input {
            mark: 11,
            ..bad.clone()
        },
        2,
        0,
    );
    for length in [0, 32, 63, 65] {
        let mut other = bad.clone();
        other.bindings.resize(length, 0);
        refused(&other, 2, 0);
    }
    // A word for each node of the store, not of the mark.
    for length in [0, 6, 9] {
        let mut other = bad.clone();
        other.work.resize(length, 0);
        refused(&other, 2, 0);
        let mut other = input();
        other.work.resize(length, 0);
        refused(&other, 2, 0);
    }
    let mut exact = input();
    exact.work.resize(10, 0);
    assert_eq!(call(&mut exact), collected(0, 0, 2, 3));
}

/// The value of each node, as a number that equal terms share.
fn values(store: &[u32], mark: u32, known: &mut Vec<Vec<u32>>) -> Vec<u32> {
    let mut numbers: Vec<u32> = Vec::new();
    for row in store.chunks(8).take(mark as usize) {
        let mut value = vec![row[0]];
        value.extend(
            row[2..2 + row[1] as usize]
                .iter()
                .map(|&child| numbers[child as usize]),
        );
        let found = known.iter().position(|other| *other == value);
        numbers.push(found.unwrap_or_else(|| {
            known.push(value);
            known.len() - 1
        }) as u32);
    }
    numbers
}

/// The values of the bound variables.
fn bound(bindings: &[u32], values: &[u32]) -> Vec<Option<u32>> {
    bindings
        .iter()
        .map(|&word| word.checked_sub(1).map(|node| values[node as usize]))
        .collect()
}

#[test]
fn generated_collections() {
    let mut done = 0;
    with_big_stack(move || {
        for index in 0..1_500 {
            let case = run_case(41, index);
            // A word for each node, one less, some more; never zero before.
            let nodes = case.store.len() / 8;
            let words = [nodes, nodes.saturating_sub(1), nodes + 3][index as usize % 3];
            let before = Input {
                store: case.store.clone(),
                bindings: case.bindings.clone(),
                mark: case.mark,
                subject: case.subject,
                work: vec![9; words],
            };
            let mut after = before.clone();
            let end = call(&mut after);
            if end.answer != 0 {
                refused(&before, end.answer, end.place);
                continue;
            }
            done += 1;
            let label = &case.label;
            assert!(after.work.iter().all(|&word| word == 0), "{}", label);
            let above = 8 * end.mark as usize;
            assert!(after.store[above..].iter().all(|&word| word == 0));
            assert_eq!(check_store(&after.store, end.mark), (0, 0), "{}", label);
            if before.mark > 500 {
                continue;
            }
            // Subject and bindings name terms equal to those before.
            let mut known = Vec::new();
            let old = values(&before.store, before.mark, &mut known);
            let new = values(&after.store, end.mark, &mut known);
            assert_eq!(old[before.subject as usize], new[end.subject as usize]);
            assert_eq!(bound(&before.bindings, &old), bound(&after.bindings, &new));
            // Every node that is left is reachable, and the kept ones are those
            // of the old order.
            let mut again = Input {
                mark: end.mark,
                subject: end.subject,
                ..after.clone()
            };
            assert_eq!(call(&mut again), end, "{}", label);
            let mut rest = old.iter();
            assert!(new.iter().all(|value| rest.any(|other| other == value)));
        }
        assert!(done > 500, "{}", done);
    });
}

#[test]
fn generated_runs_before_and_after() {
    // "A run done before it gives an equal term after it, one that failed fails,
    // with the same units."
    let (done, failed) = with_big_stack(|| {
        let mut done = 0;
        let mut failed = 0;
        for index in 0..2_500 {
            let case = run_case(42, index);
            if case.mark > 500 {
                continue;
            }
            let mut plain = case.clone();
            let first = run(
                &plain.table,
                &mut plain.store,
                &mut plain.bindings,
                case.mark,
                case.start,
                case.subject,
                case.units,
            );
            if first.answer > 1 {
                continue;
            }
            let mut small = case.clone();
            let mut work = vec![0; small.store.len() / 8];
            let end = collect(
                &mut small.store,
                &mut small.bindings,
                small.mark,
                small.subject,
                &mut work,
            );
            assert_eq!(end.answer, 0, "{}", case.label);
            let second = run(
                &small.table,
                &mut small.store,
                &mut small.bindings,
                end.mark,
                case.start,
                end.subject,
                case.units,
            );
            assert_eq!(second.answer, first.answer, "{}", case.label);
            assert_eq!(second.place, first.place, "{}", case.label);
            assert_eq!(second.units, first.units, "{}", case.label);
            let mut known = Vec::new();
            let one = values(&plain.store, first.mark, &mut known);
            let two = values(&small.store, second.mark, &mut known);
            assert_eq!(one[first.subject as usize], two[second.subject as usize]);
            assert_eq!(bound(&plain.bindings, &one), bound(&small.bindings, &two));
            done += u32::from(first.answer == 0 && end.mark < case.mark);
            failed += u32::from(first.answer == 1 && end.mark < case.mark);
        }
        (done, failed)
    });
    assert!(done > 100 && failed > 50, "{} {}", done, failed);
}
