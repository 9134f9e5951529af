//! 02, wish 12: the store in which one term has one node.

mod common;
use common::*;
use twin::calls::{Call, CallCase, INDEX, SIGNATURE};
use twin::checks::ran;
use twin::generate::indexed_case;
use twin::{run_lent, run_many, with_big_stack, Lent, Outcome};

/// What a run gave and left, with the index.
#[derive(Clone, Debug, PartialEq)]
struct Indexed {
    outcome: Outcome,
    store: Vec<u32>,
    bindings: Vec<u32>,
    index: Vec<u32>,
}

/// Runs from entry 0 with an index of garbage that is longer than it must be.
fn indexed(table: &[u32], store: Vec<u32>, mark: u32, subject: u32, units: u32) -> Indexed {
    let index = vec![7; 2 * (store.len() / 8) + 5];
    indexed_with(table, store, mark, subject, units, None, index)
}

fn indexed_with(
    table: &[u32],
    mut store: Vec<u32>,
    mark: u32,
    subject: u32,
    units: u32,
    signature: Option<Vec<u32>>,
    mut index: Vec<u32>,
) -> Indexed {
    let table = table.to_vec();
    with_big_stack(move || {
        let mut bindings = vec![0; 64];
        let lent = Lent {
            signature: signature.as_deref(),
            index: Some(&mut index),
        };
        let outcome = run_lent(
            &table,
            &mut store,
            &mut bindings,
            mark,
            0,
            subject,
            units,
            lent,
            &mut (),
        );
        Indexed {
            outcome,
            store,
            bindings,
            index,
        }
    })
}

/// Expects a run on the small store, which leaves these nodes and a zero index.
fn leaves(table: &[u32], expected: Outcome, rows: &[(u32, &[u32])]) {
    let mut soiled = small_store();
    soiled[24..].fill(77);
    let after = indexed(table, soiled, 3, 2, 1_000);
    assert_eq!(after.outcome, expected);
    assert_eq!(after.store, store(rows, 64));
    assert_eq!(after.index, vec![0; 133]);
}

const SMALL: [(u32, &[u32]); 3] = [(1, &[]), (2, &[]), (5, &[0, 1])];

#[test]
fn a_node_that_stands_below_the_mark_is_not_made_again() {
    // BUILD 5(1(), 2()): all three stand there.
    let words = table(&[
        (BUILD, 0, &[1]),
        (PCON, 5, &[2, 3]),
        (PCON, 1, &[]),
        (PCON, 2, &[]),
    ]);
    leaves(&words, outcome(0, 0, 2, 3, 4), &SMALL);
    // BUILD 6(5(1(), 2()), 6()): two are new, and 6() is made first.
    let words = table(&[
        (BUILD, 0, &[1]),
        (PCON, 6, &[2, 5]),
        (PCON, 5, &[3, 4]),
        (PCON, 1, &[]),
        (PCON, 2, &[]),
        (PCON, 6, &[]),
    ]);
    let rows: [(u32, &[u32]); 5] = [(1, &[]), (2, &[]), (5, &[0, 1]), (6, &[]), (6, &[2, 3])];
    leaves(&words, outcome(0, 0, 4, 5, 6), &rows);
    // BUILD 6(9(), 9()): a node that the run itself made is found.
    let words = table(&[
        (BUILD, 0, &[1]),
        (PCON, 6, &[2, 3]),
        (PCON, 9, &[]),
        (PCON, 9, &[]),
    ]);
    let rows: [(u32, &[u32]); 5] = [(1, &[]), (2, &[]), (5, &[0, 1]), (9, &[]), (6, &[3, 3])];
    leaves(&words, outcome(0, 0, 4, 5, 4), &rows);
    // The constructor, the count and every child count.
    let words = table(&[(BUILD, 0, &[1]), (PCON, 5, &[2, 2]), (PCON, 1, &[])]);
    let rows: [(u32, &[u32]); 4] = [(1, &[]), (2, &[]), (5, &[0, 1]), (5, &[0, 0])];
    leaves(&words, outcome(0, 0, 3, 4, 4), &rows);
}

#[test]
fn traversals_that_change_nothing_give_the_node_itself() {
    for (kind, argument, units) in [(ALL, 0, 3), (SOME, 0, 3), (ONE, 0, 2), (PATH, 2, 2)] {
        let words = table(&[(kind, argument, &[1]), (ID, 0, &[])]);
        leaves(&words, outcome(0, 0, 2, 3, units), &SMALL);
    }
    let words = table(&[(CONG, 5, &[1, 1]), (ID, 0, &[])]);
    leaves(&words, outcome(0, 0, 2, 3, 3), &SMALL);
}

#[test]
fn where_it_is_found_no_room_is_wanted() {
    let full = || store(&SMALL, 3);
    let words = table(&[(ALL, 0, &[1]), (ID, 0, &[])]);
    let after = indexed(&words, full(), 3, 2, 9);
    assert_eq!(after.outcome, outcome(0, 0, 2, 3, 3));
    let plain = run_small(&words, full(), 2, 9);
    assert_eq!(plain.outcome, outcome(7, 0, 2, 3, 3));
    // A new node wants room as ever.
    let words = table(&[(BUILD, 0, &[1]), (PCON, 9, &[])]);
    let after = indexed(&words, full(), 3, 2, 9);
    assert_eq!(after.outcome, outcome(7, 0, 2, 3, 2));
    assert_eq!(after.index, vec![0; 11]);
}

#[test]
fn a_node_above_the_mark_is_not_found() {
    // Node 3 would be 9(), but the mark is 3.
    let words = table(&[(BUILD, 0, &[1]), (PCON, 6, &[2]), (PCON, 9, &[])]);
    let rows: [(u32, &[u32]); 5] = [(1, &[]), (2, &[]), (5, &[0, 1]), (6, &[4]), (9, &[])];
    let after = indexed(&words, store(&rows, 8), 3, 2, 9);
    assert_eq!(after.outcome, outcome(0, 0, 4, 5, 3));
    let rows: [(u32, &[u32]); 5] = [(1, &[]), (2, &[]), (5, &[0, 1]), (9, &[]), (6, &[3])];
    assert_eq!(after.store, store(&rows, 8));
}

#[test]
fn room_given_back_is_forgotten() {
    // LEFT(SEQ(BUILD 8(9()), FAIL), BUILD 7(9())): 9() is made again, as node 3.
    let words = table(&[
        (LEFT, 0, &[1, 2]),
        (SEQ, 0, &[3, 4]),
        (BUILD, 0, &[6]),
        (BUILD, 0, &[5]),
        (FAIL, 0, &[]),
        (PCON, 8, &[7]),
        (PCON, 7, &[7]),
        (PCON, 9, &[]),
    ]);
    let rows: [(u32, &[u32]); 5] = [(1, &[]), (2, &[]), (5, &[0, 1]), (9, &[]), (7, &[3])];
    leaves(&words, outcome(0, 0, 4, 5, 9), &rows);
    // After TEST, too: SEQ(TEST(BUILD 9()), BUILD 6(9())).
    let words = table(&[
        (SEQ, 0, &[1, 2]),
        (TEST, 0, &[3]),
        (BUILD, 0, &[4]),
        (BUILD, 0, &[5]),
        (PCON, 6, &[5]),
        (PCON, 9, &[]),
    ]);
    let rows: [(u32, &[u32]); 5] = [(1, &[]), (2, &[]), (5, &[0, 1]), (9, &[]), (6, &[3])];
    leaves(&words, outcome(0, 0, 4, 5, 7), &rows);
    // WHERE keeps its nodes: SEQ(WHERE(BUILD 9()), BUILD 9()).
    let words = table(&[
        (SEQ, 0, &[1, 2]),
        (WHERE, 0, &[3]),
        (BUILD, 0, &[4]),
        (BUILD, 0, &[4]),
        (PCON, 9, &[]),
    ]);
    let rows: [(u32, &[u32]); 4] = [(1, &[]), (2, &[]), (5, &[0, 1]), (9, &[])];
    leaves(&words, outcome(0, 0, 3, 4, 6), &rows);
}

#[test]
fn equal_numbers_save_no_pair_visits() {
    // MATCH 6(x, x) on 6(5(1(), 2()), 5(1(), 2())): three pairs.
    let words = table(&[(MATCH, 0, &[1]), (PCON, 6, &[2, 2]), (PVAR, 0, &[])]);
    let rows: [(u32, &[u32]); 4] = [(1, &[]), (2, &[]), (5, &[0, 1]), (6, &[2, 2])];
    let after = indexed(&words, store(&rows, 8), 4, 3, 99);
    assert_eq!(after.outcome, outcome(0, 0, 3, 4, 7));
    for units in 0..7 {
        let after = indexed(&words, store(&rows, 8), 4, 3, units);
        assert_eq!(after.outcome, outcome(6, 0, 3, 4, units));
        assert_eq!(after.index, vec![0; 21]);
    }
}

#[test]
fn the_index_is_zero_after_every_run() {
    let endless = table(&[(REC, 0, &[1]), (CALL, 0, &[0])]);
    for (words, answer) in [
        (table(&[(ID, 0, &[])]), 0),
        (table(&[(FAIL, 0, &[])]), 1),
        (endless, 8),
        (table(&[(BUILD, 0, &[1]), (PVAR, 0, &[])]), 12),
    ] {
        let after = indexed(&words, small_store(), 3, 2, 9_999);
        assert_eq!(after.outcome.answer, answer);
        assert_eq!(after.index, vec![0; 133]);
    }
}

/// Expects a refusal that wrote nothing.
fn refused(
    table: &[u32],
    store: &[u32],
    (mark, subject): (u32, u32),
    signature: Option<&[u32]>,
    index: usize,
    expected: (u32, u32),
) {
    let after = indexed_with(
        table,
        store.to_vec(),
        mark,
        subject,
        9,
        signature.map(|words| words.to_vec()),
        vec![7; index],
    );
    let expected = outcome(expected.0, expected.1, subject, mark, 0);
    assert_eq!(after.outcome, expected);
    assert_eq!(after.store, store);
    assert_eq!(after.bindings, vec![0; 64]);
    assert_eq!(after.index, vec![7; index]);
}

#[test]
fn refusals_and_their_order() {
    let id = table(&[(ID, 0, &[])]);
    // Shorter than twice the store's nodes, not the mark's.
    for index in [0, 6, 64, 127] {
        refused(&id, &small_store(), (3, 2), None, index, (2, 0));
    }
    let after = indexed_with(&id, small_store(), 3, 2, 9, None, vec![7; 128]);
    assert_eq!(after.outcome, outcome(0, 0, 2, 3, 1));
    // 21 with the lowest node that has an earlier one's words.
    let rows: [(u32, &[u32]); 6] = [
        (1, &[]),
        (2, &[]),
        (5, &[0, 1]),
        (2, &[]),
        (5, &[0, 1]),
        (1, &[]),
    ];
    let twice = store(&rows, 8);
    refused(&id, &twice, (6, 2), None, 16, (21, 3));
    refused(&id, &twice, (4, 2), None, 16, (21, 3));
    // From the mark on nothing is looked at.
    let after = indexed_with(&id, twice.clone(), 3, 2, 9, None, vec![7; 16]);
    assert_eq!(after.outcome, outcome(0, 0, 2, 3, 1));
    // The words are compared, not the terms: 5(0, 3) is an equal term only.
    let rows: [(u32, &[u32]); 5] = [(1, &[]), (2, &[]), (5, &[0, 1]), (2, &[]), (5, &[0, 3])];
    refused(&id, &store(&rows, 8), (5, 2), None, 16, (21, 3));
    // After 4, 10 and 11 and before 5.
    refused(&id, &twice, (6, 6), None, 16, (21, 3));
    refused(&id, &twice, (6, 6), Some(&[7, 7, 0, 7, 7, 2]), 16, (11, 0));
    let cong = table(&[(CONG, 6, &[])]);
    refused(
        &cong,
        &twice,
        (6, 6),
        Some(&[7, 7, 0, 7, 7, 2]),
        16,
        (10, 0),
    );
    let mut bad = twice.clone();
    bad[8 * 5 + 7] = 1;
    refused(&cong, &bad, (6, 6), Some(&[7, 7, 0, 7, 7, 2]), 16, (4, 5));
    refused(&cong, &bad, (6, 6), Some(&[8]), 16, (2, 0));
    refused(&cong, &bad, (6, 6), None, 15, (2, 0));
}

#[test]
fn without_an_index_equal_nodes_are_accepted() {
    let rows: [(u32, &[u32]); 3] = [(1, &[]), (1, &[]), (5, &[0, 1])];
    let words = table(&[(ALL, 0, &[1]), (ID, 0, &[])]);
    let after = run_small(&words, store(&rows, 8), 2, 9);
    assert_eq!(after.outcome, outcome(0, 0, 3, 4, 3));
}

#[test]
fn many_subjects() {
    // BUILD 9(): made for the first subject, found for the others.
    let words = table(&[(BUILD, 0, &[1]), (PCON, 9, &[])]);
    let call = |subjects: &[u32], length: usize| {
        let mut store = small_store();
        store[24..].fill(77);
        let mut results = vec![5; 5 * subjects.len()];
        let mut index = vec![7; length];
        let lent = Lent {
            signature: None,
            index: Some(&mut index),
        };
        let bindings = [0; 64];
        let answer = run_many(
            &words,
            &mut store,
            &bindings,
            3,
            0,
            subjects,
            9,
            &mut results,
            lent,
        );
        (answer, results, store, index)
    };
    let (answer, results, after, index) = call(&[0, 1, 2], 130);
    assert_eq!(answer, (0, 0));
    let expected = [[0, 0, 3, 4, 2], [0, 0, 3, 4, 2], [0, 0, 3, 4, 2]];
    assert_eq!(results, expected.concat());
    let rows: [(u32, &[u32]); 4] = [(1, &[]), (2, &[]), (5, &[0, 1]), (9, &[])];
    assert_eq!(after, store(&rows, 64));
    assert_eq!(index, vec![0; 130]);
    // Too short an index, and a bad subject: the index stays as lent.
    assert_eq!(call(&[0], 127).0, (2, 0));
    assert_eq!(call(&[0], 127).3, vec![7; 127]);
    assert_eq!(call(&[3], 128).0, (5, 0));
    assert_eq!(call(&[3], 128).3, vec![7; 128]);
    // With no subjects nothing is written.
    let (answer, _, after, index) = call(&[], 128);
    assert_eq!(answer, (0, 0));
    assert_eq!(after[24..], [77; 488]);
    assert_eq!(index, vec![7; 128]);
}

/// A term's value for each node, as a number that equal terms share.
fn values(store: &[u32], mark: u32, known: &mut Vec<Vec<u32>>) -> Vec<u32> {
    let mut numbers: Vec<u32> = Vec::new();
    for row in store.chunks(8).take(mark as usize) {
        let mut value = vec![row[0]];
        let children = &row[2..2 + row[1] as usize];
        value.extend(children.iter().map(|&child| numbers[child as usize]));
        let found = known.iter().position(|other| *other == value);
        numbers.push(found.unwrap_or_else(|| {
            known.push(value);
            known.len() - 1
        }) as u32);
    }
    numbers
}

#[test]
fn generated_runs_beside_the_plain_store() {
    let seen = with_big_stack(|| {
        let mut seen = [0; 100];
        for number in 0..3_000 {
            let case = indexed_case(51, number);
            assert_eq!(CallCase::parse(&case.line()).as_ref(), Ok(&case));
            if case.call != Call::Run {
                continue;
            }
            let mut index = case.words(INDEX).expect("an index is lent");
            let lent_index = index.clone();
            let signature = case.words(SIGNATURE);
            let mut ends = Vec::new();
            for shared in [true, false] {
                let mut run = case.run.clone();
                let lent = Lent {
                    signature: signature.as_deref(),
                    index: if shared { Some(&mut index) } else { None },
                };
                let outcome = run.run_lent(lent);
                ends.push((outcome, run.store, run.bindings));
            }
            let label = &case.run.label;
            let (shared, plain) = (&ends[0], &ends[1]);
            seen[shared.0.answer as usize] += 1;
            if !ran(shared.0.answer) {
                assert_eq!(index, lent_index, "{}", label);
                assert_eq!(shared.1, case.run.store, "{}", label);
                continue;
            }
            assert!(index.iter().all(|&word| word == 0), "{}", label);
            // Wherever the plain store answers anything but 7, so does this one.
            if plain.0.answer == 7 {
                continue;
            }
            assert_eq!(shared.0.answer, plain.0.answer, "{}", label);
            assert_eq!(shared.0.place, plain.0.place, "{}", label);
            assert_eq!(shared.0.units, plain.0.units, "{}", label);
            assert!(shared.0.mark <= plain.0.mark, "{}", label);
            if plain.0.mark > 400 {
                continue;
            }
            let mut known = Vec::new();
            let one = values(&shared.1, shared.0.mark, &mut known);
            let two = values(&plain.1, plain.0.mark, &mut known);
            assert_eq!(
                one[shared.0.subject as usize],
                two[plain.0.subject as usize]
            );
            for (a, b) in shared.2.iter().zip(&plain.2) {
                let first = a.checked_sub(1).map(|node| one[node as usize]);
                let second = b.checked_sub(1).map(|node| two[node as usize]);
                assert_eq!(first, second, "{}", label);
            }
            // Two terms are equal exactly when their numbers are.
            let mut sorted = one.clone();
            sorted.sort_unstable();
            sorted.dedup();
            assert_eq!(sorted.len(), one.len(), "{}", label);
        }
        seen
    });
    for answer in [0, 1, 2, 4, 5, 6, 7, 8, 11, 12, 21] {
        assert!(seen[answer] > 3, "{} {}", answer, seen[answer]);
    }
}

#[test]
fn a_line_and_its_answer() {
    // ALL(ID) on 5(1(), 1()), with an index of garbage.
    let line = "l 2 0 1 9 4 0 16 0 1 24 8 2 64 0 7 6 9 6 0 0 177 0 2 1 1 0 1 1 8 5 1 9 2 1 10 0 i1";
    let after = CallCase::parse(line).unwrap().answer();
    assert_eq!(after, "i1 0 0 1 2 3 : 0=1 8=5 9=2 :");
    let line = "l 2 0 1 9 4 0 16 0 1 24 0 2 64 0 7 6 9 4 0 0 177 0 2 1 1 0 1 1 8 1 i2";
    let after = CallCase::parse(line).unwrap().answer();
    assert_eq!(after, "i2 21 1 1 2 0 : 0=1 8=1 : 0=9 1=9 2=9 3=9 4=9 5=9");
}
