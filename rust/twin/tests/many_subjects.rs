//! 02, wish 1: a whole module in one call.

mod common;
use common::*;
use twin::calls::{CallCase, RESULTS, SIGNATURE, SUBJECTS};
use twin::checks::ran;
use twin::generate::many_case;
use twin::{run_lent, run_many, with_big_stack, Lent};

/// An input of the call.
#[derive(Clone)]
struct Input {
    table: Vec<u32>,
    store: Vec<u32>,
    bindings: Vec<u32>,
    mark: u32,
    start: u32,
    subjects: Vec<u32>,
    results: Vec<u32>,
    units: u32,
    signature: Option<Vec<u32>>,
}

/// What the call gave and left.
#[derive(Debug, PartialEq)]
struct Many {
    answer: (u32, u32),
    store: Vec<u32>,
    results: Vec<u32>,
}

/// Makes the call on a big stack.
fn call(input: &Input) -> Many {
    let input = input.clone();
    with_big_stack(move || call_here(&input))
}

fn call_here(input: &Input) -> Many {
    let mut store = input.store.clone();
    let mut results = input.results.clone();
    let lent = Lent {
        signature: input.signature.as_deref(),
        ..Lent::default()
    };
    let answer = run_many(
        &input.table,
        &mut store,
        &input.bindings,
        input.mark,
        input.start,
        &input.subjects,
        input.units,
        &mut results,
        lent,
    );
    Many {
        answer,
        store,
        results,
    }
}

/// The rule 1() to 8(1()), which fails on all other terms. Entry 3 is its head.
fn wrap() -> Vec<u32> {
    table(&[
        (SEQ, 0, &[1, 2]),
        (MATCH, 0, &[3]),
        (BUILD, 0, &[4]),
        (PCON, 1, &[]),
        (PCON, 8, &[5]),
        (PCON, 1, &[]),
    ])
}

/// The small store with garbage above the mark, and results that hold garbage.
fn on_small(table: Vec<u32>, subjects: &[u32]) -> Input {
    let mut store = small_store();
    store[24..].fill(77);
    Input {
        table,
        store,
        bindings: vec![0; 64],
        mark: 3,
        start: 0,
        subjects: subjects.to_vec(),
        results: vec![99; 5 * subjects.len()],
        units: 1_000,
        signature: None,
    }
}

/// Expects a refusal that wrote nothing.
fn refused(input: &Input, answer: u32, place: u32) {
    let after = call(input);
    assert_eq!(after.answer, (answer, place));
    assert_eq!(after.store, input.store);
    assert_eq!(after.results, input.results);
}

#[test]
fn each_begins_with_the_mark_left_by_the_one_before() {
    // 1() is done, 2() fails, 1() is done again, 5(..) fails.
    let after = call(&on_small(wrap(), &[0, 1, 0, 2]));
    assert_eq!(after.answer, (0, 0));
    let expected = [
        [0, 0, 4, 5, 6],
        [1, 3, 1, 5, 3],
        [0, 0, 6, 7, 6],
        [1, 3, 2, 7, 3],
    ];
    assert_eq!(after.results, expected.concat());
    let rows: [(u32, &[u32]); 7] = [
        (1, &[]),
        (2, &[]),
        (5, &[0, 1]),
        (1, &[]),
        (8, &[3]),
        (1, &[]),
        (8, &[5]),
    ];
    assert_eq!(after.store, store(&rows, 64));
}

#[test]
fn a_failed_or_cut_off_subject_does_not_stop_the_rest() {
    // LEFT(wrap, endless) with ten units: 2() is cut off, 1() is done.
    let words = table(&[
        (LEFT, 0, &[1, 4]),
        (SEQ, 0, &[2, 3]),
        (MATCH, 0, &[6]),
        (BUILD, 0, &[7]),
        (REC, 0, &[5]),
        (CALL, 0, &[4]),
        (PCON, 1, &[]),
        (PCON, 9, &[]),
    ]);
    let mut input = on_small(words, &[1, 0, 1, 0]);
    input.units = 10;
    let after = call(&input);
    let expected = [
        [6, 0, 1, 3, 10],
        [0, 0, 3, 4, 6],
        [6, 0, 1, 4, 10],
        [0, 0, 4, 5, 6],
    ];
    assert_eq!(after.results, expected.concat());
    // Room and nesting end one subject alone, too.
    input.store.truncate(8 * 4);
    let after = call(&input);
    let expected = [
        [6, 0, 1, 3, 10],
        [0, 0, 3, 4, 6],
        [6, 0, 1, 4, 10],
        [7, 0, 0, 4, 6],
    ];
    assert_eq!(after.results, expected.concat());
    input.units = 9_999;
    let after = call(&input);
    assert_eq!(after.results[..5], [8, 0, 1, 3, 4_099]);
    assert_eq!(after.results[5..10], [0, 0, 3, 4, 6]);
}

#[test]
fn the_mark_of_a_subject_that_is_not_done_is_not_kept() {
    // A node 9() is made, then 1() alone goes on; with seven units 5(..) is cut
    // off after it was made.
    let words = table(&[
        (SEQ, 0, &[1, 2]),
        (WHERE, 0, &[3]),
        (LEFT, 0, &[4, 5]),
        (BUILD, 0, &[7]),
        (MATCH, 0, &[8]),
        (SEQ, 0, &[6, 6]),
        (MATCH, 0, &[9]),
        (PCON, 9, &[]),
        (PCON, 1, &[]),
        (PCON, 5, &[10, 10]),
        (PVAR, 0, &[]),
    ]);
    let mut input = on_small(words, &[1, 2, 0, 1, 2, 0]);
    input.units = 11;
    let after = call(&input);
    let expected = [
        [1, 9, 1, 3, 10],
        [6, 0, 2, 3, 11],
        [0, 0, 0, 4, 7],
        [1, 9, 1, 4, 10],
        [6, 0, 2, 4, 11],
        [0, 0, 0, 5, 7],
    ];
    assert_eq!(after.results, expected.concat());
    assert_eq!(after.store[24..28], [9, 0, 0, 0]);
    assert_eq!(after.store[32..36], [9, 0, 0, 0]);
    assert!(after.store[40..].iter().all(|&word| word == 0));
}

#[test]
fn each_begins_with_the_bindings_given() {
    // MATCH x: were the last subject's bindings kept, the second would fail.
    let words = table(&[(MATCH, 0, &[1]), (PVAR, 0, &[])]);
    let after = call(&on_small(words.clone(), &[0, 1, 2]));
    let expected = [[0, 0, 0, 3, 2], [0, 0, 1, 3, 2], [0, 0, 2, 3, 2]];
    assert_eq!(after.results, expected.concat());
    // A given binding counts for each: x is 2().
    let mut input = on_small(words, &[0, 1, 1]);
    input.bindings[0] = 2;
    let after = call(&input);
    let expected = [[1, 1, 0, 3, 3], [0, 0, 1, 3, 3], [0, 0, 1, 3, 3]];
    assert_eq!(after.results, expected.concat());
}

#[test]
fn each_has_its_own_full_units() {
    let mut input = on_small(wrap(), &[0, 0, 0]);
    input.units = 6;
    let after = call(&input);
    let answers: Vec<u32> = after.results.chunks(5).map(|five| five[0]).collect();
    assert_eq!(answers, [0, 0, 0]);
    input.units = 5;
    let after = call(&input);
    let answers: Vec<u32> = after.results.chunks(5).map(|five| five[0]).collect();
    assert_eq!(answers, [6, 6, 6]);
}

#[test]
fn with_no_subjects_it_writes_nothing() {
    let input = on_small(wrap(), &[]);
    let after = call(&input);
    assert_eq!(after.answer, (0, 0));
    // Not even zeros above the mark.
    assert_eq!(after.store, input.store);
    assert_eq!(after.results, Vec::<u32>::new());
    // Every refusal is asked all the same.
    refused(
        &Input {
            start: 3,
            ..input.clone()
        },
        5,
        0,
    );
    refused(
        &Input {
            start: 6,
            ..input.clone()
        },
        5,
        0,
    );
    let mut other = input.clone();
    other.bindings[63] = 4;
    refused(&other, 5, 0);
    refused(
        &Input {
            results: vec![0; 5],
            ..input.clone()
        },
        2,
        0,
    );
    let mut other = input.clone();
    other.table[7] = 1;
    refused(&other, 17, 0);
    let mut other = input.clone();
    other.store[7] = 1;
    refused(&other, 4, 0);
    // With mark 0 and no subjects nothing is refused.
    let none = Input {
        store: vec![],
        mark: 0,
        ..input
    };
    assert_eq!(call(&none).answer, (0, 0));
}

#[test]
fn refusals_and_their_order() {
    let good = on_small(wrap(), &[0, 1]);
    // A subject not below the first mark, though a later mark would be above it.
    for subject in [3, 4, u32::MAX] {
        let mut other = good.clone();
        other.subjects[1] = subject;
        refused(&other, 5, 0);
        other.subjects.swap(0, 1);
        refused(&other, 5, 0);
    }
    // 11, 10, 4 and 13 to 17 before 5.
    let mut other = good.clone();
    other.subjects[0] = 3;
    other.signature = Some(vec![7, 0, 7, 7, 7, 2, 7, 7, 1]);
    refused(&other, 11, 1);
    other.signature = Some(vec![7, 1, 7, 7, 7, 2, 7, 7, 1]);
    refused(&other, 10, 3);
    other.store[16 + 7] = 1;
    refused(&other, 4, 2);
    other.table[8 + 1] = 1;
    refused(&other, 14, 1);
    // 2 before all: the result list, and 01's sizes.
    for length in [0, 5, 9, 11, 15] {
        other.results = vec![5; length];
        refused(&other, 2, 0);
    }
    other.results = vec![5; 10];
    other.signature = Some(vec![8]);
    refused(&other, 2, 0);
    let mut other = good.clone();
    other.bindings.push(0);
    refused(&other, 2, 0);
    refused(
        &Input {
            mark: 65,
            ..good.clone()
        },
        2,
        0,
    );
    let mut other = good;
    other.table.push(0);
    refused(&other, 2, 0);
}

#[test]
fn generated_the_outcome_of_single_calls_in_turn() {
    let counts = with_big_stack(|| {
        let mut ran_subjects = 0;
        let mut refusals = 0;
        // Calls without subjects; calls in which one is done after one that is not.
        let (mut none, mut went_on, mut signed) = (0, 0, 0);
        for index in 0..1_500 {
            let case = many_case(31, index);
            assert_eq!(CallCase::parse(&case.line()).as_ref(), Ok(&case));
            let run = &case.run;
            let input = Input {
                table: run.table.clone(),
                store: run.store.clone(),
                bindings: run.bindings.clone(),
                mark: run.mark,
                start: run.start,
                subjects: case.words(SUBJECTS).expect("subjects are lent"),
                results: case.words(RESULTS).expect("results are lent"),
                units: run.units,
                signature: case.words(SIGNATURE),
            };
            let after = call_here(&input);
            if after.answer != (0, 0) {
                refused(&input, after.answer.0, after.answer.1);
                refusals += 1;
                continue;
            }
            none += usize::from(input.subjects.is_empty());
            signed += usize::from(input.signature.is_some());
            let done: Vec<bool> = after.results.chunks(5).map(|five| five[0] == 0).collect();
            let failed = done.iter().position(|&done| !done).unwrap_or(done.len());
            went_on += usize::from(done[failed..].contains(&true));
            // Single calls in turn, each with all its checks.
            let mut store = input.store.clone();
            let mut mark = input.mark;
            let mut results = Vec::new();
            for &subject in &input.subjects {
                let mut bindings = input.bindings.clone();
                let lent = Lent {
                    signature: input.signature.as_deref(),
                    ..Lent::default()
                };
                let outcome = run_lent(
                    &input.table,
                    &mut store,
                    &mut bindings,
                    mark,
                    input.start,
                    subject,
                    input.units,
                    lent,
                    &mut (),
                );
                assert!(ran(outcome.answer), "{}", run.label);
                mark = outcome.mark;
                results.extend(outcome.numbers());
                ran_subjects += 1;
            }
            assert_eq!(after.results, results, "{}", run.label);
            assert_eq!(after.store, store, "{}", run.label);
        }
        [ran_subjects, refusals, none, went_on, signed]
    });
    assert!(
        counts[0] > 2_000 && counts[1..].iter().all(|&count| count > 50),
        "{:?}",
        counts
    );
}

#[test]
fn a_line_and_its_answer() {
    // MATCH x on 1() twice, results of garbage.
    let line = "m 1 0 0 9 5 0 16 0 1 8 0 2 64 0 4 2 0 5 10 4 4 0 0 225 0 2 1 0 8 288 1 0 1 m1";
    assert_eq!(
        CallCase::parse(line).unwrap().answer(),
        "m1 0 0 : 0=1 : 3=1 4=2 8=1 9=2"
    );
    let line = "m 1 0 0 9 5 0 16 0 1 8 0 2 64 0 4 1 1 5 5 4 4 0 0 225 0 2 1 0 8 288 1 0 1 m2";
    assert_eq!(
        CallCase::parse(line).unwrap().answer(),
        "m2 5 0 : 0=1 : 0=4 1=4 2=4 3=4 4=4"
    );
}
