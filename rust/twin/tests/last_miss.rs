//! 02, wish 10: a failed run has as its place the pattern entry at which the
//! last match that failed in it gave up.

mod common;
use common::*;

/// The place of a failed run on the small store.
fn failed_at(rows: &[(u32, u64, &[u32])], units: u32) -> u32 {
    let after = run_small(&table(rows), small_store(), 2, 1_000);
    let expected = outcome(1, after.outcome.place, 2, 3, units);
    assert_eq!(after.outcome, expected);
    assert_eq!(after.store, small_store());
    assert_eq!(after.bindings, vec![0; 64]);
    after.outcome.place
}

#[test]
fn none_failed() {
    assert_eq!(failed_at(&[(FAIL, 0, &[])], 1), 4_096);
    assert_eq!(failed_at(&[(PATH, 3, &[1]), (ID, 0, &[])], 1), 4_096);
    assert_eq!(failed_at(&[(CONG, 9, &[])], 1), 4_096);
    assert_eq!(failed_at(&[(NOT, 0, &[1]), (ID, 0, &[])], 2), 4_096);
    // A match that was done is none that failed.
    let rows: [(u32, u64, &[u32]); 4] = [
        (SEQ, 0, &[1, 2]),
        (MATCH, 0, &[3]),
        (FAIL, 0, &[]),
        (PVAR, 0, &[]),
    ];
    assert_eq!(failed_at(&rows, 4), 4_096);
}

#[test]
fn the_pattern_that_differs_however_deep() {
    // The head: another constructor, another count.
    assert_eq!(failed_at(&[(MATCH, 0, &[1]), (PCON, 6, &[])], 2), 1);
    let short: [(u32, u64, &[u32]); 3] = [(MATCH, 0, &[1]), (PCON, 5, &[2]), (PVAR, 0, &[])];
    assert_eq!(failed_at(&short, 2), 1);
    // 5(x, 3()): the second child.
    let second: [(u32, u64, &[u32]); 4] = [
        (MATCH, 0, &[1]),
        (PCON, 5, &[2, 3]),
        (PVAR, 0, &[]),
        (PCON, 3, &[]),
    ];
    assert_eq!(failed_at(&second, 4), 3);
    // 5(3(), 4()): the first that differs, not the second.
    let first: [(u32, u64, &[u32]); 4] = [
        (MATCH, 0, &[1]),
        (PCON, 5, &[3, 2]),
        (PCON, 4, &[]),
        (PCON, 3, &[]),
    ];
    assert_eq!(failed_at(&first, 3), 3);
}

#[test]
fn a_repeated_variable_at_its_own_entry() {
    // S4 with an entry for each x: the second of them.
    let twice: [(u32, u64, &[u32]); 4] = [
        (MATCH, 0, &[1]),
        (PCON, 5, &[2, 3]),
        (PVAR, 0, &[]),
        (PVAR, 0, &[]),
    ];
    assert_eq!(failed_at(&twice, 5), 3);
    // A difference deep in the compared terms is told by the same entry.
    let terms = store(
        &[(1, &[]), (2, &[]), (4, &[0]), (4, &[1]), (5, &[2, 3])],
        64,
    );
    let after = run_with(&table(&twice), terms, vec![0; 64], 5, 0, 4, 99);
    assert_eq!(after.outcome, outcome(1, 3, 4, 5, 6));
    // A variable bound before the run.
    let mut bindings = vec![0; 64];
    bindings[8] = 1;
    let bound = table(&[(MATCH, 0, &[1]), (PVAR, 8, &[])]);
    let after = run_with(&bound, small_store(), bindings, 3, 0, 2, 99);
    assert_eq!(after.outcome, outcome(1, 1, 2, 3, 3));
}

#[test]
fn the_last_in_time_and_not_the_first() {
    // LEFT(MATCH 6(), MATCH 7()).
    let rows: [(u32, u64, &[u32]); 5] = [
        (LEFT, 0, &[1, 2]),
        (MATCH, 0, &[3]),
        (MATCH, 0, &[4]),
        (PCON, 6, &[]),
        (PCON, 7, &[]),
    ];
    assert_eq!(failed_at(&rows, 5), 4);
    // The same with the entries the other way round.
    let rows: [(u32, u64, &[u32]); 5] = [
        (LEFT, 0, &[2, 1]),
        (MATCH, 0, &[3]),
        (MATCH, 0, &[4]),
        (PCON, 6, &[]),
        (PCON, 7, &[]),
    ];
    assert_eq!(failed_at(&rows, 5), 3);
    // A miss deep inside, then one at a head: the head's.
    let rows: [(u32, u64, &[u32]); 8] = [
        (CHOICE, 0, &[1, 2]),
        (MATCH, 0, &[3]),
        (MATCH, 0, &[6]),
        (PCON, 5, &[4, 5]),
        (PVAR, 0, &[]),
        (PCON, 9, &[]),
        (PCON, 7, &[]),
        (ID, 0, &[]),
    ];
    assert_eq!(failed_at(&rows, 7), 6);
}

#[test]
fn a_caught_failure_keeps_its_place() {
    // SEQ(c, FAIL), where c catches a miss in each way and succeeds: the miss
    // had no part in the run's failure, and is its place all the same.
    let catchers: [(u32, &[u32], u32); 3] =
        [(NOT, &[3], 5), (LEFT, &[3, 5], 6), (CHOICE, &[3, 5], 6)];
    for (kind, operands, units) in catchers {
        let rows: [(u32, u64, &[u32]); 6] = [
            (SEQ, 0, &[1, 2]),
            (kind, 0, operands),
            (FAIL, 0, &[]),
            (MATCH, 0, &[4]),
            (PCON, 6, &[]),
            (ID, 0, &[]),
        ];
        assert_eq!(failed_at(&rows, units), 4);
    }
    // ONE and SOME of MATCH 2() on 5(1(), 2()): the first child misses, the
    // second does not; then FAIL.
    for kind in [ONE, SOME] {
        let rows: [(u32, u64, &[u32]); 5] = [
            (SEQ, 0, &[1, 2]),
            (kind, 0, &[3]),
            (FAIL, 0, &[]),
            (MATCH, 0, &[4]),
            (PCON, 2, &[]),
        ];
        assert_eq!(failed_at(&rows, 7), 4);
    }
    // TEST of NOT of a miss, then FAIL: restoring takes nothing back.
    let rows: [(u32, u64, &[u32]); 6] = [
        (SEQ, 0, &[1, 2]),
        (TEST, 0, &[3]),
        (FAIL, 0, &[]),
        (NOT, 0, &[4]),
        (MATCH, 0, &[5]),
        (PCON, 6, &[]),
    ];
    assert_eq!(failed_at(&rows, 6), 5);
}

#[test]
fn a_success_after_a_miss_keeps_its_place() {
    // LEFT(MATCH 6(), SEQ(MATCH x, FAIL)): the second match is done.
    let rows: [(u32, u64, &[u32]); 7] = [
        (LEFT, 0, &[1, 2]),
        (MATCH, 0, &[5]),
        (SEQ, 0, &[3, 4]),
        (MATCH, 0, &[6]),
        (FAIL, 0, &[]),
        (PCON, 6, &[]),
        (PVAR, 0, &[]),
    ];
    assert_eq!(failed_at(&rows, 7), 5);
}

#[test]
fn other_answers_keep_their_places() {
    // LEFT(MATCH 6(), s): done 0, cut off by units 0, by room 0, by nesting 0,
    // an unbound variable its number.
    let with = |rest: &[(u32, u64, &[u32])]| {
        let rows: [(u32, u64, &[u32]); 3] = [(LEFT, 0, &[1, 3]), (MATCH, 0, &[2]), (PCON, 6, &[])];
        table(&[&rows[..], rest].concat())
    };
    let full = || store(&[(1, &[]), (2, &[]), (5, &[0, 1])], 3);
    let done = run_small(&with(&[(ID, 0, &[])]), full(), 2, 99);
    assert_eq!(done.outcome, outcome(0, 0, 2, 3, 4));
    let units = run_small(&with(&[(ID, 0, &[])]), full(), 2, 3);
    assert_eq!(units.outcome, outcome(6, 0, 2, 3, 3));
    let build = with(&[(BUILD, 0, &[4]), (PCON, 9, &[])]);
    let room = run_small(&build, full(), 2, 99);
    assert_eq!(room.outcome, outcome(7, 0, 2, 3, 5));
    let endless = with(&[(REC, 0, &[4]), (CALL, 0, &[3])]);
    let nesting = run_small(&endless, full(), 2, 9_999);
    assert_eq!(nesting.outcome, outcome(8, 0, 2, 3, 4_098));
    let unbound = with(&[(BUILD, 0, &[4]), (PVAR, 0, &[])]);
    let after = run_small(&unbound, full(), 2, 99);
    assert_eq!(after.outcome, outcome(12, 0, 2, 3, 5));
}

#[test]
fn a_job_prints_it() {
    assert_eq!(
        job_spaced("job 9 0 0 1\ne 14 0 1\ne 19 6\nn 1\n"),
        "answer 1 1 0 1 2\nn 1\n"
    );
    assert_eq!(
        job_spaced("job 9 0 0 1\ne 1 0\nn 1\n"),
        "answer 1 4096 0 1 1\nn 1\n"
    );
}
