//! 02, wish 3: a build without its binding ends the run with answer 12.

mod common;
use common::*;

/// BUILD of variable 7 as the entries 1 and 2 of a table, a wrapping as entry
/// 0, and ID as entry 3.
fn wrapped(kind: u32, argument: u64, operands: &[u32]) -> Vec<u32> {
    table(&[
        (kind, argument, operands),
        (BUILD, 0, &[2]),
        (PVAR, 7, &[]),
        (ID, 0, &[]),
    ])
}

/// Checks a run that ended in 12: subject, mark, bindings and store as given.
fn ends_in_12(table: &[u32], place: u32, units: u32) {
    let after = run_small(table, small_store(), 2, 1_000);
    assert_eq!(after.outcome, outcome(12, place, 2, 3, units));
    assert_eq!(after.store, small_store());
    assert_eq!(after.bindings, vec![0; 64]);
}

#[test]
fn the_place_is_the_variable() {
    for variable in [0, 1, 7, 31, 32, 63] {
        let build = table(&[(BUILD, 0, &[1]), (PVAR, variable, &[])]);
        ends_in_12(&build, variable as u32, 2);
    }
    // The place is not the entry: entry 3 names variable 9.
    let deep = table(&[
        (BUILD, 0, &[1]),
        (PCON, 4, &[2]),
        (PCON, 4, &[3]),
        (PVAR, 9, &[]),
    ]);
    ends_in_12(&deep, 9, 4);
}

#[test]
fn nothing_catches_it() {
    ends_in_12(&wrapped(NOT, 0, &[1]), 7, 3);
    ends_in_12(&wrapped(TEST, 0, &[1]), 7, 3);
    ends_in_12(&wrapped(WHERE, 0, &[1]), 7, 3);
    ends_in_12(&wrapped(SCOPE, 1 << 7, &[1]), 7, 3);
    ends_in_12(&wrapped(LEFT, 0, &[1, 3]), 7, 3);
    ends_in_12(&wrapped(CHOICE, 0, &[1, 3]), 7, 3);
    ends_in_12(&wrapped(ONE, 0, &[1]), 7, 3);
    ends_in_12(&wrapped(SOME, 0, &[1]), 7, 3);
    ends_in_12(&wrapped(ALL, 0, &[1]), 7, 3);
    ends_in_12(&wrapped(PATH, 2, &[1]), 7, 3);
    ends_in_12(&wrapped(CONG, 5, &[1, 3]), 7, 3);
    ends_in_12(&wrapped(SEQ, 0, &[1, 3]), 7, 3);
    ends_in_12(&wrapped(REC, 0, &[1]), 7, 3);
}

#[test]
fn a_scope_hides_a_bound_variable() {
    let hidden = wrapped(SCOPE, 1 << 7, &[1]);
    let mut bindings = vec![0; 64];
    bindings[7] = 1;
    let after = run_with(&hidden, small_store(), bindings.clone(), 3, 0, 2, 9);
    assert_eq!(after.outcome, outcome(12, 7, 2, 3, 3));
    assert_eq!(after.bindings, bindings);
    // Another variable hidden: the build is done.
    let open = wrapped(SCOPE, 1 << 6, &[1]);
    let after = run_with(&open, small_store(), bindings, 3, 0, 2, 9);
    assert_eq!(after.outcome, outcome(0, 0, 0, 3, 3));
}

#[test]
fn the_limits_of_its_visit_come_first() {
    let build = table(&[(BUILD, 0, &[1]), (PVAR, 0, &[])]);
    for (units, answer, used) in [(0, 6, 0), (1, 6, 1), (2, 12, 2), (3, 12, 2)] {
        let after = run_small(&build, small_store(), 2, units);
        assert_eq!(after.outcome, outcome(answer, 0, 2, 3, used));
    }
    // REC x. LEFT(PATH 1 x, BUILD v3) goes four deeper with each link, so after
    // 1,023 links the variable is at nesting 4,096; under WHERE at 4,097.
    let descent = table(&[
        (WHERE, 0, &[1]),
        (REC, 0, &[2]),
        (LEFT, 0, &[3, 4]),
        (PATH, 1, &[5]),
        (BUILD, 0, &[6]),
        (CALL, 0, &[1]),
        (PVAR, 3, &[]),
    ]);
    let mut chain = store(&[(1, &[])], 1_024);
    for node in 1..1_024 {
        chain[8 * node + 1] = 1;
        chain[8 * node + 2] = node as u32 - 1;
    }
    for (start, answer, place) in [(1, 12, 3), (0, 8, 0)] {
        let none = vec![0; 64];
        let after = run_with(&descent, chain.clone(), none, 1_024, start, 1_023, 9_999);
        assert_eq!(after.outcome, outcome(answer, place, 1_023, 1_024, 4_097));
        assert_eq!(after.store, chain);
    }
}

#[test]
fn left_to_right_decides_against_the_room() {
    // BUILD 4(9(), x): 9() is to be made before x is met.
    let first = table(&[
        (BUILD, 0, &[1]),
        (PCON, 4, &[2, 3]),
        (PCON, 9, &[]),
        (PVAR, 5, &[]),
    ]);
    let full = store(&[(1, &[]), (2, &[]), (5, &[0, 1])], 3);
    let after = run_small(&first, full.clone(), 2, 100);
    assert_eq!(after.outcome, outcome(7, 0, 2, 3, 3));
    // With room the node is made, x is met, and the node is not left behind.
    ends_in_12(&first, 5, 4);
    // BUILD 4(x, 9()): x is met first.
    let second = table(&[
        (BUILD, 0, &[1]),
        (PCON, 4, &[2, 3]),
        (PVAR, 5, &[]),
        (PCON, 9, &[]),
    ]);
    let after = run_small(&second, full, 2, 100);
    assert_eq!(after.outcome, outcome(12, 5, 2, 3, 3));
}

#[test]
fn it_leaves_the_memory_of_a_cut_off() {
    // SEQ(MATCH x0, SEQ(BUILD 9(x0), BUILD x1)), with garbage above the mark.
    let words = table(&[
        (SEQ, 0, &[1, 2]),
        (MATCH, 0, &[6]),
        (SEQ, 0, &[3, 4]),
        (BUILD, 0, &[5]),
        (BUILD, 0, &[7]),
        (PCON, 9, &[6]),
        (PVAR, 0, &[]),
        (PVAR, 1, &[]),
    ]);
    let mut soiled = small_store();
    for word in &mut soiled[24..] {
        *word = 77;
    }
    let mut bindings = vec![0; 64];
    bindings[30] = 2;
    let after = run_with(&words, soiled, bindings.clone(), 3, 0, 2, 100);
    assert_eq!(after.outcome, outcome(12, 1, 2, 3, 9));
    assert_eq!(after.store, small_store());
    assert_eq!(after.bindings, bindings);
}

#[test]
fn a_variable_of_a_match_is_bound_instead() {
    let matching = table(&[(MATCH, 0, &[1]), (PVAR, 0, &[])]);
    let after = run_small(&matching, small_store(), 2, 9);
    assert_eq!(after.outcome, outcome(0, 0, 2, 3, 2));
}

#[test]
fn a_job_prints_it_like_a_cut_off() {
    assert_eq!(
        job_spaced("job 9 0 1 4\ne 15 0 1\ne 18 0\nn 1\nn 3 0 0\nb 4 1\n"),
        "answer 12 0 1 2 2\nn 1\nn 3 0 0\nb 4 1\n"
    );
    assert_eq!(
        job_spaced("job 9 0 1 4\ne 15 0 1\ne 18 63\nn 1\nn 3 0 0\n"),
        "answer 12 63 1 2 2\nn 1\nn 3 0 0\n"
    );
}
