//! 01's chapter "Small runs to hold on to", and its printed job.

mod common;
use common::*;

/// The swap rule of the printed job.
fn swap() -> Vec<u32> {
    table(&[
        (SCOPE, 3, &[1]),
        (SEQ, 0, &[2, 3]),
        (MATCH, 0, &[4]),
        (BUILD, 0, &[5]),
        (PCON, 5, &[6, 7]),
        (PCON, 5, &[7, 6]),
        (PVAR, 0, &[]),
        (PVAR, 1, &[]),
    ])
}

fn room(nodes: usize) -> Vec<u32> {
    store(&[(1, &[]), (2, &[]), (5, &[0, 1])], nodes)
}

/// Checks a run that hands back what it was given. Where it failed, no match
/// failed in it.
fn unchanged(after: &After, before: &[u32], answer: u32, units: u32, subject: u32) {
    let place = if answer == 1 { 4_096 } else { 0 };
    unchanged_at(after, before, (answer, place), units, subject);
}

/// The same with a place.
fn unchanged_at(after: &After, before: &[u32], how: (u32, u32), units: u32, subject: u32) {
    assert_eq!(after.outcome, outcome(how.0, how.1, subject, 3, units));
    assert_eq!(after.store, before);
    assert_eq!(after.bindings, vec![0; 64]);
}

#[test]
fn the_printed_job() {
    let text = "job 10 0 2 4\ne 16 3 1\ne 4 0 2 3\ne 14 0 4\ne 15 0 5\ne 19 5 6 7\ne 19 5 7 6\n\
                e 18 0\ne 18 1\nn 1\nn 2\nn 5 0 1\n";
    let answer = "answer 0 0 3 4 10\nn 1\nn 2\nn 5 0 1\nn 5 1 0\n";
    assert_eq!(job_spaced(text), answer);
}

#[test]
fn s1_the_job_uses_ten_units() {
    let after = run_small(&swap(), room(4), 2, 10);
    assert_eq!(after.outcome, outcome(0, 0, 3, 4, 10));
    assert_eq!(
        after.store,
        store(&[(1, &[]), (2, &[]), (5, &[0, 1]), (5, &[1, 0])], 4)
    );
    assert_eq!(after.bindings, vec![0; 64]);
}

#[test]
fn s2_nine_units_are_too_few() {
    unchanged(&run_small(&swap(), room(4), 2, 9), &room(4), 6, 9, 2);
}

#[test]
fn s3_room_for_three_nodes_is_too_little() {
    unchanged(&run_small(&swap(), room(3), 2, 10), &room(3), 7, 10, 2);
    unchanged(&run_small(&swap(), room(3), 2, 1_000), &room(3), 7, 10, 2);
}

#[test]
fn s4_a_variable_met_twice_with_different_terms() {
    let twice = table(&[(MATCH, 0, &[1]), (PCON, 5, &[2, 2]), (PVAR, 0, &[])]);
    let after = run_small(&twice, small_store(), 2, 1_000);
    // 02, wish 10: "For a repeated variable it's the variable's entry."
    unchanged_at(&after, &small_store(), (1, 2), 5, 2);
}

#[test]
fn s5_a_variable_met_twice_with_equal_terms() {
    let twice = table(&[(MATCH, 0, &[1]), (PCON, 5, &[2, 2]), (PVAR, 0, &[])]);
    let equal = store(&[(1, &[]), (2, &[]), (5, &[0, 0])], 64);
    let after = run_small(&twice, equal.clone(), 2, 1_000);
    assert_eq!(after.outcome, outcome(0, 0, 2, 3, 5));
    assert_eq!(after.store, equal);
    assert_eq!(after.bindings[0], 1);
    assert!(after.bindings[1..].iter().all(|&word| word == 0));
}

#[test]
fn s6_left_forgets_the_bindings_of_its_first_operand() {
    let left = table(&[
        (LEFT, 0, &[1, 2]),
        (SEQ, 0, &[3, 4]),
        (ID, 0, &[]),
        (MATCH, 0, &[5]),
        (FAIL, 0, &[]),
        (PVAR, 0, &[]),
    ]);
    let after = run_small(&left, small_store(), 2, 1_000);
    unchanged(&after, &small_store(), 0, 6, 2);
}

#[test]
fn s7_a_term_without_children() {
    let all = table(&[(ALL, 0, &[1]), (FAIL, 0, &[])]);
    let after = run_small(&all, small_store(), 0, 1_000);
    unchanged(&after, &small_store(), 0, 1, 0);
    let one = table(&[(ONE, 0, &[1]), (ID, 0, &[])]);
    let after = run_small(&one, small_store(), 0, 1_000);
    unchanged(&after, &small_store(), 1, 1, 0);
}

#[test]
fn s8_some_keeps_the_child_that_failed() {
    let some = table(&[(SOME, 0, &[1]), (MATCH, 0, &[2]), (PCON, 1, &[])]);
    let after = run_small(&some, small_store(), 2, 1_000);
    assert_eq!(after.outcome, outcome(0, 0, 3, 4, 5));
    let expected = store(&[(1, &[]), (2, &[]), (5, &[0, 1]), (5, &[0, 1])], 64);
    assert_eq!(after.store, expected);
    assert_eq!(after.bindings, vec![0; 64]);
}

#[test]
fn s9_paths_inside_and_outside() {
    let third = table(&[(PATH, 3, &[1]), (ID, 0, &[])]);
    let after = run_small(&third, small_store(), 2, 1_000);
    unchanged(&after, &small_store(), 1, 1, 2);
    let second = table(&[(PATH, 2, &[1]), (ID, 0, &[])]);
    let after = run_small(&second, small_store(), 2, 1_000);
    assert_eq!(after.outcome, outcome(0, 0, 3, 4, 2));
    let expected = store(&[(1, &[]), (2, &[]), (5, &[0, 1]), (5, &[0, 1])], 64);
    assert_eq!(after.store, expected);
}

#[test]
fn s10_test_forgets_and_where_keeps() {
    let test = table(&[(TEST, 0, &[1]), (MATCH, 0, &[2]), (PVAR, 0, &[])]);
    let after = run_small(&test, small_store(), 2, 1_000);
    unchanged(&after, &small_store(), 0, 3, 2);
    let keep = table(&[(WHERE, 0, &[1]), (MATCH, 0, &[2]), (PVAR, 0, &[])]);
    let after = run_small(&keep, small_store(), 2, 1_000);
    assert_eq!(after.outcome, outcome(0, 0, 2, 3, 3));
    assert_eq!(after.store, small_store());
    assert_eq!(after.bindings[0], 3);
    assert!(after.bindings[1..].iter().all(|&word| word == 0));
}

#[test]
fn s11_a_loop_meets_its_limit() {
    let endless = table(&[(REC, 0, &[1]), (CALL, 0, &[0])]);
    let after = run_small(&endless, small_store(), 2, 7);
    unchanged(&after, &small_store(), 6, 7, 2);
    let after = run_small(&endless, small_store(), 2, 5_000);
    unchanged(&after, &small_store(), 8, 4_096, 2);
    // Before each visit the units are looked at first.
    let after = run_small(&endless, small_store(), 2, 4_096);
    unchanged(&after, &small_store(), 6, 4_096, 2);
    let after = run_small(&endless, small_store(), 2, 4_097);
    unchanged(&after, &small_store(), 8, 4_096, 2);
}

#[test]
fn s12_building_an_unbound_variable_ends_the_run() {
    // 02, wish 3: "S12 changes to 12, units 2."
    let build = table(&[(BUILD, 0, &[1]), (PVAR, 0, &[])]);
    let after = run_small(&build, small_store(), 2, 1_000);
    unchanged(&after, &small_store(), 12, 2, 2);
}

#[test]
fn nothing_catches_a_cut_off() {
    // NOT of a loop, LEFT of a loop and ID, SOME and ONE of a loop.
    for kind in [NOT, LEFT, SOME, ONE, CHOICE] {
        let two = kind == LEFT || kind == CHOICE;
        let operands: &[u32] = if two { &[1, 3] } else { &[1] };
        let caught = table(&[
            (kind, 0, operands),
            (REC, 0, &[2]),
            (CALL, 0, &[1]),
            (ID, 0, &[]),
        ]);
        let after = run_small(&caught, small_store(), 2, u32::MAX);
        unchanged(&after, &small_store(), 8, 4_096, 2);
        let after = run_small(&caught, small_store(), 2, 50);
        unchanged(&after, &small_store(), 6, 50, 2);
    }
    // NOT of a BUILD without room.
    let full = table(&[(NOT, 0, &[1]), (BUILD, 0, &[2]), (PCON, 9, &[])]);
    let after = run_small(&full, room(3), 2, 100);
    unchanged(&after, &room(3), 7, 3, 2);
}

#[test]
fn each_child_of_all_begins_with_the_bindings_of_the_last() {
    // ALL(MATCH x) on 5(0, 1): the second child meets the first's binding.
    let all = table(&[(ALL, 0, &[1]), (MATCH, 0, &[2]), (PVAR, 0, &[])]);
    let after = run_small(&all, small_store(), 2, 100);
    unchanged_at(&after, &small_store(), (1, 2), 6, 2);
}

#[test]
fn a_caught_failure_gives_its_nodes_back() {
    // LEFT(SEQ(BUILD 9, FAIL), BUILD 8) with room for one node more.
    let left = table(&[
        (LEFT, 0, &[1, 2]),
        (SEQ, 0, &[3, 4]),
        (BUILD, 0, &[6]),
        (BUILD, 0, &[5]),
        (FAIL, 0, &[]),
        (PCON, 9, &[]),
        (PCON, 8, &[]),
    ]);
    let after = run_small(&left, room(4), 2, 100);
    assert_eq!(after.outcome, outcome(0, 0, 3, 4, 7));
    let expected = store(&[(1, &[]), (2, &[]), (5, &[0, 1]), (8, &[])], 4);
    assert_eq!(after.store, expected);
}

#[test]
fn words_above_the_returned_mark_are_cleared() {
    let mut soiled = small_store();
    for word in &mut soiled[24..] {
        *word = 77;
    }
    for &(kind, answer) in &[(ID, 0), (FAIL, 1)] {
        let after = run_small(&table(&[(kind, 0, &[])]), soiled.clone(), 2, 5);
        unchanged(&after, &small_store(), answer, 1, 2);
    }
    let after = run_small(&table(&[(ID, 0, &[])]), soiled.clone(), 2, 0);
    unchanged(&after, &small_store(), 6, 0, 2);
}

#[test]
fn a_call_inside_a_scope_runs_inside_it() {
    // SEQ(LEFT(ID, REC r: MATCH x), SCOPE x. CALL r): x is unbound after it.
    let scoped = table(&[
        (SEQ, 0, &[1, 5]),
        (LEFT, 0, &[2, 3]),
        (ID, 0, &[]),
        (REC, 0, &[4]),
        (MATCH, 0, &[7]),
        (SCOPE, 1, &[6]),
        (CALL, 0, &[3]),
        (PVAR, 0, &[]),
    ]);
    let after = run_small(&scoped, small_store(), 2, 100);
    unchanged(&after, &small_store(), 0, 8, 2);
}

/// A table of 4,096 entries: some rows, then a chain of patterns to the end.
fn chain_after(rows: &[(u32, u64, &[u32])]) -> Vec<u32> {
    let mut words = table(rows);
    let first = rows.len() as u32;
    for entry in first..4_095 {
        words.extend(table(&[(PCON, 0, &[entry + 1])]));
    }
    words.extend(table(&[(PCON, 0, &[])]));
    words
}

#[test]
fn the_deepest_nesting_is_reached() {
    let one = || store(&[(1, &[])], 4_096);
    let none = vec![0; 64];
    // BUILD of a chain of 4,095 patterns: the last is at nesting 4,096.
    let fits = chain_after(&[(BUILD, 0, &[1])]);
    let after = run_with(&fits, one(), none.clone(), 1, 0, 0, u32::MAX);
    assert_eq!(after.outcome, outcome(0, 0, 4_095, 4_096, 4_096));
    // REC x. SEQ(BUILD, x): the chain of 4,092 ends at nesting 4,095 in the
    // first round and begins at 7 in the second.
    let deeper = chain_after(&[
        (REC, 0, &[1]),
        (SEQ, 0, &[2, 3]),
        (BUILD, 0, &[4]),
        (CALL, 0, &[0]),
    ]);
    let after = run_with(&deeper, one(), none.clone(), 1, 0, 0, u32::MAX);
    let units = 3 + 4_092 + 4 + 4_090;
    assert_eq!(after.outcome, outcome(8, 0, 0, 1, units));
    assert_eq!(after.store, one());
    // With all units used at that visit the answer is 6.
    let after = run_with(&deeper, one(), none.clone(), 1, 0, 0, units);
    assert_eq!(after.outcome, outcome(6, 0, 0, 1, units));
    // With too little room for the first round it is 7.
    let small = store(&[(1, &[])], 4_092);
    let after = run_with(&deeper, small, none, 1, 0, 0, units);
    assert_eq!(after.outcome, outcome(7, 0, 0, 1, 3 + 4_092));
}

#[test]
fn pairs_are_visits_at_their_own_nesting() {
    // MATCH 5(x, x) over one chain twice: MATCH 1, PCON 2, x 3, pairs from 4.
    let twice = table(&[(MATCH, 0, &[1]), (PCON, 5, &[2, 2]), (PVAR, 0, &[])]);
    for (length, answer) in [(4_093u32, 0), (4_094, 8)] {
        let mut words = vec![0; 8 * 4_096];
        for node in 1..length as usize {
            words[8 * node + 1] = 1;
            words[8 * node + 2] = node as u32 - 1;
        }
        let top = &mut words[8 * length as usize..8 * length as usize + 8];
        top[..4].copy_from_slice(&[5, 2, length - 1, length - 1]);
        let after = run_with(&twice, words, vec![0; 64], length + 1, 0, length, 9_999);
        // Four visits of MATCH and its pattern, then 4,093 pairs.
        let expected = outcome(answer, 0, length, length + 1, 4 + 4_093);
        assert_eq!(after.outcome, expected);
    }
}
