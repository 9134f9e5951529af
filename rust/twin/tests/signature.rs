//! 02, wish 2: constructors with a declared child count.

mod common;
use common::*;
use twin::calls::CallCase;
use twin::checks::ran;
use twin::generate::signed_case;
use twin::{run_lent, with_big_stack, Lent};

/// Undeclared.
const U: u32 = 7;

/// Runs with a signature from entry 0 on the small store: 1(), 2(), 5(0, 1).
fn signed(table: &[u32], signature: &[u32]) -> After {
    signed_on(table, small_store(), 3, 2, signature)
}

/// Runs with a signature.
fn signed_on(table: &[u32], store: Vec<u32>, mark: u32, subject: u32, signature: &[u32]) -> After {
    let mut store = store;
    let mut bindings = vec![0; 64];
    let lent = Lent {
        signature: Some(signature),
        ..Lent::default()
    };
    let outcome = run_lent(
        table,
        &mut store,
        &mut bindings,
        mark,
        0,
        subject,
        1_000,
        lent,
        &mut (),
    );
    After {
        outcome,
        store,
        bindings,
    }
}

/// Expects a refusal that wrote nothing.
fn refused(table: &[u32], signature: &[u32], answer: u32, place: u32) {
    let mut soiled = small_store();
    for word in &mut soiled[24..] {
        *word = 77;
    }
    let after = signed_on(table, soiled.clone(), 3, 2, signature);
    assert_eq!(after.outcome, outcome(answer, place, 2, 3, 0));
    assert_eq!(after.store, soiled);
    assert_eq!(after.bindings, vec![0; 64]);
}

/// The signature of the small store: 1 and 2 without children, 5 with two.
const SMALL: [u32; 6] = [U, 0, 0, U, U, 2];

fn id() -> Vec<u32> {
    table(&[(ID, 0, &[])])
}

#[test]
fn what_obeys_runs_as_without_it() {
    let swap = table(&[
        (SCOPE, 3, &[1]),
        (SEQ, 0, &[2, 3]),
        (MATCH, 0, &[4]),
        (BUILD, 0, &[5]),
        (PCON, 5, &[6, 7]),
        (PCON, 5, &[7, 6]),
        (PVAR, 0, &[]),
        (PVAR, 1, &[]),
    ]);
    let after = signed(&swap, &SMALL);
    assert_eq!(after, run_small(&swap, small_store(), 2, 1_000));
    assert_eq!(after.outcome, outcome(0, 0, 3, 4, 10));
    // A longer list, with counts of constructors that nobody has.
    let mut longer = SMALL.to_vec();
    longer.extend([0, 1, 2, 3, 4, 5, 6, 7]);
    assert_eq!(signed(&swap, &longer), after);
}

#[test]
fn an_entry_that_disagrees() {
    for kind in [CONG, PCON] {
        // Below a FAIL that never asks for it: used or not, it counts.
        let sort = if kind == CONG { FAIL } else { ID };
        let two = |constructor: u64, operands: &[u32]| {
            let operand = if kind == CONG { (ID, 0) } else { (PVAR, 0) };
            table(&[
                (sort, 0, &[]),
                (kind, constructor, operands),
                (operand.0, operand.1, &[]),
            ])
        };
        // The wrong count, undeclared, beyond the list.
        refused(&two(5, &[2]), &SMALL, 10, 1);
        refused(&two(5, &[2, 2, 2]), &SMALL, 10, 1);
        refused(&two(3, &[2, 2]), &SMALL, 10, 1);
        refused(&two(6, &[2, 2]), &SMALL, 10, 1);
        refused(&two(65_535, &[]), &SMALL, 10, 1);
        refused(&two(1, &[2]), &SMALL, 10, 1);
        let after = signed(&two(5, &[2, 2]), &SMALL);
        assert!(ran(after.outcome.answer));
        let after = signed(&two(1, &[]), &SMALL);
        assert!(ran(after.outcome.answer));
    }
    // The lowest of two; other kinds' arguments are no constructors.
    let words = table(&[
        (LEFT, 0, &[1, 2]),
        (PATH, 6, &[3]),
        (SCOPE, 9, &[3]),
        (CONG, 9, &[]),
        (CONG, 8, &[]),
        (PVAR, 9, &[]),
    ]);
    refused(&words, &SMALL, 10, 3);
}

#[test]
fn a_node_that_disagrees() {
    // The wrong count; undeclared; beyond the list. Node 0 is not the subject.
    refused(&id(), &[U, 1, 0, U, U, 2], 11, 0);
    refused(&id(), &[U, 0, 6, U, U, 2], 11, 1);
    refused(&id(), &[U, 0, 0, U, U, 3], 11, 2);
    refused(&id(), &[U, 0, U, U, U, 2], 11, 1);
    refused(&id(), &[U, 0, 0, U, U], 11, 2);
    refused(&id(), &[U, 0], 11, 1);
    // The lowest of all.
    refused(&id(), &[U, U, U, U, U, U], 11, 0);
    // A node that nothing reaches counts; one from the mark on does not.
    let stored = store(&[(1, &[]), (9, &[]), (2, &[]), (9, &[])], 8);
    let after = signed_on(&id(), stored.clone(), 3, 0, &SMALL);
    assert_eq!(after.outcome, outcome(11, 1, 0, 3, 0));
    let after = signed_on(&id(), stored, 1, 0, &SMALL);
    assert_eq!(after.outcome, outcome(0, 0, 0, 1, 1));
}

#[test]
fn an_empty_signature_is_not_no_signature() {
    refused(&id(), &[], 11, 0);
    refused(&table(&[(CONG, 0, &[])]), &[], 10, 0);
    let after = run_small(&id(), small_store(), 2, 9);
    assert_eq!(after.outcome, outcome(0, 0, 2, 3, 1));
}

#[test]
fn bad_signatures() {
    // A count word above 7, wherever it stands and whoever has it.
    for word in [8, 9, u32::MAX] {
        for place in 0..6 {
            let mut signature = SMALL;
            signature[place] = word;
            refused(&id(), &signature, 2, 0);
        }
        let mut longer = SMALL.to_vec();
        longer.resize(65_536, U);
        longer[65_535] = word;
        refused(&id(), &longer, 2, 0);
    }
    // 65,536 words are taken, one more is not.
    let mut longer = SMALL.to_vec();
    longer.resize(65_536, U);
    assert_eq!(signed(&id(), &longer).outcome, outcome(0, 0, 2, 3, 1));
    longer.push(U);
    refused(&id(), &longer, 2, 0);
    let most = table(&[(MATCH, 0, &[1]), (PCON, 65_535, &[])]);
    longer.pop();
    refused(&most, &longer, 10, 1);
    longer[65_535] = 0;
    assert_eq!(signed(&most, &longer).outcome, outcome(1, 1, 2, 3, 2));
}

#[test]
fn the_order_of_refusals() {
    // A bad start, then 11, 10, 4, a bad entry and a bad size before it.
    let pattern = table(&[(PVAR, 0, &[]), (PCON, 1, &[])]);
    refused(&pattern, &SMALL, 5, 0);
    let disobedient = [U, 0, U, U, U, 2];
    refused(&pattern, &disobedient, 11, 1);
    refused(&pattern, &[U, 1, U, U, U, 2], 10, 1);
    let mut bad = small_store();
    bad[16 + 2] = 2;
    let after = signed_on(&pattern, bad.clone(), 3, 2, &[U, 1, U, U, U, 2]);
    assert_eq!(after.outcome, outcome(4, 2, 2, 3, 0));
    let mut words = pattern;
    words[8 + 7] = 1;
    let after = signed_on(&words, bad.clone(), 3, 2, &[U, 1, U, U, U, 2]);
    assert_eq!(after.outcome, outcome(17, 1, 2, 3, 0));
    let after = signed_on(&words, bad, 3, 2, &[U, 1, U, U, U, 8]);
    assert_eq!(after.outcome, outcome(2, 0, 2, 3, 0));
}

#[test]
fn generated_every_node_of_a_done_run_obeys() {
    let (done, refusals) = with_big_stack(|| {
        let mut done = 0;
        let mut refusals = [0; 2];
        for index in 0..2_000 {
            let case = signed_case(21, index);
            assert_eq!(CallCase::parse(&case.line()).as_ref(), Ok(&case));
            let signature = case.words(3).expect("a signature is lent");
            let mut run = case.run;
            let before = (run.store.clone(), run.bindings.clone());
            let lent = Lent {
                signature: Some(&signature),
                ..Lent::default()
            };
            let outcome = run.run_lent(lent);
            match outcome.answer {
                10 | 11 => {
                    assert_eq!(before.0, run.store, "{}", run.label);
                    assert_eq!(before.1, run.bindings, "{}", run.label);
                    refusals[outcome.answer as usize - 10] += 1;
                }
                0 => {
                    done += u32::from(outcome.mark > run.mark);
                    for row in run.store.chunks(8).take(outcome.mark as usize) {
                        assert_eq!(signature[row[0] as usize], row[1], "{}", run.label);
                    }
                }
                _ => {}
            }
            // What is accepted runs as without a signature.
            if ran(outcome.answer) {
                let (mut store, mut bindings) = before;
                let plain = twin::run(
                    &run.table,
                    &mut store,
                    &mut bindings,
                    run.mark,
                    run.start,
                    run.subject,
                    run.units,
                );
                assert_eq!(plain, outcome);
                assert_eq!((store, bindings), (run.store, run.bindings));
            }
        }
        (done, refusals)
    });
    assert!(done > 100 && refusals[0] > 50 && refusals[1] > 50);
}

#[test]
fn a_line_and_its_answer() {
    // ID on 1(): without a signature slice none is lent; slice 3 of length 0 is.
    let line = "l 1 0 0 9 3 0 8 0 1 16 5 2 64 0 1 1 0 1 s1";
    assert_eq!(
        CallCase::parse(line).unwrap().answer(),
        "s1 0 0 0 1 1 : 0=1"
    );
    let line = "l 1 0 0 9 4 0 8 0 1 16 5 2 64 0 3 0 0 1 1 0 1 s2";
    let words: Vec<String> = (8..16).map(|word| format!(" {}=5", word)).collect();
    assert_eq!(
        CallCase::parse(line).unwrap().answer(),
        format!("s2 11 0 0 1 0 : 0=1{}", words.concat())
    );
    let line = "l 1 0 0 9 4 0 8 0 1 16 5 2 64 0 3 2 7 2 1 0 1 3 1 0 s3";
    assert_eq!(
        CallCase::parse(line).unwrap().answer(),
        "s3 0 0 0 1 1 : 0=1"
    );
    for line in ["", "x 1", "l 1 0 0 9 1 0 8 0 1 5 0 1 s1", "l 1 0 0 9 0 0"] {
        assert!(CallCase::parse(line).is_err(), "{}", line);
    }
}
