//! Many subjects in one call.
use marshtrundle::strategy::*;
use marshtrundle::{
    run, run_many, run_many_signed, run_signed, words, Answer, Bindings, BuildError, Entry, Node,
    Outcome, Signature, Store, Strategy, Table, VARS,
};

const PAIR: u16 = 5;
const WRAPPED: u16 = 8;

/// The terms 1, 2 and 5(1, 2), and room for some nodes.
fn small(room: usize) -> Result<(Store, [Node; 3]), BuildError> {
    let mut store = Store::new();
    let one = store.node(1, &[])?;
    let two = store.node(2, &[])?;
    let pair = store.node(PAIR, &[one, two])?;
    store.room(room)?;
    Ok((store, [one, two, pair]))
}

/// 1 becomes 8(1); on 2 it does not end; on all else it makes a node and fails.
fn mixed() -> Strategy {
    let wrap = seq(match_(con(1, [])), build(con(WRAPPED, [con(1, [])])));
    let endless = seq(match_(con(2, [])), rec(|again| again));
    left(wrap, left(endless, seq(build(con(9, [])), fail())))
}

fn answers(outcomes: impl Iterator<Item = Outcome>) -> Vec<u32> {
    outcomes.map(|outcome| outcome.answer.number()).collect()
}

#[test]
fn it_is_single_calls_in_turn() -> Result<(), Box<dyn std::error::Error>> {
    let table = Table::of(&mixed())?;
    let signature = Signature::of(&[(1, 0), (2, 0), (PAIR, 2), (WRAPPED, 1), (9, 0)])?;
    for units in [0, 5, 8, 50, 9_000] {
        for room in [0, 1, 2, 5, 20] {
            let (store, [one, two, pair]) = small(room)?;
            let subjects = [pair, one, two, one, pair, one];
            let bindings = Bindings::new();
            let mut single = store.clone();
            let mut signed = store.clone();
            let mut expected = vec![];
            for subject in subjects {
                let mut own = bindings.clone();
                expected.push(run(
                    &table,
                    &mut single,
                    &mut own,
                    Entry::FIRST,
                    subject,
                    units,
                ));
                let mut own = bindings.clone();
                let start = Entry::FIRST;
                let end = run_signed(
                    &table,
                    &mut signed,
                    &mut own,
                    &signature,
                    start,
                    subject,
                    units,
                );
                assert_eq!(Some(&end), expected.last());
            }
            let mut many = store.clone();
            let outcomes = run_many(&table, &mut many, &bindings, Entry::FIRST, &subjects, units)?;
            assert_eq!(outcomes.len(), 6);
            assert_eq!(outcomes.collect::<Vec<_>>(), expected);
            assert_eq!(many, single);
            let mut many = store.clone();
            let start = Entry::FIRST;
            let outcomes = run_many_signed(
                &table, &mut many, &bindings, &signature, start, &subjects, units,
            )?;
            assert_eq!(outcomes.collect::<Vec<_>>(), expected);
            assert_eq!(many, single);
        }
    }
    Ok(())
}

#[test]
fn one_that_is_not_done_does_not_stop_the_rest() -> Result<(), Box<dyn std::error::Error>> {
    let table = Table::of(&mixed())?;
    let (mut store, [one, two, pair]) = small(4)?;
    let subjects = [pair, one, two, one, pair, one, two];
    let bindings = Bindings::new();
    let outcomes = run_many(
        &table,
        &mut store,
        &bindings,
        Entry::FIRST,
        &subjects,
        9_999,
    )?;
    let marks: Vec<u32> = outcomes.clone().map(|outcome| outcome.mark).collect();
    assert_eq!(answers(outcomes), [1, 0, 8, 0, 7, 7, 8]);
    assert_eq!(marks, [3, 5, 5, 7, 7, 7, 7]);
    assert_eq!(store.mark(), 7);
    assert_eq!(
        store.term(Node::from_number(6)).unwrap().to_string(),
        "8(1)"
    );
    Ok(())
}

#[test]
fn each_begins_with_the_bindings_given() -> Result<(), Box<dyn std::error::Error>> {
    let [x, ..] = VARS;
    let table = Table::of(&match_(var(x)))?;
    let (mut store, subjects) = small(0)?;
    let mut bindings = Bindings::new();
    let outcomes = run_many(&table, &mut store, &bindings, Entry::FIRST, &subjects, 99)?;
    assert_eq!(answers(outcomes), [0, 0, 0]);
    assert_eq!(bindings, Bindings::new());
    bindings.bind(x, subjects[1]);
    let given = bindings.clone();
    let outcomes = run_many(&table, &mut store, &bindings, Entry::FIRST, &subjects, 99)?;
    assert_eq!(answers(outcomes), [1, 0, 1]);
    assert_eq!(bindings, given);
    Ok(())
}

#[test]
fn each_has_its_own_full_units() -> Result<(), Box<dyn std::error::Error>> {
    let table = Table::of(&seq(id(), id()))?;
    let (mut store, subjects) = small(0)?;
    let bindings = Bindings::new();
    for (units, answer) in [(2, 6), (3, 0)] {
        let outcomes = run_many(
            &table,
            &mut store,
            &bindings,
            Entry::FIRST,
            &subjects,
            units,
        )?;
        assert_eq!(answers(outcomes), [answer; 3]);
    }
    Ok(())
}

#[test]
fn batches_give_the_same() -> Result<(), Box<dyn std::error::Error>> {
    let table = Table::of(&mixed())?;
    let (store, [one, two, pair]) = small(40)?;
    let subjects: Vec<Node> = [one, pair, two].into_iter().cycle().take(31).collect();
    let bindings = Bindings::new();
    let mut whole = store.clone();
    let expected: Vec<Outcome> =
        run_many(&table, &mut whole, &bindings, Entry::FIRST, &subjects, 50)?.collect();
    for size in [1, 7, 30] {
        let mut store = store.clone();
        let mut found = vec![];
        for batch in subjects.chunks(size) {
            found.extend(run_many(
                &table,
                &mut store,
                &bindings,
                Entry::FIRST,
                batch,
                50,
            )?);
        }
        assert_eq!((found, store), (expected.clone(), whole.clone()));
    }
    Ok(())
}

#[test]
fn with_no_subjects_nothing_is_written() -> Result<(), Box<dyn std::error::Error>> {
    let table = Table::of(&mixed())?;
    let mut soiled = Store::from_words([[1, 0, 0, 0, 0, 0, 0, 0], [7; 8]].concat(), 1);
    let before = soiled.clone();
    let bindings = Bindings::new();
    let mut outcomes = run_many(&table, &mut soiled, &bindings, Entry::FIRST, &[], 9)?;
    assert_eq!((outcomes.len(), outcomes.next()), (0, None));
    assert_eq!(soiled, before);
    let beyond = Entry::from_number(4_096);
    let refused = run_many(&table, &mut soiled, &bindings, beyond, &[], 9);
    assert_eq!(refused.unwrap_err(), Answer::BadStart);
    let empty = Signature::new();
    let refused = run_many_signed(&table, &mut soiled, &bindings, &empty, beyond, &[], 9);
    assert!(matches!(refused.unwrap_err(), Answer::DisobeyingEntry(_)));
    assert_eq!(soiled, before);
    Ok(())
}

#[test]
fn a_refused_call_runs_nothing() -> Result<(), Box<dyn std::error::Error>> {
    let table = Table::of(&mixed())?;
    let bindings = Bindings::new();
    let (store, [one, ..]) = small(9)?;
    // Not below the first mark, though the subject before it makes two nodes.
    for number in [3, 4, u32::MAX] {
        let mut after = store.clone();
        let subjects = [one, Node::from_number(number)];
        let refused = run_many(&table, &mut after, &bindings, Entry::FIRST, &subjects, 99);
        assert_eq!(refused.unwrap_err(), Answer::BadStart);
        assert_eq!(after, store);
    }
    let mut bad = Store::from_words([1, 7, 0, 0, 0, 0, 0, 0], 1);
    let before = bad.clone();
    let refused = run_many(&table, &mut bad, &bindings, Entry::FIRST, &[one], 99);
    assert_eq!(refused.unwrap_err(), Answer::BadNode(0));
    assert_eq!(bad, before);
    Ok(())
}

#[test]
fn over_words() {
    let (table, bindings) = ([0; 8], [0; 64]);
    let mut store = [0, 0, 0, 0, 0, 0, 0, 0, 9, 9, 9, 9, 9, 9, 9, 9];
    let mut results = [4; 11];
    for words in [0, 1, 4, 5, 9, 11] {
        let list = &mut results[..words];
        let refused = words::run_many(&table, &mut store, &bindings, 1, 0, &[0, 0], 1, list);
        assert_eq!(refused, [2, 0]);
        let refused =
            words::run_many_signed(&table, &mut store, &bindings, 1, 0, &[0, 0], 1, list, &[0]);
        assert_eq!(refused, [2, 0]);
    }
    assert_eq!((results, store[8]), ([4; 11], 9));
    let list = &mut results[..10];
    let refused =
        words::run_many_signed(&table, &mut store, &bindings, 1, 0, &[0, 0], 1, list, &[]);
    assert_eq!((refused, results, store[8]), ([11, 0], [4; 11], 9));
    let list = &mut results[..10];
    let ran = words::run_many(&table, &mut store, &bindings, 1, 0, &[0, 0], 1, list);
    assert_eq!((ran, store), ([0, 0], [0; 16]));
    assert_eq!(results, [0, 0, 0, 1, 1, 0, 0, 0, 1, 1, 4]);
}
