//! Runs with a signature, and builders that refuse a wrong count.
use marshtrundle::strategy::*;
use marshtrundle::{
    run, run_signed, words, Answer, Bindings, BuildError, Entry, Signature, Store, Table,
    TableBuilder, VARS,
};

const PAIR: u16 = 5;

fn small() -> Result<(Store, marshtrundle::Node), BuildError> {
    let mut store = Store::new();
    let one = store.node(1, &[])?;
    let two = store.node(2, &[])?;
    let pair = store.node(PAIR, &[one, two])?;
    store.room(10)?;
    Ok((store, pair))
}

fn swap() -> Strategy {
    let [x, y, ..] = VARS;
    rule(con(PAIR, [var(x), var(y)]), con(PAIR, [var(y), var(x)]))
}

use marshtrundle::Strategy;

#[test]
fn a_run_that_obeys_is_the_run_without() -> Result<(), Box<dyn std::error::Error>> {
    let table = Table::of(&swap())?;
    let signature = Signature::of(&[(1, 0), (2, 0), (PAIR, 2)])?;
    let (mut plain, pair) = small()?;
    let mut signed = plain.clone();
    let (mut b, mut c) = (Bindings::new(), Bindings::new());
    for units in [0, 3, 9, 100] {
        let (mut plain, mut signed) = (plain.clone(), signed.clone());
        let end = run(&table, &mut plain, &mut b, Entry::FIRST, pair, units);
        let other = run_signed(
            &table,
            &mut signed,
            &mut c,
            &signature,
            Entry::FIRST,
            pair,
            units,
        );
        assert_eq!((end, &plain, &b), (other, &signed, &c));
    }
    let end = run(&table, &mut plain, &mut b, Entry::FIRST, pair, 100);
    assert_eq!(end.answer, Answer::Done);
    assert!(
        run_signed(
            &table,
            &mut signed,
            &mut c,
            &signature,
            Entry::FIRST,
            pair,
            100
        )
        .answer
            == Answer::Done
    );
    // Every node that is left obeys.
    for k in 0..signed.mark() as usize {
        let row = &signed.words()[8 * k..8 * k + 8];
        assert_eq!(signature.count(row[0] as u16), Some(row[1] as usize));
    }
    Ok(())
}

#[test]
fn refusals_and_their_order() -> Result<(), Box<dyn std::error::Error>> {
    let table = Table::of(&swap())?;
    let (store, pair) = small()?;
    let ask = |signature: &[u32]| {
        let mut after = store.clone();
        let mut bindings = Bindings::new();
        let end = run_signed(
            &table,
            &mut after,
            &mut bindings,
            &Signature::from_words(signature),
            Entry::FIRST,
            pair,
            100,
        );
        if end.answer.is_refusal() {
            assert_eq!((&after, bindings, end.units), (&store, Bindings::new(), 0));
        }
        end.answer
    };
    assert_eq!(ask(&[7, 0, 0, 7, 7, 2]), Answer::Done);
    let pattern = table.words().chunks(8).position(|row| row[0] / 16 == 19);
    let pattern = pattern.ok_or("no pattern")? as u32;
    assert_eq!(ask(&[7, 0, 0, 7, 7, 3]), Answer::DisobeyingEntry(pattern));
    assert_eq!(ask(&[7, 0, 0, 7, 7, 7]), Answer::DisobeyingEntry(pattern));
    assert_eq!(ask(&[7, 0, 0, 7, 7]), Answer::DisobeyingEntry(pattern));
    assert_eq!(ask(&[]), Answer::DisobeyingEntry(pattern));
    assert_eq!(ask(&[7, 0, 1, 7, 7, 2]), Answer::DisobeyingNode(1));
    assert_eq!(ask(&[8, 0, 0, 7, 7, 2]), Answer::RefusedSizes);
    assert_eq!(ask(&vec![7; 65_537]), Answer::RefusedSizes);
    // 10 before 11, and both before 5.
    assert_eq!(ask(&[7, 1, 1, 7, 7, 3]), Answer::DisobeyingEntry(pattern));
    let mut words_of = store.clone();
    let end = run_signed(
        &table,
        &mut words_of,
        &mut Bindings::new(),
        &Signature::from_words([7, 1, 0, 7, 7, 2]),
        Entry::from_number(99),
        pair,
        1,
    );
    assert_eq!(end.answer, Answer::DisobeyingNode(0));
    assert_eq!(
        words::run_signed(&[0; 8], &mut [0; 8], &mut [0; 64], 1, 0, 0, 1, &[0]),
        [0, 0, 0, 1, 1]
    );
    assert_eq!(
        words::run_signed(&[0; 8], &mut [0; 8], &mut [0; 64], 1, 0, 0, 1, &[]),
        [11, 0, 0, 1, 0]
    );
    Ok(())
}

#[test]
fn builders_refuse_a_wrong_count() -> Result<(), Box<dyn std::error::Error>> {
    let signature = Signature::of(&[(1, 0), (PAIR, 2)])?;
    let wrong = |constructor, count, declared| BuildError::WrongCount {
        constructor,
        count,
        declared,
    };
    let [x, ..] = VARS;
    let build = |strategy: Strategy| {
        let mut builder = TableBuilder::new();
        builder.declare(&signature);
        builder.add("it", strategy);
        builder.build()
    };
    assert!(build(swap()).is_ok());
    assert_eq!(
        build(match_(con(PAIR, [var(x)]))).unwrap_err(),
        wrong(PAIR, 1, Some(2))
    );
    assert_eq!(build(cong(1, [id()])).unwrap_err(), wrong(1, 1, Some(0)));
    assert_eq!(build(match_(con(3, []))).unwrap_err(), wrong(3, 0, None));
    assert_eq!(
        build(match_(con(u16::MAX, []))).unwrap_err(),
        wrong(u16::MAX, 0, None)
    );
    let mut store = Store::new();
    store.declare(&signature);
    let one = store.node(1, &[])?;
    assert_eq!(
        store.node(PAIR, &[one]).unwrap_err(),
        wrong(PAIR, 1, Some(2))
    );
    assert_eq!(store.node(2, &[]).unwrap_err(), wrong(2, 0, None));
    assert_eq!(store.mark(), 1);
    store.node(PAIR, &[one, one])?;
    Ok(())
}

#[test]
fn what_is_declared() -> Result<(), BuildError> {
    let mut signature = Signature::new();
    signature.declare(3, 6)?.declare(0, 0)?.declare(3, 6)?;
    assert_eq!(signature.words(), [0, 7, 7, 6]);
    assert_eq!(
        (signature.count(3), signature.count(1), signature.count(4)),
        (Some(6), None, None)
    );
    assert_eq!(
        signature.declare(3, 5).unwrap_err(),
        BuildError::DeclaredTwice(3)
    );
    assert_eq!(
        signature.declare(1, 7).unwrap_err(),
        BuildError::TooManyChildren(7)
    );
    assert_eq!(signature.words(), [0, 7, 7, 6]);
    signature.declare(u16::MAX, 1)?;
    assert_eq!(signature.words().len(), 65_536);
    Ok(())
}
