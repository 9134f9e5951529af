//! One node for one term: the store that lends its index by itself.
use marshtrundle::strategy::*;
use marshtrundle::{
    run, run_indexed, run_many_indexed, words, Answer, Bindings, Entry, Signature, Store, Table,
};

/// A leaf, a pair of it, and room for nodes in all.
fn pair(room: u32) -> (Store, marshtrundle::Node, marshtrundle::Node) {
    let mut store = Store::new();
    let leaf = store.node(1, &[]).expect("a leaf");
    let pair = store.node(2, &[leaf, leaf]).expect("a pair");
    store.room(room as usize).expect("room");
    (store, leaf, pair)
}

#[test]
fn a_node_that_stands_is_found_and_wants_no_room() {
    let (mut store, _, subject) = pair(0);
    let table = Table::of(&build(con(2, [con(1, []), con(1, [])]))).expect("a table");
    let mut plain = store.clone();
    let end = run(
        &table,
        &mut plain,
        &mut Bindings::new(),
        Entry::FIRST,
        subject,
        100,
    );
    assert_eq!(end.answer, Answer::OutOfRoom);
    let end = run_indexed(
        &table,
        &mut store,
        &mut Bindings::new(),
        None,
        Entry::FIRST,
        subject,
        100,
    );
    assert_eq!(
        (end.answer, end.subject, end.mark, end.units),
        (Answer::Done, subject, 2, 4)
    );
}

#[test]
fn room_given_back_is_forgotten() {
    let (mut store, leaf, subject) = pair(4);
    // The first branch makes 3() and fails; the second makes 3() again, at the same number.
    let three = || build(con(3, []));
    let table = Table::of(&left(seq(three(), fail()), three())).expect("a table");
    let end = run_indexed(
        &table,
        &mut store,
        &mut Bindings::new(),
        None,
        Entry::FIRST,
        subject,
        100,
    );
    assert_eq!(
        (end.answer, end.subject.number(), end.mark),
        (Answer::Done, 2, 3)
    );
    let _ = leaf;
}

#[test]
fn the_lowest_twin_is_refused_and_nothing_is_written() {
    let mut store = Store::new();
    let leaf = store.node(1, &[]).expect("a leaf");
    let _ = store.node(2, &[]).expect("another");
    let _ = store.node(1, &[]).expect("a twin");
    let _ = store.node(2, &[]).expect("a second twin");
    let table = Table::of(&id()).expect("a table");
    let end = run_indexed(
        &table,
        &mut store,
        &mut Bindings::new(),
        None,
        Entry::FIRST,
        leaf,
        9,
    );
    assert_eq!(end.answer, Answer::TwinNode(2));
    assert!(end.answer.is_refusal());
    // Over plain words: the index stays as lent.
    let mut lent = [[1, 0, 0, 0, 0, 0, 0, 0], [1, 0, 0, 0, 0, 0, 0, 0]].concat();
    lent.extend([7, 7, 7, 7, 7]);
    let before = lent.clone();
    let numbers = words::run_indexed(table.words(), &mut lent, 16, &mut [0; 64], 2, 0, 0, 9, None);
    assert_eq!((numbers, lent), ([21, 1, 0, 2, 0], before));
}

#[test]
fn the_index_is_zero_on_return_and_refused_where_it_is_short() {
    let table = Table::of(&build(con(3, []))).expect("a table");
    let node = [1, 0, 0, 0, 0, 0, 0, 0];
    let call = |index: &[u32], units| {
        let mut lent = [node, [9; 8]].concat();
        lent.extend(index);
        let numbers = words::run_indexed(
            table.words(),
            &mut lent,
            16,
            &mut [0; 64],
            1,
            0,
            0,
            units,
            None,
        );
        (numbers, lent)
    };
    assert_eq!(call(&[5; 3], 9).0, [2, 0, 0, 1, 0]);
    let (numbers, lent) = call(&[5; 6], 9);
    assert_eq!(numbers, [0, 0, 1, 2, 2]);
    assert_eq!(
        &lent[8..],
        [[3, 0, 0, 0, 0, 0, 0, 0].as_slice(), &[0; 6]].concat()
    );
    let (numbers, lent) = call(&[5; 6], 1);
    assert_eq!((numbers, &lent[8..]), ([6, 0, 0, 1, 1], [0; 14].as_slice()));
}

#[test]
fn many_subjects_share_one_index_and_a_signature_is_asked() {
    let mut store = Store::new();
    let a = store.node(1, &[]).expect("a leaf");
    let b = store.node(4, &[]).expect("another");
    store.room(9).expect("room");
    let table = Table::of(&build(con(2, [con(1, []), con(3, [])]))).expect("a table");
    let signature = Signature::of(&[(1, 0), (2, 2), (3, 0), (4, 0)]).expect("a signature");
    let outcomes = run_many_indexed(
        &table,
        &mut store,
        &Bindings::new(),
        Some(&signature),
        Entry::FIRST,
        &[a, b, a],
        99,
    )
    .expect("it is not refused");
    let marks: Vec<u32> = outcomes.map(|end| end.mark).collect();
    assert_eq!(marks, [4, 4, 4]);
    let short = Signature::of(&[(1, 0), (2, 3), (3, 0), (4, 0)]).expect("a signature");
    let refused = run_many_indexed(
        &table,
        &mut store,
        &Bindings::new(),
        Some(&short),
        Entry::FIRST,
        &[a],
        99,
    );
    assert_eq!(refused.err().map(Answer::number), Some(10));
}
