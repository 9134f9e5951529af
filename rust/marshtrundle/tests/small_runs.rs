//! The small runs S1 to S12 of document 01, by the builders.
use marshtrundle::strategy::*;
use marshtrundle::{
    free_variables, run, Answer, Bindings, Entry, Node, Outcome, Store, Table, Var, VarSet, VARS,
};

/// A store with nodes 1, 2 and 5(0, 1), as document 01 has it, with room for so many nodes in all.
fn store(nodes: usize) -> (Store, [Node; 3]) {
    let mut store = Store::new();
    let one = store.node(1, &[]).unwrap();
    let two = store.node(2, &[]).unwrap();
    let pair = store.node(5, &[one, two]).unwrap();
    store.room(nodes - 3).unwrap();
    (store, [one, two, pair])
}

fn ran(s: Strategy, subject: usize, units: u32, nodes: usize) -> (Outcome, Store, Bindings) {
    let (mut store, ids) = store(nodes);
    let mut bindings = Bindings::new();
    let table = Table::of(&s).unwrap();
    assert_eq!(table.check(), Ok(()));
    let end = run(
        &table,
        &mut store,
        &mut bindings,
        Entry::FIRST,
        ids[subject],
        units,
    );
    assert_eq!(store.mark(), end.mark);
    assert_eq!(store.check(), Ok(()));
    (end, store, bindings)
}

fn ends(answer: Answer, subject: u32, mark: u32, units: u32) -> Outcome {
    Outcome {
        answer,
        subject: Node::from_number(subject),
        mark,
        units,
    }
}

const X: Var = VARS[0];
const Y: Var = VARS[1];

fn swap() -> Strategy {
    rule(con(5, [var(X), var(Y)]), con(5, [var(Y), var(X)]))
}

#[test]
fn s1_to_s3_swap() {
    let (end, after, bindings) = ran(swap(), 2, 10, 4);
    assert_eq!(end, ends(Answer::Done, 3, 4, 10));
    assert_eq!(&after.words()[24..], [5, 2, 1, 0, 0, 0, 0, 0]);
    assert_eq!(after.term(end.subject).unwrap().to_string(), "5(2, 1)");
    assert_eq!(bindings, Bindings::new());

    let (end, after, _) = ran(swap(), 2, 9, 4);
    assert_eq!(end, ends(Answer::OutOfUnits, 2, 3, 9));
    assert_eq!(after, store(4).0);

    let (end, after, _) = ran(swap(), 2, 10, 3);
    assert_eq!(end, ends(Answer::OutOfRoom, 2, 3, 10));
    assert_eq!(after, store(3).0);
}

#[test]
fn s4_and_s5_a_variable_twice() {
    let twice = match_(con(5, [var(X), var(X)]));
    let (end, _, bindings) = ran(twice.clone(), 2, 99, 9);
    assert_eq!(
        end,
        ends(Answer::Failed(Some(Entry::from_number(2))), 2, 3, 5)
    );
    assert_eq!(bindings, Bindings::new());

    let mut store = Store::new();
    let one = store.node(1, &[]).unwrap();
    store.node(2, &[]).unwrap();
    let pair = store.node(5, &[one, one]).unwrap();
    let mut bindings = Bindings::new();
    let table = Table::of(&twice).unwrap();
    let end = run(&table, &mut store, &mut bindings, Entry::FIRST, pair, 99);
    assert_eq!(end, ends(Answer::Done, 2, 3, 5));
    assert_eq!(bindings.iter().collect::<Vec<_>>(), [(X, one)]);
}

#[test]
fn s6_an_abandoned_branch_leaves_no_binding() {
    let s = left(seq(match_(var(X)), fail()), id());
    let (end, _, bindings) = ran(s, 2, 99, 9);
    assert_eq!(end, ends(Answer::Done, 2, 3, 6));
    assert_eq!(bindings.get(X), None);
}

#[test]
fn s7_and_s8_children() {
    assert_eq!(ran(all(fail()), 0, 99, 9).0, ends(Answer::Done, 0, 3, 1));
    assert_eq!(
        ran(one(id()), 0, 99, 9).0,
        ends(Answer::Failed(None), 0, 3, 1)
    );
    let (end, after, _) = ran(some(match_(con(1, []))), 2, 99, 9);
    assert_eq!(end, ends(Answer::Done, 3, 4, 5));
    assert_eq!(after.words()[24..28], [5, 2, 0, 1]);
    assert_eq!(after.term(end.subject), after.term(Node::from_number(2)));
}

#[test]
fn s9_paths() {
    assert_eq!(
        ran(path(3, id()), 2, 99, 9).0,
        ends(Answer::Failed(None), 2, 3, 1)
    );
    assert_eq!(ran(path(2, id()), 2, 99, 9).0, ends(Answer::Done, 3, 4, 2));
}

#[test]
fn s10_test_and_where() {
    let (end, _, bindings) = ran(test(match_(var(X))), 2, 99, 9);
    assert_eq!(end, ends(Answer::Done, 2, 3, 3));
    assert_eq!(bindings.get(X), None);
    let (end, _, bindings) = ran(where_(match_(var(X))), 2, 99, 9);
    assert_eq!(end, ends(Answer::Done, 2, 3, 3));
    assert_eq!(bindings.get(X), Some(Node::from_number(2)));
}

#[test]
fn s11_an_endless_call() {
    let endless = rec(|again| again);
    assert_eq!(
        ran(endless.clone(), 2, 7, 9).0,
        ends(Answer::OutOfUnits, 2, 3, 7)
    );
    assert_eq!(
        ran(endless, 2, 5_000, 9).0,
        ends(Answer::TooDeep, 2, 3, 4_096)
    );
}

#[test]
fn s12_an_unbound_variable_ends_the_run() {
    assert_eq!(
        ran(build(var(X)), 2, 99, 9).0,
        ends(Answer::Unbound(X), 2, 3, 2)
    );
}

#[test]
fn nothing_catches_an_unbound_variable() {
    let wrong = || build(con(9, [con(7, []), var(Y)]));
    for (caught, units) in [
        (not(wrong()), 5),
        (left(wrong(), id()), 5),
        (choice(wrong(), id()), 5),
        (test(wrong()), 5),
        (one(wrong()), 5),
        (some(wrong()), 5),
        (scope([X, Y], wrong()), 5),
        (left(not(wrong()), id()), 6),
    ] {
        let (end, after, bindings) = ran(caught, 2, 99, 9);
        assert_eq!(end, ends(Answer::Unbound(Y), 2, 3, units));
        assert_eq!((end.answer.number(), end.answer.place()), (12, 1));
        assert!(end.answer.is_cut_off() && !end.answer.is_refusal());
        assert_eq!(end.found(), Err(Answer::Unbound(Y)));
        assert!(after.words()[24..].iter().all(|&word| word == 0));
        assert_eq!(bindings, Bindings::new());
    }
    // Its own units are tested first, and so is the room of a node before it.
    assert_eq!(ran(wrong(), 2, 3, 9).0, ends(Answer::OutOfUnits, 2, 3, 3));
    assert_eq!(ran(wrong(), 2, 99, 3).0, ends(Answer::OutOfRoom, 2, 3, 3));
}

#[test]
fn nothing_catches_a_cut_off() {
    let endless = rec(|again| again);
    let (end, _, _) = ran(left(not(endless), id()), 2, 50, 9);
    assert_eq!(end, ends(Answer::OutOfUnits, 2, 3, 50));
}

#[test]
fn free_variables_of_the_swap() {
    let inner = seq(
        match_(con(5, [var(X), var(Y)])),
        build(con(5, [var(Y), var(X)])),
    );
    let both: VarSet = [X, Y].into_iter().collect();
    let mut builder = marshtrundle::TableBuilder::new();
    builder.add("open", inner.clone());
    builder.add("half", scope([X], inner.clone()));
    builder.add("closed", scope([X, Y], inner));
    let table = builder.build().unwrap();
    let of = |name| free_variables(&table, table.entry(name).unwrap());
    assert_eq!(of("open"), Ok(both));
    assert_eq!(of("half"), Ok([Y].into_iter().collect()));
    assert_eq!(of("closed"), Ok(VarSet::default()));
}

#[test]
fn threads_share_a_table_and_run_at_the_same_time() {
    let table = Table::of(&swap()).unwrap();
    let table = &table;
    std::thread::scope(|threads| {
        for _ in 0..4 {
            threads.spawn(move || {
                for _ in 0..50 {
                    let (mut store, [.., pair]) = store(4);
                    let mut bindings = Bindings::new();
                    let end = run(table, &mut store, &mut bindings, Entry::FIRST, pair, 10);
                    assert_eq!(end, ends(Answer::Done, 3, 4, 10));
                }
            });
        }
    });
}

#[test]
fn all_types_can_go_to_other_threads() {
    fn can_go<T: Send + Sync>() {}
    can_go::<(Table, Store, Bindings, Outcome)>();
    can_go::<(Strategy, Pattern, marshtrundle::TableBuilder)>();
}
