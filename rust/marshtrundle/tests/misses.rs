//! Where the last match of a failed run gave up, and the way back from its entry to the rule's own pattern.
use marshtrundle::show::{Names, Show};
use marshtrundle::strategy::*;
use marshtrundle::{
    run, words, Answer, Bindings, Entry, Miss, Node, Store, Table, TableBuilder, Var,
};

const X: Var = marshtrundle::VARS[0];
const Y: Var = marshtrundle::VARS[1];

/// 5(1, 2), with room.
fn pair() -> (Store, Node) {
    let mut store = Store::new();
    let one = store.node(1, &[]).unwrap();
    let two = store.node(2, &[]).unwrap();
    let pair = store.node(5, &[one, two]).unwrap();
    store.room(9).unwrap();
    (store, pair)
}

fn answer(table: &Table, units: u32) -> Answer {
    let (mut store, pair) = pair();
    run(
        table,
        &mut store,
        &mut Bindings::new(),
        Entry::FIRST,
        pair,
        units,
    )
    .answer
}

/// The pattern that gave up and the rules' patterns, as text.
fn shown(table: &Table, miss: &Miss) -> (String, Vec<String>) {
    let names = Names::default();
    let show = Show::new(&names);
    let rules = miss.rules.iter().map(|&rule| show.pattern(table, rule));
    (show.pattern(table, miss.entry), rules.collect())
}

fn missed(s: &Strategy) -> Option<(String, Vec<String>)> {
    let table = Table::of(s).unwrap();
    let miss = table.missed(answer(&table, 1_000));
    miss.map(|miss| shown(&table, &miss))
}

#[test]
fn the_pattern_is_the_rules_own() {
    let swap = |x, y| rule(con(5, [con(x, []), var(Y)]), con(5, [var(Y), con(y, [])]));
    let from = |text: &str| vec![text.to_owned()];
    assert_eq!(missed(&swap(1, 1)), None);
    assert_eq!(
        missed(&swap(3, 1)),
        Some(("3".to_owned(), from("5(3, v1)")))
    );
    // Whole, and of another count.
    let (other, none) = (con(6, []), con(5, []));
    assert_eq!(missed(&match_(other)), Some(("6".to_owned(), from("6"))));
    assert_eq!(missed(&match_(none)), Some(("5".to_owned(), from("5"))));
    // A variable that is met again.
    let twice = match_(con(5, [var(X), var(X)]));
    assert_eq!(missed(&twice), Some(("v0".to_owned(), from("5(v0, v0)"))));
}

#[test]
fn the_last_in_time_is_meant_caught_or_not() {
    let six = || match_(con(6, []));
    let seven = || match_(con(7, []));
    for s in [
        left(six(), seven()),
        seq(not(six()), seven()),
        left(seq(not(seven()), six()), seven()),
    ] {
        assert_eq!(missed(&s).unwrap().0, "7");
    }
    assert_eq!(missed(&seq(not(six()), fail())).unwrap().0, "6");
    assert_eq!(missed(&left(six(), fail())).unwrap().0, "6");
    assert_eq!(missed(&fail()), None);
}

#[test]
fn one_pattern_in_two_rules() {
    let mut builder = TableBuilder::new();
    builder.add("both", left(call("one"), call("two")));
    builder.define("one", match_(con(5, [con(9, []), var(X)])));
    builder.define("two", match_(con(5, [var(X), con(9, [])])));
    builder.define("three", build(con(9, [])));
    let table = builder.build().unwrap();
    let miss = table.missed(answer(&table, 1_000)).unwrap();
    let (pattern, mut rules) = shown(&table, &miss);
    rules.sort();
    assert_eq!(pattern, "9");
    assert_eq!(rules, ["5(9, v0)", "5(v0, 9)"]);
    assert_eq!(miss.strategies, ["both", "one", "two"]);
}

#[test]
fn no_other_answer_has_a_miss() {
    let table = Table::of(&left(match_(con(6, [])), id())).unwrap();
    assert_eq!(answer(&table, 1_000), Answer::Done);
    assert_eq!(answer(&table, 3), Answer::OutOfUnits);
    for answer in [
        Answer::Done,
        Answer::OutOfUnits,
        Answer::Failed(None),
        Answer::BadNode(1),
    ] {
        assert_eq!(table.missed(answer), None);
    }
    // An entry that is not in the table has no rule.
    let far = Answer::Failed(Some(Entry::from_number(4_000)));
    assert_eq!(table.missed(far).unwrap().rules, []);
}

#[test]
fn the_place_is_the_archives_own() {
    for s in [fail(), match_(con(6, [])), match_(con(5, [var(X), var(X)]))] {
        let table = Table::of(&s).unwrap();
        let (mut store, pair) = pair();
        let mark = store.mark();
        let mut words = store.words().to_vec();
        let five = words::run(
            table.words(),
            &mut words,
            &mut [0; 64],
            mark,
            0,
            pair.number(),
            99,
        );
        let end = run(
            &table,
            &mut store,
            &mut Bindings::new(),
            Entry::FIRST,
            pair,
            99,
        );
        assert_eq!([end.answer.number(), end.answer.place()], five[..2]);
    }
}
