//! Every traversal and every rule: where it succeeds, with what, and where it fails.
use marshtrundle::pipeline::Pipeline;
use marshtrundle::show::Names;
use marshtrundle::strategy::*;
use marshtrundle::{
    run, Answer, Bindings, BuildError, Entry, Node, Store, Table, Var, NODES, VARS,
};

fn read(store: &mut Store, text: &str) -> Node {
    Names::new().read_term(store, text).unwrap()
}

const X: Var = VARS[0];
const Y: Var = VARS[1];
const Z: Var = VARS[2];

/// 1 becomes 2.
fn one_to_two() -> Strategy {
    rule(con(1, []), con(2, []))
}

/// 3(x) becomes x.
fn peel() -> Strategy {
    rule(con(3, [var(X)]), var(X))
}

/// 4(x) becomes 4(4(x)): it can go on for ever.
fn grow() -> Strategy {
    rule(con(4, [var(X)]), con(4, [con(4, [var(X)])]))
}

/// What a strategy makes of a term with ample limits, nothing bound: the new term as text, or the answer. Whatever the answer,
/// nothing is bound afterwards, or the test ends.
fn rewrite(s: &Strategy, text: &str) -> Result<String, Answer> {
    let mut store = Store::new();
    let subject = read(&mut store, text);
    store.room(10_000).unwrap();
    let mut bindings = Bindings::new();
    let table = Table::of(s).unwrap();
    let end = run(
        &table,
        &mut store,
        &mut bindings,
        Entry::FIRST,
        subject,
        1_000_000,
    );
    assert_eq!(bindings, Bindings::new());
    let new = end.done()?;
    Ok(store.term(new).unwrap().to_string())
}

fn gives_term(s: &Strategy, from: &str, to: &str) {
    assert_eq!(rewrite(s, from).as_deref(), Ok(to), "from {from}");
}

fn fails_on(s: &Strategy, from: &str) {
    assert_eq!(
        rewrite(s, from).map_err(Answer::number),
        Err(1),
        "on {from}"
    );
}

#[test]
fn seq_of_many() {
    let s = seq_of([
        one_to_two(),
        rule(con(2, []), con(5, [])),
        rule(con(5, []), con(6, [])),
    ]);
    gives_term(&s, "1", "6");
    fails_on(&s, "2");
    fails_on(&seq_of([one_to_two(), fail()]), "1");
    gives_term(&seq_of([]), "1", "1");
    gives_term(&seq_of([one_to_two()]), "1", "2");
}

#[test]
fn left_of_many() {
    let s = left_of([
        one_to_two(),
        rule(con(2, []), con(5, [])),
        rule(con(1, []), con(9, [])),
    ]);
    gives_term(&s, "1", "2");
    gives_term(&s, "2", "5");
    fails_on(&s, "3");
    fails_on(&left_of([]), "1");
    // The bindings of a branch that failed are gone: Y can be bound to another term.
    let branches = left_of([
        seq(
            match_(con(7, [var(Y), var(Z)])),
            match_(con(7, [var(Z), var(Y)])),
        ),
        rule(con(7, [var(X), var(Y)]), var(Y)),
    ]);
    gives_term(&scope([Y, Z], branches), "7(1, 2)", "2");
}

#[test]
fn attempt_and_repeat_never_fail() {
    gives_term(&attempt(one_to_two()), "1", "2");
    gives_term(&attempt(one_to_two()), "3(1)", "3(1)");
    gives_term(&repeat(peel()), "3(3(3(1)))", "1");
    gives_term(&repeat(peel()), "1", "1");
}

#[test]
fn bottom_up_and_top_down_need_every_subterm() {
    let swap = attempt(rule(con(7, [var(X), var(Y)]), con(7, [var(Y), var(X)])));
    gives_term(
        &bottom_up(swap.clone()),
        "7(7(1, 2), 3(7(1, 2)))",
        "7(3(7(2, 1)), 7(2, 1))",
    );
    gives_term(
        &top_down(swap),
        "7(7(1, 2), 3(7(1, 2)))",
        "7(3(7(2, 1)), 7(2, 1))",
    );
    // Children first: the peel at the top meets what is peeled below. Parents first: a layer is left.
    gives_term(&bottom_up(attempt(peel())), "3(3(1))", "1");
    gives_term(&top_down(attempt(peel())), "3(3(1))", "3(1)");
    fails_on(&bottom_up(one_to_two()), "7(1, 1)");
    fails_on(&top_down(one_to_two()), "7(1, 1)");
}

#[test]
fn down_up_goes_both_ways() {
    // 7(x, y) becomes 7(y, x) on the way down and back on the way up; 1 becomes 2 and then 5.
    let both = left_of([
        rule(con(7, [var(X), var(Y)]), con(7, [var(Y), var(X)])),
        one_to_two(),
        rule(con(2, []), con(5, [])),
    ]);
    gives_term(&down_up(both.clone()), "7(1, 1)", "7(5, 5)");
    fails_on(&down_up(both), "7(1, 3)");
}

#[test]
fn once_takes_one_subterm() {
    gives_term(&once_td(peel()), "7(1, 3(3(3(1))))", "7(1, 3(3(1)))");
    gives_term(&once_td(one_to_two()), "7(7(3, 1), 1)", "7(7(3, 2), 1)");
    gives_term(&once_bu(one_to_two()), "7(7(3, 1), 1)", "7(7(3, 2), 1)");
    // Which of two nested places is taken shows where the two differ.
    let top_or_not = left(
        rule(con(3, [con(3, [var(X)])]), con(8, [])),
        rule(con(3, [con(1, [])]), con(9, [])),
    );
    gives_term(&once_td(top_or_not.clone()), "3(3(1))", "8");
    gives_term(&once_bu(top_or_not), "3(3(1))", "3(9)");
    fails_on(&once_td(one_to_two()), "7(2, 3(2))");
    fails_on(&once_bu(one_to_two()), "7(2, 3(2))");
}

#[test]
fn all_td_and_some_td_stop_at_a_success() {
    let wrap = left(
        rule(con(3, [var(X)]), con(3, [con(3, [var(X)])])),
        one_to_two(),
    );
    for traversal in [all_td(wrap.clone()), some_td(wrap)] {
        gives_term(&traversal, "7(3(1), 7(1, 5))", "7(3(3(1)), 7(2, 5))");
    }
    gives_term(&all_td(one_to_two()), "7(5, 6)", "7(5, 6)");
    fails_on(&some_td(one_to_two()), "7(5, 6)");
}

#[test]
fn some_bu_leaves_what_is_above() {
    let s = left(one_to_two(), rule(con(3, [var(X)]), con(8, [var(X)])));
    gives_term(&some_bu(s.clone()), "7(3(1), 3(5))", "7(3(2), 8(5))");
    fails_on(&some_bu(s), "7(5, 6)");
}

#[test]
fn innermost_and_outermost_leave_nothing_to_do() {
    let s = left_of([
        peel(),
        rule(con(1, []), con(3, [con(2, [])])),
        rule(con(7, [var(X), var(X)]), con(1, [])),
    ]);
    for traversal in [innermost(s.clone()), outermost(s)] {
        gives_term(&traversal, "7(3(1), 3(3(2)))", "2");
        gives_term(&traversal, "8(5, 6)", "8(5, 6)");
    }
    // They differ in what they look at first.
    let first = left(rule(con(9, [con(1, [])]), con(10, [])), one_to_two());
    gives_term(&innermost(first.clone()), "9(1)", "9(2)");
    gives_term(&outermost(first), "9(1)", "10");
    for endless in [innermost(grow()), outermost(grow()), repeat(grow())] {
        let answer = rewrite(&endless, "4(1)").unwrap_err();
        assert!(answer.is_cut_off(), "{answer}");
    }
}

#[test]
fn map_needs_a_list_and_every_element() {
    let s = map(8, 9, one_to_two());
    gives_term(&s, "8(1, 8(1, 9))", "8(2, 8(2, 9))");
    gives_term(&s, "9", "9");
    fails_on(&s, "8(1, 8(3, 9))");
    fails_on(&s, "8(1, 8(1, 7))");
    fails_on(&s, "1");
    fails_on(&s, "8(1)");
}

#[test]
fn rules_need_their_pattern() {
    gives_term(&peel(), "3(1)", "1");
    fails_on(&peel(), "1");
    // A variable of a rule is its own: what is bound outside does not matter, and stays.
    let outer = scope([X], seq(match_(con(7, [var(X), var(Y)])), path(1, peel())));
    gives_term(&scope([Y], outer), "7(3(1), 2)", "7(1, 2)");
}

#[test]
fn conditions_that_hold_fail_and_give() {
    let has_one = once_td(match_(con(1, [])));
    let s = rule_where(
        con(7, [var(X), var(Y)]),
        var(Y),
        [holds(var(X), has_one.clone())],
    );
    gives_term(&s, "7(3(1), 2)", "2");
    fails_on(&s, "7(3(2), 2)");
    let s = rule_where(con(7, [var(X), var(Y)]), var(Y), [fails(var(X), has_one)]);
    gives_term(&s, "7(3(2), 2)", "2");
    fails_on(&s, "7(3(1), 2)");
    let s = rule_where(
        con(7, [var(X), var(Y)]),
        con(7, [var(Z), var(Y)]),
        [gives(var(X), repeat(peel()), con(5, [var(Z)]))],
    );
    gives_term(&s, "7(3(3(5(1))), 2)", "7(1, 2)");
    fails_on(&s, "7(3(3(1)), 2)");
    // What a condition that only holds has bound is gone: Z can be bound to another term.
    let binds = rule_where(
        con(7, [var(X), var(Y)]),
        con(7, [var(Y), var(Z)]),
        [holds(var(X), match_(var(Z))), gives(var(Y), id(), var(Z))],
    );
    gives_term(&binds, "7(1, 2)", "7(2, 2)");
    // An outcome that names a bound variable compares.
    let s = rule_where(
        con(7, [var(X), var(Y)]),
        var(X),
        [gives(var(X), attempt(one_to_two()), var(Y))],
    );
    gives_term(&s, "7(1, 2)", "1");
    fails_on(&s, "7(1, 1)");
    // A later condition starts from what an earlier one bound.
    let s = rule_where(
        con(7, [var(X), var(Y)]),
        var(Z),
        [
            gives(var(X), peel(), var(Z)),
            holds(
                con(7, [var(Z), var(Y)]),
                match_(con(7, [con(1, []), con(2, [])])),
            ),
        ],
    );
    gives_term(&s, "7(3(1), 2)", "1");
    fails_on(&s, "7(3(2), 2)");
}

#[test]
fn a_rule_refuses_a_variable_that_nothing_binds() {
    let refused = |s: Strategy| Table::of(&attempt(s)).unwrap_err();
    assert_eq!(
        refused(rule(con(3, [var(X)]), con(3, [var(Y)]))),
        BuildError::NothingBinds(Y)
    );
    assert_eq!(
        refused(rule_where(
            var(X),
            var(X),
            [holds(var(Z), id()), gives(var(X), id(), var(Z))]
        )),
        BuildError::NothingBinds(Z)
    );
    assert_eq!(
        refused(rule_where(var(X), var(Y), [fails(var(X), match_(var(Y)))])),
        BuildError::NothingBinds(Y)
    );
    assert_eq!(
        BuildError::NothingBinds(Y).to_string(),
        "a rule builds variable 1, and nothing binds it"
    );
}

#[test]
fn a_pipeline_reports_each_pass() {
    let mut pipeline = Pipeline::new();
    pipeline.pass("peel", &innermost(peel())).unwrap();
    pipeline.pass("look for 1", &once_td(one_to_two())).unwrap();
    pipeline.pass("as it is", &bottom_up(id())).unwrap();
    let mut store = Store::new();
    let subject = read(&mut store, "7(3(3(2)), 5)");
    store.room(100).unwrap();
    let report = pipeline.run(&mut store, &mut Bindings::new(), subject);
    let after = report.end().unwrap();
    assert_eq!(store.term(after).unwrap().to_string(), "7(2, 5)");
    let seen: Vec<_> = report
        .passes
        .iter()
        .map(|pass| {
            (
                pass.name.as_str(),
                pass.answer.number(),
                pass.changed,
                pass.mark,
            )
        })
        .collect();
    assert_eq!(
        seen,
        [
            ("peel", 0, true, 3),
            ("look for 1", 1, false, 3),
            ("as it is", 0, false, 3)
        ]
    );
    let text = report.to_string();
    let lines: Vec<&str> = text.lines().collect();
    assert_eq!(lines.len(), 4);
    assert!(
        lines[1].starts_with("peel ") && lines[1].ends_with("  done"),
        "{text}"
    );
    assert!(lines[2].contains("failed"), "{text}");
    assert!(lines[3].ends_with("  done, nothing changed"), "{text}");
}

#[test]
fn a_pipeline_stops_where_a_pass_is_cut_off() {
    let mut pipeline = Pipeline::new();
    pipeline.pass("peel", &innermost(peel())).unwrap();
    pipeline.pass("endless", &rec(|again| again)).unwrap();
    pipeline.pass("never", &id()).unwrap();
    pipeline.units(100);
    let mut store = Store::new();
    let subject = read(&mut store, "3(2)");
    store.room(10).unwrap();
    let report = pipeline.run(&mut store, &mut Bindings::new(), subject);
    assert_eq!(report.passes.len(), 2);
    let stopped = report.end().unwrap_err();
    assert_eq!(
        (stopped.pass.as_str(), stopped.answer),
        ("endless", Answer::OutOfUnits)
    );
    assert_eq!(
        stopped.to_string(),
        "the pass 'endless' stopped: all units are used"
    );
    assert_eq!(store.term(report.subject).unwrap().to_string(), "2");
}

#[test]
fn the_most_room_is_what_a_store_may_have() {
    let mut store = Store::new();
    store.node(1, &[]).unwrap();
    store.most_room();
    assert_eq!((store.capacity(), store.mark()), (NODES, 1));
    assert_eq!(store.check(), Ok(()));
    assert_eq!(store.room(NODES), Err(BuildError::TooManyNodes(NODES + 1)));
    let words = vec![0; 8 * (NODES + 1)];
    let mut large = Store::from_words(words, 0);
    large.most_room();
    assert_eq!(large.capacity(), NODES + 1);
}
