//! Sixty-four variables: rules, scopes, the question of free variables and jobs over both halves.
use marshtrundle::job::Job;
use marshtrundle::strategy::*;
use marshtrundle::{free_variables, run, Answer, Bindings, Entry, Node, Store, Table, VARS};

/// The store with the nodes 1, 2 and 5(1, 2), and room for one more.
fn pair() -> (Store, [Node; 3]) {
    let mut store = Store::new();
    let one = store.node(1, &[]).unwrap();
    let two = store.node(2, &[]).unwrap();
    let both = store.node(5, &[one, two]).unwrap();
    store.room(1).unwrap();
    (store, [one, two, both])
}

#[test]
fn a_rule_over_any_two_variables() {
    for (x, y) in [(0, 63), (31, 32), (32, 0), (63, 62)] {
        let (x, y) = (VARS[x], VARS[y]);
        let swap = rule(con(5, [var(x), var(y)]), con(5, [var(y), var(x)]));
        let table = Table::of(&swap).unwrap();
        assert_eq!(table.check(), Ok(()));
        let (mut store, [_, _, both]) = pair();
        let mut bindings = Bindings::new();
        let end = run(&table, &mut store, &mut bindings, Entry::FIRST, both, 99);
        assert_eq!((end.answer, end.units), (Answer::Done, 10));
        assert_eq!(store.term(end.subject).unwrap().to_string(), "5(2, 1)");
        assert!(bindings.bound().is_empty());
    }
}

#[test]
fn a_scope_hides_its_own_variables_and_no_others() {
    for v in [0, 31, 32, 63] {
        for hidden in [0, 31, 32, 63] {
            let (x, h) = (VARS[v], VARS[hidden]);
            let table = Table::of(&scope([h], match_(var(x)))).unwrap();
            let free = free_variables(&table, Entry::FIRST).unwrap();
            assert_eq!(free.contains(x), v != hidden);
            assert_eq!(free.is_empty(), v == hidden);
            let (mut store, [one, _, both]) = pair();
            let mut bindings = Bindings::new();
            bindings.bind(x, one);
            let end = run(&table, &mut store, &mut bindings, Entry::FIRST, both, 99);
            assert_eq!(end.answer == Answer::Done, v == hidden);
            assert_eq!(bindings.get(x), Some(one));
            assert_eq!(bindings.bound().iter().count(), 1);
        }
    }
}

#[test]
fn a_build_names_its_variable() {
    for v in [0, 31, 32, 63] {
        let table = Table::of(&build(var(VARS[v]))).unwrap();
        let (mut store, [one, _, both]) = pair();
        let mut bindings = Bindings::new();
        bindings.bind(VARS[v ^ 32], one);
        let end = run(&table, &mut store, &mut bindings, Entry::FIRST, both, 99);
        assert_eq!(end.answer, Answer::Unbound(VARS[v]));
    }
}

#[test]
fn a_job_has_the_whole_mask() {
    for mask in [1, 1 << 31, 1 << 32, 1 << 63, u64::MAX] {
        let text =
            format!("job\t9\t0\t0\t1\ne\t16\t{mask}\t1\ne\t14\t0\t2\ne\t18\t63\nn\t1\nb\t63\t0\n");
        let job = Job::read(text.as_bytes()).unwrap();
        assert_eq!(
            job.table.words()[..4],
            [257, mask as u32, (mask >> 32) as u32, 1]
        );
        assert_eq!(job.to_string(), text);
    }
    for (line, bad) in [
        ("e\t16\t18446744073709551616\t1", true),
        ("e\t16\t18446744073709551615\t1", false),
        ("e\t17\t4294967296\t1", true),
        ("e\t18\t4294967296", true),
        ("e\t16\t0\t4294967296", true),
    ] {
        let text = format!("job\t9\t0\t0\t1\n{line}\ne\t0\t0\nn\t1\n");
        assert_eq!(Job::read(text.as_bytes()).is_err(), bad, "{line}");
    }
    for (variable, bad) in [(31, false), (32, false), (63, false), (64, true)] {
        let text = format!("job\t9\t0\t0\t1\ne\t0\t0\nn\t1\nb\t{variable}\t0\n");
        assert_eq!(Job::read(text.as_bytes()).is_err(), bad);
    }
}
