//! The builders: layout, sharing, names, mistakes as values, reading terms back.
use marshtrundle::strategy::*;
use marshtrundle::{
    run, with_stack, Answer, Bindings, BuildError, Entry, Node, Store, Table, TableBuilder, Var,
    VarSet, VARS,
};

#[test]
fn operands_stand_after_their_entry_and_equal_ones_are_shared() {
    let [x, y, ..] = VARS;
    let swap = rule(con(5, [var(x), var(y)]), con(5, [var(y), var(x)]));
    let table = Table::of(&swap).unwrap();
    assert_eq!(table.entries(), 8);
    assert_eq!(table.words()[..8], [257, 3, 0, 1, 0, 0, 0, 0]);
    let twice = Table::of(&seq(swap.clone(), swap.clone())).unwrap();
    assert_eq!(twice.entries(), 9);
    assert_eq!(twice.check(), Ok(()));
    let mut builder = TableBuilder::new();
    builder.add("second", path(1, swap.clone()));
    builder.add("first", swap.clone());
    builder.add("same", swap);
    let table = builder.build().unwrap();
    assert_eq!(table.entries(), 9);
    assert_eq!(table.entry("second"), Some(Entry::FIRST));
    assert_eq!(table.entry("first"), table.entry("same"));
    assert_eq!(table.entry("third"), None);
    assert_eq!(table.check(), Ok(()));
}

#[test]
fn each_function_makes_its_kind() {
    let x = VARS[3];
    let made = [
        (id(), 0, 0),
        (fail(), 16, 0),
        (test(id()), 33, 0),
        (not(id()), 49, 0),
        (seq(id(), id()), 66, 0),
        (choice(id(), id()), 82, 0),
        (left(id(), id()), 98, 0),
        (rec(|_| id()), 113, 0),
        (path(6, id()), 145, 6),
        (cong(65_535, [id(), id(), id()]), 163, 65_535),
        (all(id()), 177, 0),
        (one(id()), 193, 0),
        (some(id()), 209, 0),
        (match_(var(x)), 225, 0),
        (build(var(x)), 241, 0),
        (scope([x], id()), 257, 8),
        (where_(id()), 273, 0),
    ];
    for (s, first, argument) in made {
        let table = Table::of(&s).unwrap();
        assert_eq!(table.words()[..2], [first, argument], "{s:?}");
    }
    let table = Table::of(&rec(|again| again)).unwrap();
    assert_eq!(table.words()[8..11], [129, 0, 0]);
    let table = Table::of(&match_(con(7, [var(x)]))).unwrap();
    assert_eq!(table.words()[8..11], [305, 7, 2]);
    assert_eq!(table.words()[16..18], [288, 3]);
}

#[test]
fn recursion_by_value_and_by_name() {
    // A number is 1(1(.. 0)). `even` and `odd` call each other.
    let mut builder = TableBuilder::new();
    builder.define("even", left(match_(con(0, [])), path(1, call("odd"))));
    builder.define("odd", path(1, call("even")));
    let table = builder.build().unwrap();
    assert_eq!(table.check(), Ok(()));
    let mut store = Store::new();
    let mut number = store.node(0, &[]).unwrap();
    for n in 0..20 {
        store.room(100).unwrap();
        let mut ends = |name| {
            let start = table.entry(name).unwrap();
            run(&table, &mut store, &mut Bindings::new(), start, number, 999).answer
        };
        let even = ends("even") == Answer::Done;
        let odd = ends("odd") == Answer::Done;
        assert_eq!((even, odd), (n % 2 == 0, n % 2 == 1));
        number = store.node(1, &[number]).unwrap();
    }
    // Two recursions, one inside the other, each called from within.
    let nested = rec(|outer| rec(|inner| left(seq(outer, inner), id())));
    assert_eq!(Table::of(&nested).unwrap().check(), Ok(()));
}

#[test]
fn traversals_do_what_their_names_say() {
    let [x, ..] = VARS;
    let mut store = Store::new();
    let leaf = store.node(1, &[]).unwrap();
    let pair = store.node(5, &[leaf, leaf]).unwrap();
    let both = store.node(5, &[pair, leaf]).unwrap();
    store.room(100).unwrap();
    let ones_to_twos = rule(con(1, []), con(2, []));
    let drop_first = rule(con(5, [var(x), con(2, [])]), var(x));
    let cases = [
        (bottom_up(attempt(ones_to_twos.clone())), "5(5(2, 2), 2)"),
        (top_down(attempt(ones_to_twos.clone())), "5(5(2, 2), 2)"),
        (
            seq(bottom_up(attempt(ones_to_twos)), repeat(drop_first)),
            "2",
        ),
    ];
    for (s, wanted) in cases {
        let table = Table::of(&s).unwrap();
        let mut bindings = Bindings::new();
        let end = run(&table, &mut store, &mut bindings, Entry::FIRST, both, 999);
        assert_eq!(end.answer, Answer::Done);
        assert_eq!(store.term(end.subject).unwrap().to_string(), wanted);
    }
}

#[test]
fn mistakes_are_values() {
    let table = |s: Strategy| Table::of(&s).unwrap_err();
    for position in [0, 7, u32::MAX] {
        assert_eq!(
            table(not(path(position, id()))),
            BuildError::NoSuchPosition(position)
        );
    }
    let seven = || (0..7).map(|_| id());
    assert_eq!(table(all(cong(1, seven()))), BuildError::TooManyOperands(7));
    let wide = con(1, VARS.into_iter().map(var));
    assert_eq!(table(match_(wide)), BuildError::TooManyOperands(64));
    assert_eq!(
        table(call("nobody")),
        BuildError::UnknownName("nobody".into())
    );
    let mut escaped = id();
    let _ = rec(|again| {
        escaped = again;
        id()
    });
    assert_eq!(table(escaped), BuildError::CallOutsideRec);
    let mut builder = TableBuilder::new();
    assert_eq!(builder.build(), Err(BuildError::NoStrategy));
    builder.add("a", id()).define("a", fail());
    assert_eq!(builder.build(), Err(BuildError::NameTwice("a".into())));
    for error in [BuildError::NoStrategy, BuildError::TooManyEntries(5_000)] {
        assert!(!error.to_string().is_empty());
    }
}

#[test]
fn a_strategy_can_be_too_large_but_not_too_deep_for_the_builder() {
    with_stack(|| {
        let deep = (0..4_095).fold(id(), |s, _| test(s));
        assert_eq!(Table::of(&deep).unwrap().entries(), 4_096);
        assert_eq!(
            Table::of(&test(deep)),
            Err(BuildError::TooManyEntries(4_097))
        );
        let huge = (0..100_000).fold(id(), |s, _| not(s));
        assert_eq!(Table::of(&huge), Err(BuildError::TooManyEntries(100_001)));
    })
    .unwrap();
}

/// A number below `limit`, from a state that is stepped by a linear rule.
fn below(state: &mut u64, limit: u64) -> u64 {
    *state = state
        .wrapping_mul(6_364_136_223_846_793_005)
        .wrapping_add(1_442_695_040_888_963_407);
    (*state >> 33) % limit
}

fn some_pattern(r: &mut u64, deep: u32) -> Pattern {
    if deep == 0 || below(r, 3) == 0 {
        return var(VARS[below(r, 32) as usize]);
    }
    let count = below(r, 7);
    let operands: Vec<_> = (0..count).map(|_| some_pattern(r, deep - 1)).collect();
    con(below(r, 65_536) as u16, operands)
}

fn some_strategy(r: &mut u64, deep: u32, calls: &[Strategy]) -> Strategy {
    let kind = if deep == 0 { below(r, 3) } else { below(r, 18) };
    let mask = below(r, 1 << 31) as u32;
    let mut s = |calls: &[Strategy]| some_strategy(r, deep - 1, calls);
    match kind {
        0 => id(),
        1 => fail(),
        2 if deep == 0 => calls.last().cloned().unwrap_or_else(|| call("named")),
        2 => test(s(calls)),
        3 => not(s(calls)),
        4 => seq(s(calls), s(calls)),
        5 => choice(s(calls), s(calls)),
        6 => left(s(calls), s(calls)),
        7 => rec(|again| s(&[calls, &[again]].concat())),
        8 => calls.first().cloned().unwrap_or_else(|| call("named")),
        9 => path(1 + mask % 6, s(calls)),
        10 => cong(9, (0..6).map(|_| s(calls)).collect::<Vec<_>>()),
        11 => all(s(calls)),
        12 => one(s(calls)),
        13 => some(s(calls)),
        14 => match_(some_pattern(r, 3)),
        15 => build(some_pattern(r, 3)),
        16 => scope(
            VarSet::from_mask(u64::from(mask) << (mask % 33)).iter(),
            s(calls),
        ),
        _ => where_(s(calls)),
    }
}

#[test]
fn what_is_laid_out_passes_the_check() {
    let mut r = 2026;
    for _ in 0..500 {
        let mut builder = TableBuilder::new();
        builder.define("named", some_strategy(&mut r, 3, &[]));
        let first = some_strategy(&mut r, 5, &[]);
        builder
            .add("first", first.clone())
            .add("second", all(first));
        match builder.build() {
            Ok(table) => {
                assert_eq!(table.check(), Ok(()));
                assert!(table.entry("first") > table.entry("second"));
            }
            Err(error) => assert!(matches!(error, BuildError::TooManyEntries(_)), "{error}"),
        }
    }
}

#[test]
fn stores_refuse_what_they_cannot_hold() {
    let mut store = Store::new();
    let leaf = store.node(1, &[]).unwrap();
    assert_eq!(
        store.node(1, &[leaf; 7]),
        Err(BuildError::TooManyChildren(7))
    );
    let later = Node::from_number(1);
    assert_eq!(
        store.node(1, &[leaf, later]),
        Err(BuildError::NoSuchChild(later))
    );
    assert_eq!(store.term(later), None);
    assert_eq!(store.room(131_072), Err(BuildError::TooManyNodes(131_073)));
    assert_eq!(
        store.room(usize::MAX),
        Err(BuildError::TooManyNodes(usize::MAX))
    );
    store.room(131_071).unwrap();
    assert_eq!((store.capacity(), store.free()), (131_072, 131_071));
    for _ in 1..131_072 {
        store.node(65_535, &[leaf; 6]).unwrap();
    }
    assert_eq!(store.node(0, &[]), Err(BuildError::TooManyNodes(131_073)));
    assert_eq!(store.check(), Ok(()));
    let odd = Store::from_words(vec![3; 12], 9);
    assert_eq!(odd.check(), Err(Answer::RefusedSizes));
    assert_eq!(odd.term(Node::from_number(8)), None);
}

#[test]
fn terms_are_compared_as_terms() {
    let mut store = Store::new();
    let mut make = |depth: usize| {
        let mut term = store.node(1, &[]).unwrap();
        for _ in 0..depth {
            term = store.node(2, &[term, term]).unwrap();
        }
        term
    };
    // Each has 2^40 leaves when it is written out.
    let (a, b, c) = (make(40), make(40), make(41));
    let term = |node| store.term(node).unwrap();
    assert_eq!(term(a), term(b));
    assert_ne!(term(a), term(c));
    assert_eq!(term(c).child(2), Some(term(a)).filter(|_| true));
    assert_eq!(term(c).child(3), None);
    assert_eq!(term(c).child(0), None);
    assert_eq!(term(a).nodes().len(), 41);
    let other = Store::from_words(store.words(), store.mark());
    assert_eq!(other.term(b), store.term(a));
    let mut deep = Store::new();
    let mut node = deep.node(1, &[]).unwrap();
    for _ in 0..50_000 {
        node = deep.node(2, &[node]).unwrap();
    }
    assert_eq!(deep.term(node).unwrap().to_string().len(), 3 * 50_000 + 1);
}

#[test]
fn variables_and_sets() {
    assert_eq!(Var::new(63), Some(VARS[63]));
    assert_eq!(Var::new(64), None);
    let both: VarSet = [VARS[32], VARS[63]].into_iter().collect();
    assert_eq!(both.mask(), 1 << 32 | 1 << 63);
    assert!(!both.contains(VARS[0]) && !both.contains(VARS[31]));
    let set: VarSet = [VARS[0], VARS[31]].into_iter().collect();
    assert_eq!(set.mask(), 0x8000_0001);
    assert_eq!(set.iter().collect::<Vec<_>>(), [VARS[0], VARS[31]]);
    assert!(set.contains(VARS[31]) && !set.contains(VARS[1]));
    assert_eq!(format!("{set:?}"), "{0, 31}");
    let mut bindings = Bindings::new();
    bindings.bind(VARS[31], Node::from_number(4));
    assert_eq!(bindings.words()[31], 5);
    assert_eq!(bindings.bound(), VarSet::from_mask(0x8000_0000));
    assert_eq!(Bindings::from_words(*bindings.words()), bindings);
}
