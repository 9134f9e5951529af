//! The collection: what stays and what goes, the refusals, and passes that would not fit without it.
use marshtrundle::strategy::*;
use marshtrundle::{run, words, Answer, Bindings, Entry, Node, Store, Table, NODES, VARS};

/// A generator of numbers that needs nothing: xorshift.
struct Random(u64);

impl Random {
    fn below(&mut self, limit: u32) -> u32 {
        self.0 ^= self.0 << 13;
        self.0 ^= self.0 >> 7;
        self.0 ^= self.0 << 17;
        (self.0 % u64::from(limit.max(1))) as u32
    }
}

/// A store of random nodes, with some room behind them.
fn random_store(r: &mut Random, nodes: u32) -> Store {
    let mut store = Store::new();
    for k in 0..nodes {
        let count = if k == 0 { 0 } else { r.below(4) };
        let children: Vec<Node> = (0..count).map(|_| Node::from_number(r.below(k))).collect();
        store.node(r.below(5) as u16, &children).unwrap();
    }
    store.room(r.below(9) as usize).unwrap();
    store
}

/// The nodes of the terms at these roots, rising.
fn reachable(store: &Store, roots: &[Node]) -> Vec<Node> {
    let mut found: Vec<Node> = roots
        .iter()
        .flat_map(|&root| store.term(root).unwrap().nodes())
        .collect();
    found.sort();
    found.dedup();
    found
}

#[test]
fn just_what_is_reachable_stays_in_its_order() {
    let mut r = Random(0x9e37_79b9);
    for _ in 0..2_000 {
        let nodes = 1 + r.below(40);
        let before = random_store(&mut r, nodes);
        let mut bindings = Bindings::new();
        for _ in 0..r.below(4) {
            bindings.bind(
                VARS[r.below(32) as usize],
                Node::from_number(r.below(nodes)),
            );
        }
        let subject = Node::from_number(r.below(nodes));
        let mut roots: Vec<Node> = bindings.iter().map(|(_, node)| node).collect();
        roots.push(subject);
        let kept = reachable(&before, &roots);

        let mut store = before.clone();
        let old = bindings.clone();
        let new = store.collect(&mut bindings, subject).unwrap();
        assert_eq!(store.mark() as usize, kept.len());
        assert_eq!(store.capacity(), before.capacity());
        assert!(store.words()[8 * kept.len()..]
            .iter()
            .all(|&word| word == 0));
        for (number, &node) in kept.iter().enumerate() {
            assert_eq!(
                store.term(Node::from_number(number as u32)).unwrap(),
                before.term(node).unwrap()
            );
        }
        let number = |node: Node| kept.binary_search(&node).unwrap() as u32;
        assert_eq!(new.number(), number(subject));
        assert_eq!(bindings.bound(), old.bound());
        for (var, node) in old.iter() {
            assert_eq!(bindings.get(var).unwrap().number(), number(node));
        }
        store.check().unwrap();
        // What is collected is all reachable: a second collection changes nothing.
        let mut again = store.clone();
        assert_eq!(again.collect(&mut bindings, new), Ok(new));
        assert_eq!(again, store);
    }
}

/// Nodes 1, 2, 4(1) and 5(2, 1) in a store of five; the room holds rubbish, and so does the work list.
struct Lent {
    store: Vec<u32>,
    bindings: Vec<u32>,
    work: Vec<u32>,
    mark: u32,
    subject: u32,
}

fn lent() -> Lent {
    let mut store = vec![1, 0, 0, 0, 0, 0, 0, 0, 2, 0, 0, 0, 0, 0, 0, 0];
    store.extend([4, 1, 0, 0, 0, 0, 0, 0, 5, 2, 1, 0, 0, 0, 0, 0]);
    store.extend([77; 8]);
    let mut bindings = vec![0; 64];
    bindings[31] = 1;
    Lent {
        store,
        bindings,
        work: vec![99; 6],
        mark: 4,
        subject: 3,
    }
}

impl Lent {
    /// Collects, and holds the answer to what it must be. A refusal writes nothing.
    fn gives(mut self, answer: u32, place: u32) {
        let before = (self.store.clone(), self.bindings.clone(), self.work.clone());
        let numbers = words::collect(
            &mut self.store,
            &mut self.bindings,
            &mut self.work,
            self.mark,
            self.subject,
        );
        assert_eq!(numbers[..2], [answer, place]);
        if answer == 0 {
            assert!(self.work.iter().all(|&word| word == 0));
        } else {
            assert_eq!(numbers[2..], [self.subject, self.mark]);
            assert_eq!((self.store, self.bindings, self.work), before);
        }
    }
}

#[test]
fn each_word_of_a_small_collection() {
    let mut l = lent();
    let numbers = words::collect(
        &mut l.store,
        &mut l.bindings,
        &mut l.work,
        l.mark,
        l.subject,
    );
    assert_eq!(numbers, [0, 0, 2, 3]);
    let mut store = vec![
        1, 0, 0, 0, 0, 0, 0, 0, 2, 0, 0, 0, 0, 0, 0, 0, 5, 2, 1, 0, 0, 0, 0, 0,
    ];
    store.extend([0; 16]);
    assert_eq!(l.store, store);
    assert_eq!(l.bindings[31], 1);
    assert_eq!(l.work, [0; 6]);
}

#[test]
fn refusals_in_their_order() {
    lent().gives(0, 0);
    Lent {
        work: vec![99; 5],
        ..lent()
    }
    .gives(0, 0);
    Lent {
        work: vec![99; 4],
        ..lent()
    }
    .gives(2, 0);
    Lent {
        bindings: vec![0; 31],
        ..lent()
    }
    .gives(2, 0);
    Lent {
        bindings: vec![0; 33],
        ..lent()
    }
    .gives(2, 0);
    Lent { mark: 6, ..lent() }.gives(2, 0);
    Lent { mark: 5, ..lent() }.gives(4, 4);
    Lent {
        subject: 4,
        ..lent()
    }
    .gives(5, 0);
    Lent {
        mark: 0,
        subject: 0,
        bindings: vec![0; 64],
        ..lent()
    }
    .gives(5, 0);
    let mut odd = lent();
    odd.store.pop();
    odd.gives(2, 0);
    let mut bad = lent();
    bad.store[9] = 1;
    bad.store[10] = 1;
    bad.subject = 9;
    bad.gives(4, 1);
    let mut bound = lent();
    bound.bindings[0] = 5;
    bound.gives(5, 0);
    let mut short = lent();
    short.store[9] = 7;
    short.work.clear();
    short.gives(2, 0);
    let long = Lent {
        store: vec![0; 8 * NODES + 8],
        work: vec![0; NODES + 1],
        ..lent()
    };
    long.gives(2, 0);
    let full = Lent {
        store: vec![0; 8 * NODES],
        work: vec![7; NODES],
        mark: NODES as u32,
        ..lent()
    };
    full.gives(0, 0);
}

/// Swaps the children of a pair, and makes both anew.
fn swap() -> Strategy {
    let [x, y, ..] = VARS;
    scope(
        [x, y],
        rule(con(5, [var(x), var(y)]), con(5, [var(y), var(x)])),
    )
}

#[test]
fn a_run_is_the_same_after_it() {
    let table = Table::of(&swap()).unwrap();
    let mut store = Store::new();
    let one = store.node(1, &[]).unwrap();
    store.node(9, &[one]).unwrap();
    let two = store.node(2, &[]).unwrap();
    let pair = store.node(5, &[one, two]).unwrap();
    store.room(1).unwrap();
    let mut bindings = Bindings::new();
    for subject in [pair, two] {
        let mut before = store.clone();
        let first = run(
            &table,
            &mut before,
            &mut bindings.clone(),
            Entry::FIRST,
            subject,
            100,
        );
        let mut after = store.clone();
        let moved = after.collect(&mut bindings, subject).unwrap();
        let second = run(
            &table,
            &mut after,
            &mut bindings.clone(),
            Entry::FIRST,
            moved,
            100,
        );
        assert_eq!((first.answer, first.units), (second.answer, second.units));
        assert_eq!(
            before.term(first.subject).unwrap(),
            after.term(second.subject).unwrap()
        );
    }
}

#[test]
fn passes_go_on_where_the_store_would_be_full() {
    let table = Table::of(&swap()).unwrap();
    let mut store = Store::new();
    let one = store.node(1, &[]).unwrap();
    let two = store.node(2, &[]).unwrap();
    let mut subject = store.node(5, &[one, two]).unwrap();
    store.room(3).unwrap();
    let mut bindings = Bindings::new();
    for pass in 0..40 {
        let end = run(
            &table,
            &mut store,
            &mut bindings,
            Entry::FIRST,
            subject,
            100,
        );
        assert_eq!(end.answer, Answer::Done, "pass {pass}");
        subject = store.collect(&mut bindings, end.subject).unwrap();
        assert_eq!((subject.number(), store.mark()), (2, 3));
    }
}
