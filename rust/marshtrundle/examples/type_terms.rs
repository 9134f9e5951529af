//! Type terms built a thousand times, with and without an index: the room that they take, and the time.
//!
//! With the word `times` it prints the times too. A declaration 9(name) becomes 10(name, type), where the type is 11(12, 13(12)): a function from integers to lists of them.
use marshtrundle::strategy::*;
use marshtrundle::{
    run_many, run_many_indexed, with_stack, Answer, Bindings, BuildError, Entry, Node, Store,
    Table, VARS,
};
use std::time::{Duration, Instant};

/// A store of declarations, with room for five nodes more for each.
fn declarations(count: u32) -> Result<(Store, Vec<Node>), BuildError> {
    let mut store = Store::new();
    let mut declared = Vec::new();
    for name in 0..count {
        let name = store.node(1000 + name as u16, &[])?;
        declared.push(store.node(9, &[name])?);
    }
    store.room(5 * count as usize)?;
    Ok((store, declared))
}

/// The least time of several, and the nodes made.
fn made(mut work: impl FnMut(&mut Store, &[Node]) -> Result<(), Answer>) -> (u32, Duration) {
    let mut best = (0, Duration::MAX);
    for _ in 0..20 {
        let (mut store, declared) = declarations(1000).expect("a store of 2,000 nodes");
        let mark = store.mark();
        let start = Instant::now();
        work(&mut store, &declared).expect("it is not refused");
        best = (store.mark() - mark, best.1.min(start.elapsed()));
    }
    best
}

fn main() {
    let [name, ..] = VARS;
    let integer = || con(12, []);
    let typed = con(11, [integer(), con(13, [integer()])]);
    let table =
        Table::of(&rule(con(9, [var(name)]), con(10, [var(name), typed]))).expect("a table");
    let plain = made(|store, declared| {
        run_many(&table, store, &Bindings::new(), Entry::FIRST, declared, 100).map(drop)
    });
    let indexed = with_stack(|| {
        made(|store, declared| {
            run_many_indexed(
                &table,
                store,
                &Bindings::new(),
                None,
                Entry::FIRST,
                declared,
                100,
            )
            .map(drop)
        })
    })
    .expect("a thread");
    println!("without an index: {} nodes made", plain.0);
    println!("with an index: {} nodes made", indexed.0);
    if std::env::args().nth(1).as_deref() == Some("times") {
        println!("{:?} without, {:?} with", plain.1, indexed.1);
    }
}
