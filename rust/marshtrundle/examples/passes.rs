//! Forty passes over a term of 5,000 nodes, in a store of 131,072, without and with a collection between passes.
//!
//! Each pass makes every node of the term anew: each leaf 1 becomes 2 and the other way round, from the leaves up. So 26 times
//! the term fits the store, the one that is given among them. Without a collection the twenty-sixth pass ends in 7. With one
//! after each pass all forty are done.
use marshtrundle::strategy::*;
use marshtrundle::{
    run, with_stack, Answer, Bindings, BuildError, Entry, Node, Store, Table, NODES,
};

const PASSES: u32 = 40;
const LEAF: u16 = 1;
const OTHER: u16 = 2;
const PAIR: u16 = 3;
const MODULE: u16 = 4;

/// From the leaves up: at a leaf the other leaf, anywhere else what the children have become.
fn pass() -> Strategy {
    rec(|again| {
        seq(
            all(again),
            left(
                rule(con(LEAF, []), con(OTHER, [])),
                left(rule(con(OTHER, []), con(LEAF, [])), id()),
            ),
        )
    })
}

/// A term of 5,000 nodes: 2,500 leaves, 2,499 pairs over them, and the module.
fn module(store: &mut Store) -> Result<Node, BuildError> {
    let mut level = Vec::new();
    for _ in 0..2_500 {
        level.push(store.node(LEAF, &[])?);
    }
    while level.len() > 1 {
        let mut next = Vec::new();
        for pair in level.chunks(2) {
            next.push(match pair {
                [one, other] => store.node(PAIR, &[*one, *other])?,
                _ => pair[0],
            });
        }
        level = next;
    }
    store.node(MODULE, &[level[0]])
}

/// The passes that are done, how the last one ended, and the highest mark that was left.
fn passes(collecting: bool) -> Result<(u32, Answer, u32), Box<dyn std::error::Error>> {
    let table = Table::of(&pass())?;
    let mut store = Store::new();
    let mut bindings = Bindings::new();
    let mut subject = module(&mut store)?;
    store.room(NODES - store.mark() as usize)?;
    let mut highest = store.mark();
    for done in 0..PASSES {
        let end = run(
            &table,
            &mut store,
            &mut bindings,
            Entry::FIRST,
            subject,
            u32::MAX,
        );
        if end.answer != Answer::Done {
            return Ok((done, end.answer, highest));
        }
        subject = end.subject;
        highest = highest.max(store.mark());
        if collecting {
            subject = store.collect(&mut bindings, subject)?;
        }
    }
    Ok((PASSES, Answer::Done, highest))
}

fn main() -> Result<(), Box<dyn std::error::Error>> {
    for collecting in [false, true] {
        let (done, answer, highest) =
            with_stack(|| passes(collecting).map_err(|error| error.to_string()))??;
        println!(
            "{} a collection: {done} passes done, then answer {}; the highest mark {highest}",
            if collecting { "with" } else { "without" },
            answer.number(),
        );
    }
    Ok(())
}
