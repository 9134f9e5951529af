//! A long pass with a progress bar. It is set aside after some steps, another run is made meanwhile, and it is taken up again.
use marshtrundle::strategy::*;
use marshtrundle::{
    run, Bindings, BuildError, Entry, Node, Step, Stepper, Store, Strategy, Table, WorkList,
};

const PAIR: u16 = 500;
/// The most visits of the whole pass, and the visits of a step.
const UNITS: u32 = 2_000_000;
const STEP: u32 = 200_000;

/// A balanced tree: 1 at the leaves, pairs above them.
fn tree(store: &mut Store, depth: u32) -> Result<Node, BuildError> {
    if depth == 0 {
        return store.node(1, &[]);
    }
    let (left, right) = (tree(store, depth - 1)?, tree(store, depth - 1)?);
    store.node(PAIR, &[left, right])
}

/// Twelve passes over the whole term: each makes every leaf k a leaf k + 1.
fn passes() -> Strategy {
    let pass = |k| bottom_up(attempt(rule(con(k, []), con(k + 1, []))));
    (2..13).map(pass).fold(pass(1), seq)
}

/// The bar: a sign for each fortieth of the units, and the visits made.
fn draw(used: u32) {
    let full = (u64::from(used) * 40 / u64::from(UNITS)) as usize;
    println!(
        "[{}{}] {used} of {UNITS}",
        "#".repeat(full),
        ".".repeat(40 - full)
    );
}

fn main() -> Result<(), Box<dyn std::error::Error>> {
    let mut store = Store::new();
    let term = tree(&mut store, 12)?;
    store.room(100_000)?;
    let table = Table::of(&passes())?;
    let (mut bindings, mut work) = (Bindings::new(), WorkList::new());

    let mut pass = Stepper::start(
        &table,
        &mut store,
        &mut bindings,
        &mut work,
        Entry::FIRST,
        term,
        UNITS,
    )?;
    let mut steps = 0;
    let end = loop {
        match pass.step(STEP) {
            Step::Unfinished(rest) => pass = rest,
            Step::Ended(end) => break end,
        }
        draw(pass.units_used());
        steps += 1;
        if steps == 3 {
            // The window is alive: the user asks for something else, on another store.
            println!("set aside: {}", something_else()?);
        }
    };
    println!(
        "{}: {} visits in {} steps",
        end.answer,
        end.units,
        steps + 1
    );
    let pair = store.term(end.done()?).ok_or("no term")?;
    let mut leaf = pair;
    let mut depth = 0;
    while let Some(child) = leaf.child(1) {
        leaf = child;
        depth += 1;
    }
    println!("a leaf at depth {depth}: {leaf}");
    Ok(())
}

/// A short run of its own.
fn something_else() -> Result<String, Box<dyn std::error::Error>> {
    let mut store = Store::new();
    let one = store.node(1, &[])?;
    store.room(10)?;
    let table = Table::of(&rule(con(1, []), con(PAIR, [con(2, []), con(3, [])])))?;
    let end = run(
        &table,
        &mut store,
        &mut Bindings::new(),
        Entry::FIRST,
        one,
        100,
    );
    Ok(store.term(end.done()?).ok_or("no term")?.to_string())
}
