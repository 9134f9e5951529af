//! The pruner over a module of 1,200 functions, in batches of 200, with a line of progress after each.
//!
//! A function is alive if a call or a slot of the handlers' table names it. Every fifth is named by nothing, and function 700 by a
//! slot alone. The pass fails on a function that is dead. On one that is alive it drops the steps that do nothing. Function 901 has
//! so many steps, one below the other, that the pass is cut off by the nesting; it is kept as it was.
use marshtrundle::strategy::*;
use marshtrundle::{
    run_many, with_stack, Answer, Bindings, BuildError, Entry, Node, Store, Table, VARS,
};

const FUNCTIONS: u16 = 1_200;
const BATCH: usize = 200;
const UNITS: u32 = 100_000;

/// FUNCTION(name, body).
const FUNCTION: u16 = 1;
/// STEP(what is done, the steps that follow).
const STEP: u16 = 2;
const NOTHING: u16 = 3;
const WORK: u16 = 4;
const RETURN: u16 = 5;
/// BOTH(names, names): the names as a tree.
const BOTH: u16 = 6;
const SLOT: u16 = 7;
/// The name of function k is the constant FIRST_NAME + k.
const FIRST_NAME: u16 = 1_000;

/// The function that only a slot names, and the one with very many steps.
const HANDLER: u16 = 700;
const LONG: u16 = 901;

/// On a function. `names` is bound by the caller: all names that a call or a slot has.
fn prune() -> Strategy {
    let [names, name, body, rest, ..] = VARS;
    let named = rec(|look_on| left(match_(var(name)), one(look_on)));
    let is_alive = scope(
        [name, body],
        seq(
            match_(con(FUNCTION, [var(name), var(body)])),
            test(seq(build(var(names)), named)),
        ),
    );
    let idle = rule(con(STEP, [con(NOTHING, []), var(rest)]), var(rest));
    seq(is_alive, path(2, bottom_up(attempt(idle))))
}

/// The functions, and the tree of all names that something has.
fn module(store: &mut Store) -> Result<(Vec<Node>, Node), BuildError> {
    let nothing = store.node(NOTHING, &[])?;
    let work = store.node(WORK, &[])?;
    let mut functions = vec![];
    let mut names = vec![];
    for function in 0..FUNCTIONS {
        let name = store.node(FIRST_NAME + function, &[])?;
        let steps = if function == LONG {
            2_000
        } else {
            3 + function % 5
        };
        let mut body = store.node(RETURN, &[])?;
        for step in 0..steps {
            let done = if step % 2 == 0 { nothing } else { work };
            body = store.node(STEP, &[done, body])?;
        }
        functions.push(store.node(FUNCTION, &[name, body])?);
        if function == HANDLER {
            // The table of handlers has a node of its own for the name.
            let name = store.node(FIRST_NAME + function, &[])?;
            names.push(store.node(SLOT, &[name])?);
        } else if function % 5 != 0 {
            names.push(name);
        }
    }
    while names.len() > 1 {
        let pairs = names.chunks(2).map(|pair| store.node(BOTH, pair));
        names = pairs.collect::<Result<_, _>>()?;
    }
    Ok((functions, names[0]))
}

fn main() -> Result<(), Box<dyn std::error::Error + Send + Sync>> {
    with_stack(|| {
        let mut store = Store::new();
        let (functions, names) = module(&mut store)?;
        store.most_room();
        let table = Table::of(&prune())?;
        let mut bindings = Bindings::new();
        bindings.bind(VARS[0], names);
        let mut kept = vec![];
        let mut so_far = 0;
        for batch in functions.chunks(BATCH) {
            let (mut pruned, mut dead, mut cut_off) = (0, 0, 0);
            let outcomes = run_many(&table, &mut store, &bindings, Entry::FIRST, batch, UNITS)?;
            for (&function, outcome) in batch.iter().zip(outcomes) {
                match outcome.answer {
                    Answer::Done => {
                        pruned += 1;
                        kept.push(outcome.subject);
                    }
                    Answer::Failed(_) => dead += 1,
                    _ => {
                        cut_off += 1;
                        kept.push(function);
                    }
                }
            }
            so_far += batch.len();
            println!(
                "{so_far} of {}: {pruned} pruned, {dead} dropped, {cut_off} cut off; {} nodes in use",
                functions.len(),
                store.mark()
            );
        }
        let handler = kept.iter().find(|&&function| {
            let name = store.term(function).and_then(|function| function.child(1));
            name.map(|name| name.constructor()) == Some((FIRST_NAME + HANDLER).into())
        });
        println!("{} of {} functions are kept", kept.len(), functions.len());
        if let Some(handler) = handler.and_then(|&function| store.term(function)) {
            println!("the handler: {handler}");
        }
        Ok(())
    })?
}
