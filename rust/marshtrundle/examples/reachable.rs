//! A pruner that drops dead functions which call each other. It goes from the entry and from the table of handlers to all that they reach, and
//! keeps just that. examples/reachable.md is its page.
use marshtrundle::show::{Names, Show};
use marshtrundle::strategy::*;
use marshtrundle::{run, with_stack, Bindings, Entry, Store, Table, Var, VARS};

const MODULE: u16 = 1;
const CELL: u16 = 2;
const END: u16 = 3;
const FUN: u16 = 4;
const CALLS: u16 = 5;
const RETURN: u16 = 6;
const SLOT: u16 = 7;
const BOTH: u16 = 8;
const PAIR: u16 = 9;
const MAIN: u16 = 101;

/// The names of the constructors: those of the other pruner, and four more.
pub const NAMES: &str = concat!(
    include_str!("../../../examples/pruner.names"),
    "constructor 8 BOTH\nconstructor 9 PAIR\nconstructor 108 even\nconstructor 109 odd\n"
);

/// main calls parse, the table names on_tariff, which calls rate; even and odd call each other, and nothing else calls them.
pub const PROGRAM: &str = "MODULE(
    CELL(FUN(main, BOTH(CALLS(parse), RETURN)),
    CELL(FUN(even, CALLS(odd)),
    CELL(FUN(parse, CALLS(parse)),
    CELL(FUN(on_tariff, CALLS(rate)),
    CELL(FUN(odd, CALLS(even)),
    CELL(FUN(rate, RETURN), END)))))),
    CELL(SLOT(on_tariff, tariff), END))";

const FUNCTIONS: Var = VARS[0];
const HANDLERS: Var = VARS[1];
const KEPT: Var = VARS[2];
const LIVE: Var = VARS[3];
const WORK: Var = VARS[4];
const NAME: Var = VARS[5];
const BODY: Var = VARS[6];
const OTHER: Var = VARS[7];

fn cell(first: Pattern, rest: Pattern) -> Pattern {
    con(CELL, [first, rest])
}

/// Work still to do, and the names known to be live.
fn state(work: Pattern, live: Pattern) -> Pattern {
    con(PAIR, [work, live])
}

/// On a list of functions: the body of the function NAME.
fn find() -> Strategy {
    let here = rule_within(
        [NAME],
        cell(con(FUN, [var(NAME), var(BODY)]), var(OTHER)),
        var(BODY),
        [],
    );
    let rest = rule(cell(var(BODY), var(OTHER)), var(OTHER));
    rec(|again| left(here, seq(rest, again)))
}

/// NAME is somewhere in the term.
fn has_name() -> Strategy {
    once_td(match_(var(NAME)))
}

/// One step: the first piece of work is done. Fails where there is no work.
fn step() -> Strategy {
    let first = |work: Pattern| state(cell(work, var(WORK)), var(LIVE));
    let rest = || state(var(WORK), var(LIVE));
    let call = || con(CALLS, [var(NAME)]);
    left_of([
        rule(first(con(RETURN, [])), rest()),
        rule(
            first(con(BOTH, [var(BODY), var(OTHER)])),
            state(cell(var(BODY), cell(var(OTHER), var(WORK))), var(LIVE)),
        ),
        rule(
            first(con(SLOT, [var(NAME), var(OTHER)])),
            state(cell(call(), var(WORK)), var(LIVE)),
        ),
        rule_where(first(call()), rest(), [holds(var(LIVE), has_name())]),
        // A function of the module: it is live, and its body is work.
        rule_within(
            [FUNCTIONS],
            first(call()),
            state(cell(var(BODY), var(WORK)), cell(var(NAME), var(LIVE))),
            [gives(var(FUNCTIONS), find(), var(BODY))],
        ),
        // A function from elsewhere.
        rule(first(call()), state(var(WORK), cell(var(NAME), var(LIVE)))),
    ])
}

/// On the list of functions: those of LIVE.
fn keep() -> Strategy {
    let is_live = scope(
        [NAME, BODY, OTHER],
        seq(
            match_(cell(con(FUN, [var(NAME), var(BODY)]), var(OTHER))),
            test(seq(build(var(LIVE)), has_name())),
        ),
    );
    rec(|again| {
        left_of([
            cong(END, []),
            seq(is_live, path(2, again.clone())),
            seq(rule(cell(var(BODY), var(OTHER)), var(OTHER)), again),
        ])
    })
}

/// The pruner: on a module.
pub fn prune() -> Strategy {
    let begin = state(
        cell(con(CALLS, [con(MAIN, [])]), var(HANDLERS)),
        con(END, []),
    );
    rule_where(
        con(MODULE, [var(FUNCTIONS), var(HANDLERS)]),
        con(MODULE, [var(KEPT), var(HANDLERS)]),
        [
            gives(begin, repeat(step()), state(con(END, []), var(LIVE))),
            gives(var(FUNCTIONS), keep(), var(KEPT)),
        ],
    )
}

/// The pruned program as text.
pub fn pruned(program: &str) -> Result<String, Box<dyn std::error::Error + Send + Sync>> {
    let names = Names::read(NAMES)?;
    let mut store = Store::new();
    let subject = names.read_term(&mut store, program)?;
    store.most_room();
    let table = Table::of(&prune())?;
    let end = run(
        &table,
        &mut store,
        &mut Bindings::new(),
        Entry::FIRST,
        subject,
        u32::MAX,
    );
    let term = store.term(end.done()?).ok_or("no term")?;
    Ok(Show::new(&names).in_full().unshared().term(term))
}

#[allow(dead_code)] // the tests take the pruner alone
fn main() -> Result<(), Box<dyn std::error::Error + Send + Sync>> {
    println!("{}", with_stack(|| pruned(PROGRAM))??);
    Ok(())
}
