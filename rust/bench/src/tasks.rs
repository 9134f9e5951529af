//! The tasks: tables, stores and subjects, made here.
//!
//! Each task does its work several times in one run, inside TESTs, so that the
//! checks and the clearing are a small part of the time. A TEST gives the mark
//! back, so each time has the whole room.

#![forbid(unsafe_code)]

use crate::strategies::{
    all, build, call, choice, con, cong, id, left, matching, not, one, path, rec, repeated, rule,
    scope, seq, table, test, var, within, Tree,
};
use crate::terms::{Dice, Terms};

/// The most nodes of a store.
pub const ROOM: usize = 131_072;
/// The entry of a task's table from which its work is done once and its result
/// kept: the REC inside the first TEST.
pub const ONCE: u32 = 2;

/// One input of a run, with its name.
pub struct Task {
    /// The name.
    pub name: String,
    /// What it does, in a sentence.
    pub about: String,
    /// How often it does so in one run.
    pub times: usize,
    /// The table's words.
    pub table: Vec<u32>,
    /// The store's words.
    pub store: Vec<u32>,
    /// The mark.
    pub mark: u32,
    /// The subject; the start is entry 0.
    pub subject: u32,
    /// The units.
    pub units: u32,
    /// The answer that is expected.
    pub answer: u32,
}

impl Task {
    /// A task whose strategy is a body with the name t, done several times.
    fn new(name: &str, about: &str, times: usize, body: Tree, terms: Terms, subject: u32) -> Task {
        let mark = terms.mark() as u32;
        Task {
            name: name.to_string(),
            about: about.to_string(),
            times,
            table: table(&repeated(times, "t", body)),
            store: terms.store(ROOM),
            mark,
            subject,
            units: u32::MAX,
            answer: 0,
        }
    }
}

/// The eight tasks in the order of the report.
pub fn eight() -> Vec<Task> {
    vec![
        traversal(),
        bottom_up(),
        search(),
        comparisons(),
        pruner(),
        fibonacci(15, 48),
        simplifier(),
        full_size_pruner(),
    ]
}

/// ALL down to the leaves: the whole term is made anew.
fn copying() -> Tree {
    all(call("t"))
}

fn traversal() -> Task {
    let mut terms = Terms::new();
    let subject = terms.balanced(5, 43_691);
    let about = "rebuilds a tree of 87,381 nodes and so fills the room";
    Task::new("traversal", about, 24, copying(), terms, subject)
}

fn bottom_up() -> Task {
    let mut terms = Terms::new();
    let subject = terms.balanced(5, 32_768);
    let swap = rule(con(5, vec![var(0), var(1)]), con(5, vec![var(1), var(0)]));
    let body = seq(vec![all(call("t")), left(vec![swap, id()])]);
    let about = "swaps the children of every inner node, bottom up, in a tree of 65,535 nodes";
    Task::new("rule bottom up", about, 8, body, terms, subject)
}

fn search() -> Task {
    let mut terms = Terms::new();
    let subject = terms.balanced(5, 65_536);
    let search = rec("s", left(vec![matching(con(77, vec![])), one(call("s"))]));
    let about = "looks for a constant that is nowhere in a tree of 131,071 nodes";
    Task::new("failing search", about, 8, not(search), terms, subject)
}

/// A list of 2,000 elements, each a tree of 31 nodes.
fn long_list(terms: &mut Terms) -> u32 {
    let mut list = terms.node(8, &[]);
    for _ in 0..2_000 {
        let element = terms.balanced(5, 16);
        list = terms.node(9, &[element, list]);
    }
    list
}

fn comparisons() -> Task {
    // Leaves go round seven by node number, so both lists begin at a multiple
    // of seven to be equal.
    let mut terms = Terms::new();
    let first = long_list(&mut terms);
    while terms.mark() % 7 != 0 {
        terms.node(0, &[]);
    }
    let second = long_list(&mut terms);
    let subject = terms.node(6, &[first, second]);
    let body = matching(con(6, vec![var(0), var(0)]));
    let about = "matches 6(x, x) where x is a list of 64,001 nodes, 2,000 long, and both are equal";
    Task::new("deep comparisons", about, 48, body, terms, subject)
}

/// A function's body: calls of the identity, skips, pairs, constants.
fn body(terms: &mut Terms, dice: &mut Dice, depth: u32) -> u32 {
    if depth == 0 {
        let constant = dice.below(7);
        return terms.node(constant, &[]);
    }
    match dice.below(10) {
        0..=1 => {
            let identity = terms.node(20, &[]);
            let argument = body(terms, dice, depth - 1);
            terms.node(12, &[identity, argument])
        }
        2..=3 => {
            let skip = terms.node(14, &[]);
            let rest = body(terms, dice, depth - 1);
            terms.node(13, &[skip, rest])
        }
        _ => {
            let one = body(terms, dice, depth - 1);
            let other = body(terms, dice, depth - 1);
            terms.node(15, &[one, other])
        }
    }
}

fn pruner() -> Task {
    let mut terms = Terms::new();
    let mut dice = Dice::new(5);
    let mut parts = Vec::new();
    // One node more is made for each inner one; the margin is for the last
    // list and for the nodes that join the lists.
    while terms.mark() + terms.inner() < ROOM - 5_000 {
        let mut list = terms.node(8, &[]);
        for _ in 0..40 {
            let function = if dice.below(3) == 0 {
                let inside = body(&mut terms, &mut dice, 4);
                terms.node(11, &[inside])
            } else {
                let name = 100 + dice.below(50);
                let name = terms.node(name, &[]);
                let inside = body(&mut terms, &mut dice, 5);
                terms.node(10, &[name, inside])
            };
            list = terms.node(9, &[function, list]);
        }
        parts.push(list);
    }
    while parts.len() > 1 {
        parts = parts.chunks(6).map(|few| terms.node(16, few)).collect();
    }
    let rules = left(vec![
        // A dead function leaves its list.
        rule(con(9, vec![con(11, vec![var(0)]), var(1)]), var(1)),
        // A call of the identity is its argument.
        rule(con(12, vec![con(20, vec![]), var(0)]), var(0)),
        // A skip before a body goes.
        rule(con(13, vec![con(14, vec![]), var(0)]), var(0)),
        // Two equal halves are one.
        rule(con(15, vec![var(0), var(0)]), var(0)),
        id(),
    ]);
    let about = "drops functions marked as dead, calls of the identity, skips and equal halves \
                 from a module of 84,350 nodes, and ends with 126,965 in use";
    let body = seq(vec![all(call("t")), rules]);
    Task::new("pruner", about, 4, body, terms, parts[0])
}

/// Zero of the Peano numbers of document 003, section 5.3.
pub const ZERO: u32 = 30;
/// The successor s.
pub const NEXT: u32 = 31;
const PLUS: u32 = 32;
const FIB: u32 = 33;

fn zero() -> Tree {
    con(ZERO, vec![])
}

fn next(of: Tree) -> Tree {
    con(NEXT, vec![of])
}

fn plus(one: Tree, other: Tree) -> Tree {
    con(PLUS, vec![one, other])
}

fn fib(of: Tree) -> Tree {
    con(FIB, vec![of])
}

/// The Fibonacci number of a Peano number, so many times.
pub fn fibonacci(of: u32, times: usize) -> Task {
    let mut terms = Terms::new();
    let mut number = terms.node(ZERO, &[]);
    for _ in 0..of {
        number = terms.node(NEXT, &[number]);
    }
    let subject = terms.node(FIB, &[number]);
    // Both summands are in normal form, so that a sum's steps follow the s.
    let sum = rec(
        "sum",
        left(vec![
            rule(plus(var(0), zero()), var(0)),
            seq(vec![
                rule(plus(var(0), next(var(1))), next(plus(var(0), var(1)))),
                path(1, call("sum")),
            ]),
        ]),
    );
    let body = left(vec![
        rule(fib(zero()), zero()),
        rule(fib(next(zero())), next(zero())),
        seq(vec![
            rule(
                fib(next(next(var(0)))),
                plus(fib(var(0)), fib(next(var(0)))),
            ),
            path(1, call("t")),
            path(2, call("t")),
            sum,
        ]),
    ]);
    let about = "computes fib(15) = 610 by the five equations of document 003, section 5.3";
    Task::new("Fibonacci", about, times, body, terms, subject)
}

const TRUE: u32 = 40;
const FALSE: u32 = 41;
const AND: u32 = 42;
const OR: u32 = 43;
const NOT: u32 = 44;
const IF: u32 = 45;

/// A term of truth values: constants, variables of the source, four operators.
fn truth(terms: &mut Terms, dice: &mut Dice, depth: u32) -> u32 {
    if depth == 0 {
        let constant = match dice.below(4) {
            0 => TRUE,
            1 => FALSE,
            _ => 50 + dice.below(9),
        };
        return terms.node(constant, &[]);
    }
    match dice.below(7) {
        0..=1 => {
            let one = truth(terms, dice, depth - 1);
            let other = truth(terms, dice, depth - 1);
            terms.node(AND, &[one, other])
        }
        2..=3 => {
            let one = truth(terms, dice, depth - 1);
            let other = truth(terms, dice, depth - 1);
            terms.node(OR, &[one, other])
        }
        4 => {
            let one = truth(terms, dice, depth - 1);
            terms.node(NOT, &[one])
        }
        5 => {
            let one = truth(terms, dice, depth - 1);
            let other = truth(terms, dice, depth - 1);
            let third = truth(terms, dice, depth - 1);
            terms.node(IF, &[one, other, third])
        }
        _ => truth(terms, dice, depth - 1),
    }
}

fn simplifier() -> Task {
    let mut terms = Terms::new();
    let mut dice = Dice::new(11);
    let mut parts = Vec::new();
    while terms.mark() < 34_000 {
        let part = truth(&mut terms, &mut dice, 7);
        parts.push(part);
    }
    while parts.len() > 1 {
        parts = parts.chunks(6).map(|few| terms.node(16, few)).collect();
    }
    let yes = || con(TRUE, vec![]);
    let no = || con(FALSE, vec![]);
    let and = |one, other| con(AND, vec![one, other]);
    let or = |one, other| con(OR, vec![one, other]);
    let not = |one| con(NOT, vec![one]);
    let when = |one, other, third| con(IF, vec![one, other, third]);
    let rules = left(vec![
        rule(and(yes(), var(0)), var(0)),
        rule(and(var(0), yes()), var(0)),
        rule(and(no(), var(0)), no()),
        rule(and(var(0), no()), no()),
        rule(and(var(0), var(0)), var(0)),
        rule(or(no(), var(0)), var(0)),
        rule(or(var(0), no()), var(0)),
        rule(or(yes(), var(0)), yes()),
        rule(or(var(0), yes()), yes()),
        rule(or(var(0), var(0)), var(0)),
        rule(not(yes()), no()),
        rule(not(no()), yes()),
        rule(not(not(var(0))), var(0)),
        rule(not(and(var(0), var(1))), or(not(var(0)), not(var(1)))),
        rule(not(or(var(0), var(1))), and(not(var(0)), not(var(1)))),
        rule(when(yes(), var(0), var(1)), var(0)),
        rule(when(no(), var(0), var(1)), var(1)),
        rule(when(var(0), var(1), var(1)), var(1)),
    ]);
    let body = seq(vec![
        all(call("t")),
        left(vec![seq(vec![rules, call("t")]), id()]),
    ]);
    let about = "simplifies truth values by eighteen rules, innermost first, until none applies";
    Task::new("innermost simplifier", about, 2, body, terms, parts[0])
}

/// A module: its definitions, and calls of what is needed from outside.
pub const MODULE: u32 = 60;
/// Two trees of definitions in one.
pub const NODE: u32 = 61;
/// A definition: its name and its body.
pub const DEFINITION: u32 = 62;
/// A definition that is known to be needed.
const LIVE: u32 = 63;
/// What stands for a dropped definition until its NODE goes too.
const GONE: u32 = 64;
/// Two bodies in one.
pub const BOTH: u32 = 65;
/// A body that calls a name.
pub const CALLS: u32 = 66;
/// A body that calls nothing.
pub const RETURN: u32 = 67;
/// Bodies to look at, and a tree of definitions.
const PAIR: u32 = 68;

/// The name of a definition, by its number.
const OWN: u32 = 1_000;
/// The name of something that is not of the module.
const FOREIGN: u32 = 3_000;
/// How many definitions there are.
const DEFINITIONS: u32 = 1_200;
/// How many of them make a layer. What is needed calls itself and later layers, so
/// calls are followed sixteen deep at most, and the nesting stays below 4,096.
const LAYER: u32 = 75;
/// The leaves of a body.
const LEAVES: u32 = 13;

/// A name that a definition calls: its own, one of the three layers after its own,
/// or a foreign one. Every fifth definition is called by its like alone and calls any.
fn called(dice: &mut Dice, caller: u32) -> u32 {
    let later = (caller / LAYER + 1) * LAYER;
    match dice.below(12) {
        0 => FOREIGN + dice.below(50),
        1 => OWN + caller,
        _ if caller % 5 == 4 => OWN + dice.below(DEFINITIONS),
        _ if later == DEFINITIONS => FOREIGN + dice.below(50),
        _ => {
            let span = (3 * LAYER).min(DEFINITIONS - later);
            OWN + later + 5 * dice.below(span / 5) + dice.below(4)
        }
    }
}

/// A body of some leaves, each a call of a name that is given, or a return.
fn calling(
    terms: &mut Terms,
    dice: &mut Dice,
    leaves: u32,
    name: &dyn Fn(&mut Dice) -> u32,
) -> u32 {
    if leaves > 1 {
        let one = calling(terms, dice, leaves - leaves / 2, name);
        let other = calling(terms, dice, leaves / 2, name);
        return terms.node(BOTH, &[one, other]);
    }
    if dice.below(12) == 0 {
        return terms.node(RETURN, &[]);
    }
    let name = name(dice);
    let name = terms.node(name, &[]);
    terms.node(CALLS, &[name])
}

/// A balanced tree of the definitions of a span of numbers.
fn definitions(terms: &mut Terms, dice: &mut Dice, first: u32, count: u32) -> u32 {
    if count > 1 {
        let half = count - count / 2;
        let one = definitions(terms, dice, first, half);
        let other = definitions(terms, dice, first + half, count / 2);
        return terms.node(NODE, &[one, other]);
    }
    let name = terms.node(OWN + first, &[]);
    let body = calling(terms, dice, LEAVES, &|dice| called(dice, first));
    terms.node(DEFINITION, &[name, body])
}

/// A walk through a balanced tree to the first definition where a strategy succeeds.
fn at_first(name: &'static str, there: Tree) -> Tree {
    rec(
        name,
        choice(vec![
            there,
            cong(NODE, vec![call(name), id()]),
            cong(NODE, vec![id(), call(name)]),
        ]),
    )
}

/// On a module: what nothing reaches goes. Each name that is called by something
/// needed is looked up, once for each call; what it names becomes LIVE, and its body
/// is looked at in turn.
fn reachable() -> Tree {
    let (name, body, work, rest, before, after) = (0, 1, 2, 3, 4, 5);
    let definition = || con(DEFINITION, vec![var(name), var(body)]);
    let live = || con(LIVE, vec![var(name), var(body)]);
    let pair = |bodies: Tree, definitions: u32| con(PAIR, vec![bodies, var(definitions)]);
    // The name has a definition that is not yet live, and here is its body. Most
    // have none, and then every leaf of the tree is tried.
    let find = at_first("find", matching(definition()));
    let mark = at_first("mark", seq(vec![matching(definition()), build(live())]));
    // From a PAIR to its definitions, with those that its bodies reach LIVE.
    let reach = rec(
        "reach",
        left(vec![
            scope(
                &[work, rest, before, after],
                seq(vec![
                    matching(pair(con(BOTH, vec![var(work), var(rest)]), before)),
                    build(pair(var(work), before)),
                    call("reach"),
                    matching(var(after)),
                    build(pair(var(rest), after)),
                    call("reach"),
                ]),
            ),
            scope(
                &[name, body, before],
                seq(vec![
                    matching(pair(con(CALLS, vec![var(name)]), before)),
                    within(seq(vec![build(var(before)), find])),
                    build(pair(var(body), before)),
                    path(2, mark),
                    call("reach"),
                ]),
            ),
            // A return, or a call of what is live or foreign.
            rule(pair(var(work), before), var(before)),
        ]),
    );
    let gone = || con(GONE, vec![]);
    let drop = rec(
        "drop",
        left(vec![
            rule(live(), definition()),
            rule(definition(), gone()),
            seq(vec![
                all(call("drop")),
                left(vec![
                    rule(con(NODE, vec![gone(), var(rest)]), var(rest)),
                    rule(con(NODE, vec![var(rest), gone()]), var(rest)),
                    id(),
                ]),
            ]),
        ]),
    );
    scope(
        &[work, before, after],
        seq(vec![
            matching(con(MODULE, vec![var(before), var(work)])),
            build(pair(var(work), before)),
            reach,
            drop,
            matching(var(after)),
            build(con(MODULE, vec![var(after), var(work)])),
        ]),
    )
}

/// The pruner of full size.
pub fn full_size_pruner() -> Task {
    let mut terms = Terms::new();
    let mut dice = Dice::new(25);
    let all = definitions(&mut terms, &mut dice, 0, DEFINITIONS);
    let needed = calling(&mut terms, &mut dice, LEAVES, &|dice| {
        OWN + 5 * dice.below(LAYER / 5) + dice.below(4)
    });
    let subject = terms.node(MODULE, &[all, needed]);
    let about =
        "follows calls through a balanced tree of 1,200 definitions, looks each name up by \
                 a `find` that fails at most leaves, and drops the 330 definitions that nothing \
                 reaches";
    Task::new("full-size pruner", about, 1, reachable(), terms, subject)
}

// ---- how the time grows

/// One traversal in stores of growing size, each just large enough.
pub fn by_nodes() -> Vec<Task> {
    [1_366, 5_462, 21_846, 43_691]
        .iter()
        .map(|&leaves| {
            let mut terms = Terms::new();
            let subject = terms.balanced(5, leaves);
            let mark = terms.mark() as u32;
            let room = terms.mark() + terms.inner();
            Task {
                name: mark.to_string(),
                about: String::new(),
                times: 1,
                table: table(&rec("t", copying())),
                store: terms.store(room),
                mark,
                subject,
                units: u32::MAX,
                answer: 0,
            }
        })
        .collect()
}

/// A rule for each of many constructors, tried bottom up, in tables of growing
/// size. None applies.
pub fn by_entries() -> Vec<Task> {
    [16, 64, 256, 1_024, 4_096]
        .iter()
        .map(|&entries| {
            let mut terms = Terms::new();
            let subject = terms.balanced(5, 512);
            let mark = terms.mark() as u32;
            let room = terms.mark() + terms.inner();
            // Eight entries to a rule, five for the rest.
            let mut rules = Vec::new();
            for number in 0..(entries - 5) / 8 {
                rules.push(rule(con(1_000 + number, vec![var(0)]), var(0)));
            }
            rules.push(id());
            let mut words = table(&rec("t", seq(vec![all(call("t")), left(rules)])));
            // The rest of the table is filled with IDs that no entry names.
            words.resize(8 * entries as usize, 0);
            Task {
                name: entries.to_string(),
                about: String::new(),
                times: 1,
                table: words,
                store: terms.store(room),
                mark,
                subject,
                units: u32::MAX,
                answer: 0,
            }
        })
        .collect()
}

/// Traversals without end, cut off by growing units.
pub fn by_units() -> Vec<Task> {
    [10_000, 100_000, 1_000_000, 10_000_000, 50_000_000]
        .iter()
        .map(|&units| {
            let mut terms = Terms::new();
            let subject = terms.balanced(5, 43_691);
            let again = seq(vec![test(rec("t", copying())), call("again")]);
            let mark = terms.mark() as u32;
            Task {
                name: units.to_string(),
                about: String::new(),
                times: 1,
                table: table(&rec("again", again)),
                store: terms.store(ROOM),
                mark,
                subject,
                units,
                answer: 6,
            }
        })
        .collect()
}
