//! The optimiser of Visser, Benaissa and Tolmach, "Building Program Optimizers with Rewriting Strategies", Table 7, as rules of this crate:
//! Hoist, Dead, Prop, Select and Inline for a small functional language, put together as the paper's opt1. examples/optimiser.md is its page,
//! and says where this is other than the paper.
use marshtrundle::show::{Names, Show};
use marshtrundle::strategy::*;
use marshtrundle::{run, with_stack, Bindings, Entry, Store, Table, Var, VARS};

const NIL: u16 = 1;
const CONS: u16 = 2;
const PAIR: u16 = 3;
const ONE: u16 = 4;
const SUCC: u16 = 5;
const VDEC: u16 = 10;
const FDEC: u16 = 11;
const VAR: u16 = 13;
const SIMPLE: u16 = 14;
const RECORD: u16 = 15;
const SELECT: u16 = 16;
const PAPP: u16 = 17;
const APP: u16 = 18;
pub const LET: u16 = 19;
pub const LETREC: u16 = 20;
const ASSIGN: u16 = 30;

/// The names of the constructors: the language's, then those of one program.
pub const NAMES: &str = include_str!("../../../examples/optimiser.names");

/// A program that folds up to one sum.
pub const PROGRAM: &str = include_str!("../../../examples/optimiser.term");

const T: Var = VARS[0];
const X: Var = VARS[1];
const E1: Var = VARS[2];
const E2: Var = VARS[3];
const E3: Var = VARS[4];
const D: Var = VARS[5];
const S: Var = VARS[6];
const F: Var = VARS[7];
const XS: Var = VARS[8];
const SS: Var = VARS[9];
const I: Var = VARS[10];
const TABLE: Var = VARS[11];
const Y: Var = VARS[12];
const YS: Var = VARS[13];

/// Let(Vdec(t, x, value), body)
fn let_x(value: Pattern, body: Pattern) -> Pattern {
    con(LET, [con(VDEC, [var(T), var(X), value]), body])
}

/// Hoist1: a declaration inside a declaration goes out of it.
pub fn hoist1() -> Strategy {
    rule(
        let_x(con(LET, [var(D), var(E1)]), var(E2)),
        con(LET, [var(D), let_x(var(E1), var(E2))]),
    )
}

/// Hoist2: the same for functions.
pub fn hoist2() -> Strategy {
    rule(
        let_x(con(LETREC, [var(D), var(E1)]), var(E2)),
        con(LETREC, [var(D), let_x(var(E1), var(E2))]),
    )
}

/// Var of what the variable is bound to is somewhere in the term.
fn occurs(name: Var) -> Strategy {
    once_td(match_(con(VAR, [var(name)])))
}

/// Nothing is called and nothing is assigned.
fn safe() -> Strategy {
    let assigns = scope([Y], match_(con(PAPP, [con(ASSIGN, []), var(Y)])));
    not(once_td(left(cong(APP, [id(), id()]), assigns)))
}

/// Dead1: a value that nothing uses goes, where it is safe.
pub fn dead1() -> Strategy {
    rule_where(
        let_x(var(E1), var(E2)),
        var(E2),
        [fails(var(E2), occurs(X)), holds(var(E1), safe())],
    )
}

/// Dead2: functions of which the body uses none go.
pub fn dead2() -> Strategy {
    let is_unused = scope(
        [T, F, XS, E2],
        seq(
            match_(con(FDEC, [var(T), var(F), var(XS), var(E2)])),
            not(seq(build(var(E1)), occurs(F))),
        ),
    );
    rule_where(
        con(LETREC, [var(D), var(E1)]),
        var(E1),
        [holds(var(D), map(CONS, NIL, is_unused))],
    )
}

/// Prop: a name for a simple expression is replaced by it, wherever it is used.
pub fn prop() -> Strategy {
    let replace = rule_within([X, S], con(VAR, [var(X)]), var(S), []);
    rule_where(
        let_x(con(SIMPLE, [var(S)]), var(E2)),
        let_x(con(SIMPLE, [var(S)]), var(E3)),
        [gives(var(E2), some_td(replace), var(E3))],
    )
}

/// On Pair(i, list): the element at i.
fn index() -> Strategy {
    let first = rule(
        con(PAIR, [con(ONE, []), con(CONS, [var(Y), var(YS)])]),
        var(Y),
    );
    let next = rule(
        con(PAIR, [con(SUCC, [var(I)]), con(CONS, [var(Y), var(YS)])]),
        con(PAIR, [var(I), var(YS)]),
    );
    seq(repeat(next), first)
}

/// Select: a selection from a record that is known is replaced by the element.
pub fn select() -> Strategy {
    let replace = rule_within(
        [X, SS],
        con(SELECT, [var(I), con(VAR, [var(X)])]),
        con(SIMPLE, [var(Y)]),
        [gives(con(PAIR, [var(I), var(SS)]), index(), var(Y))],
    );
    rule_where(
        let_x(con(RECORD, [var(SS)]), var(E2)),
        let_x(con(RECORD, [var(SS)]), var(E3)),
        [gives(var(E2), some_td(replace), var(E3))],
    )
}

/// On Pair(list, list) of one length: the list of pairs.
fn zip() -> Strategy {
    let ends = rule(con(PAIR, [con(NIL, []), con(NIL, [])]), con(NIL, []));
    let cells = rule(
        con(
            PAIR,
            [con(CONS, [var(X), var(XS)]), con(CONS, [var(Y), var(YS)])],
        ),
        con(
            CONS,
            [con(PAIR, [var(X), var(Y)]), con(PAIR, [var(XS), var(YS)])],
        ),
    );
    rec(|again| left(ends, seq(cells, cong(CONS, [id(), again]))))
}

/// Each Var that TABLE has in a pair becomes the other part of the pair.
fn substitute() -> Strategy {
    let here = rule_within(
        [Y],
        con(CONS, [con(PAIR, [var(Y), var(S)]), var(YS)]),
        var(S),
        [],
    );
    let rest = rule(con(CONS, [var(S), var(YS)]), var(YS));
    let fetch = rec(|again| left(here, seq(rest, again)));
    all_td(rule_within(
        [TABLE],
        con(VAR, [var(Y)]),
        var(S),
        [gives(var(TABLE), fetch, var(S))],
    ))
}

/// A call of the one function of a Letrec becomes its body, with the arguments for the parameters; where the traversal says.
fn inline(traversal: fn(Strategy) -> Strategy, conditions: Vec<Condition>) -> Strategy {
    let replace = rule_within(
        [F, XS, E1],
        con(APP, [con(VAR, [var(F)]), var(SS)]),
        var(D),
        [
            gives(con(PAIR, [var(XS), var(SS)]), zip(), var(TABLE)),
            gives(var(E1), substitute(), var(D)),
        ],
    );
    let function = con(FDEC, [var(T), var(F), var(XS), var(E1)]);
    let functions = con(CONS, [function, con(NIL, [])]);
    let replaced = gives(var(E2), traversal(replace), var(E3));
    rule_where(
        con(LETREC, [functions.clone(), var(E2)]),
        con(LETREC, [functions, var(E3)]),
        conditions.into_iter().chain([replaced]),
    )
}

/// Inl1: a function whose body declares nothing is inlined everywhere.
pub fn inline1() -> Strategy {
    let small = left_of([
        cong(SIMPLE, [id()]),
        cong(RECORD, [id()]),
        cong(SELECT, [id(), id()]),
        cong(PAPP, [id(), id()]),
        cong(APP, [id(), id()]),
    ]);
    inline(some_td, vec![holds(var(E1), small)])
}

/// Inl2: any function is inlined once.
pub fn inline2() -> Strategy {
    inline(once_td, vec![])
}

/// `s` on as many subterms as possible, on the way down and on the way up. Fails where `s` fails everywhere.
fn many_down_up(s: Strategy) -> Strategy {
    rec(|again| {
        left(
            seq_of([s.clone(), all(attempt(again.clone())), attempt(s.clone())]),
            seq(some(again), attempt(s)),
        )
    })
}

/// The rules, each made once: a table that has a rule in several places then has its entries once.
pub struct Rules {
    /// Hoist1 and Hoist2.
    pub hoist: [Strategy; 2],
    /// Dead1 and Dead2.
    pub dead: [Strategy; 2],
    /// Inl1 and Inl2.
    pub inline: [Strategy; 2],
    /// Select.
    pub select: Strategy,
    /// Prop.
    pub prop: Strategy,
}

/// All rules.
pub fn rules() -> Rules {
    Rules {
        hoist: [hoist1(), hoist2()],
        dead: [dead1(), dead2()],
        inline: [inline1(), inline2()],
        select: select(),
        prop: prop(),
    }
}

/// The paper's optimize1, without EtaExp.
pub fn optimise() -> Strategy {
    optimise_by(&rules(), |s| s)
}

/// The same by these rules. What is tried on a subterm, the rules for hoisting and the rules of a step, goes through `tried` first.
pub fn optimise_by(rules: &Rules, tried: impl Fn(Strategy) -> Strategy) -> Strategy {
    let [inline1, inline2] = rules.inline.clone();
    let dead = left_of(rules.dead.clone());
    let inline_once = seq(inline2, rules.dead[1].clone());
    let shrink = left_of([
        inline1,
        inline_once,
        rules.select.clone(),
        rules.prop.clone(),
    ]);
    let step = left(
        seq(shrink, repeat(dead.clone())),
        seq(dead.clone(), repeat(dead)),
    );
    let hoist = left_of(rules.hoist.clone());
    repeat(seq(innermost(tried(hoist)), many_down_up(tried(step))))
}

/// What a strategy makes of a term of the language, both as text; nothing where it fails.
pub fn rewritten(
    s: &Strategy,
    text: &str,
) -> Result<Option<String>, Box<dyn std::error::Error + Send + Sync>> {
    let names = Names::read(NAMES)?;
    let mut store = Store::new();
    let subject = names.read_term(&mut store, text)?;
    store.most_room();
    let end = run(
        &Table::of(s)?,
        &mut store,
        &mut Bindings::new(),
        Entry::FIRST,
        subject,
        u32::MAX,
    );
    let new = end.found()?.and_then(|node| store.term(node));
    Ok(new.map(|term| Show::new(&names).in_full().unshared().term(term)))
}

#[allow(dead_code)] // the tests take the rules alone
fn main() -> Result<(), Box<dyn std::error::Error + Send + Sync>> {
    let after = with_stack(|| rewritten(&optimise(), PROGRAM))??;
    println!("{}", after.ok_or("optimise never fails")?);
    Ok(())
}
