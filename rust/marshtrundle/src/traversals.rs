//! Traversals and other strategies that are made of the operators. Each says what makes it fail.
//!
//! "Subterm" means the term itself too. A strategy that never fails can still be cut off: by units, by room, or by nesting.
use crate::strategy::{all, cong, fail, id, left, one, rec, seq, some, Strategy};

/// Each of the strategies in turn, each on what the one before gives. Fails where one of them fails. Of none it is
/// [`id`].
pub fn seq_of(strategies: impl IntoIterator<Item = Strategy>) -> Strategy {
    nested(strategies, seq, id)
}

/// The first of the strategies that succeeds, each tried on the term and the bindings of the beginning. Fails where all of them
/// fail. Of none it is [`fail`].
pub fn left_of(strategies: impl IntoIterator<Item = Strategy>) -> Strategy {
    nested(strategies, left, fail)
}

/// The strategies under an operator of two, nested to the right.
fn nested(
    strategies: impl IntoIterator<Item = Strategy>,
    operator: fn(Strategy, Strategy) -> Strategy,
    none: fn() -> Strategy,
) -> Strategy {
    let strategies: Vec<Strategy> = strategies.into_iter().collect();
    strategies
        .into_iter()
        .rev()
        .reduce(|rest, s| operator(s, rest))
        .unwrap_or_else(none)
}

/// `s`, or the term as it is where `s` fails. Never fails.
pub fn attempt(s: Strategy) -> Strategy {
    left(s, id())
}

/// `s` as often as it succeeds, perhaps never. Never fails. Each success takes four levels of nesting, so that there can be at
/// most some 1,023.
pub fn repeat(s: Strategy) -> Strategy {
    rec(|again| left(seq(s, again), id()))
}

/// `s` on every subterm, children before parents. Fails where `s` fails on one of them: give it `attempt(s)` to go on there.
pub fn bottom_up(s: Strategy) -> Strategy {
    rec(|again| seq(all(again), s))
}

/// `s` on every subterm, parents before children. Fails where `s` fails on one of them: give it `attempt(s)` to go on there.
pub fn top_down(s: Strategy) -> Strategy {
    rec(|again| seq(s, all(again)))
}

/// `s` on every subterm on the way down, and once more on the way up. Fails where `s` fails on one of them, either way.
pub fn down_up(s: Strategy) -> Strategy {
    rec(|again| seq(s.clone(), seq(all(again), s)))
}

/// `s` on one subterm: the first where it succeeds, parents before children, left to right. Fails where `s` fails on every
/// subterm.
pub fn once_td(s: Strategy) -> Strategy {
    rec(|again| left(s, one(again)))
}

/// `s` on one subterm: the first where it succeeds, children before parents, left to right. Fails where `s` fails on every
/// subterm.
pub fn once_bu(s: Strategy) -> Strategy {
    rec(|again| left(one(again), s))
}

/// `s` on the topmost subterms where it succeeds; what is below them is left alone. Never fails: where `s` succeeds nowhere, the
/// term is as it was.
pub fn all_td(s: Strategy) -> Strategy {
    rec(|again| left(s, all(again)))
}

/// `s` on the topmost subterms where it succeeds; what is below them is left alone. Fails where `s` fails on every subterm, and
/// is [`all_td`] otherwise.
pub fn some_td(s: Strategy) -> Strategy {
    rec(|again| left(s, some(again)))
}

/// `s` on the lowest subterms where it succeeds; what is above them is left alone. Fails where `s` fails on every subterm.
pub fn some_bu(s: Strategy) -> Strategy {
    rec(|again| left(some(again), s))
}

/// `s` wherever it succeeds until it succeeds nowhere, children first; what `s` gives is gone through again. Never fails. It does
/// not end by itself where `s` can go on for ever.
pub fn innermost(s: Strategy) -> Strategy {
    rec(|again| seq(all(again.clone()), attempt(seq(s, again))))
}

/// `s` wherever it succeeds until it succeeds nowhere, parents first; the search begins at the top after each success. Never
/// fails. It does not end by itself where `s` can go on for ever, and it has [`repeat`]'s limit of successes.
pub fn outermost(s: Strategy) -> Strategy {
    repeat(once_td(s))
}

/// `s` on every element of a list. A list is the constant `end`, or `cell` of an element and a list. Fails where the term is no
/// such list, and where `s` fails on an element. A cell takes four levels of nesting.
pub fn map(cell: u16, end: u16, s: Strategy) -> Strategy {
    rec(|again| left(cong(end, []), cong(cell, [s, again])))
}
