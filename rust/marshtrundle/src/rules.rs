//! Rewrite rules, with conditions and without.
//!
//! A rule is a scope of its variables around a match and a build. Conditions stand between the two. The variables of the left
//! side and of the conditions' outcomes are the rule's own: what they are bound to outside is hidden, and what the rule binds is
//! gone when it ends. A variable that the strategy of a condition names is the rule's where the rule has it, and otherwise an
//! outer one.
use crate::answer::BuildError;
use crate::bindings::{Var, VarSet};
use crate::strategy::{build, match_, not, scope, seq, test, where_, Pattern, Strategy};

/// A condition of [`rule_where`]: [`holds`], [`fails`] or [`gives`].
#[derive(Clone, Debug)]
pub struct Condition {
    from: Pattern,
    strategy: Strategy,
    wanted: Wanted,
}

#[derive(Clone, Debug)]
enum Wanted {
    Success,
    Failure,
    Match(Pattern),
}

/// The condition that `s` succeeds on the term of `from`. What `s` binds is gone again, and the room that it took is back: it is a TEST. To bind
/// something use [`gives`].
pub fn holds(from: Pattern, s: Strategy) -> Condition {
    Condition {
        from,
        strategy: s,
        wanted: Wanted::Success,
    }
}

/// The condition that `s` fails on the term of `from`.
pub fn fails(from: Pattern, s: Strategy) -> Condition {
    Condition {
        from,
        strategy: s,
        wanted: Wanted::Failure,
    }
}

/// The condition that `s` succeeds on the term of `from`, with an outcome that matches `outcome`. The variables of `outcome`
/// that are not bound yet are bound by it.
pub fn gives(from: Pattern, s: Strategy, outcome: Pattern) -> Condition {
    Condition {
        from,
        strategy: s,
        wanted: Wanted::Match(outcome),
    }
}

impl Condition {
    fn binds(&self) -> VarSet {
        match &self.wanted {
            Wanted::Match(outcome) => outcome.vars(),
            Wanted::Success | Wanted::Failure => VarSet::default(),
        }
    }

    fn strategy(self) -> Strategy {
        let from = build(self.from);
        match self.wanted {
            Wanted::Success => test(seq(from, self.strategy)),
            Wanted::Failure => not(seq(from, self.strategy)),
            Wanted::Match(outcome) => where_(seq(from, seq(self.strategy, match_(outcome)))),
        }
    }
}

/// A rewrite rule: match `from`, build `to`, in a scope of the variables of `from`.
///
/// It fails where the term does not match `from`. A variable of `to` that `from` does not name is a mistake
/// ([`BuildError::NothingBinds`]), which the table builder gives back.
pub fn rule(from: Pattern, to: Pattern) -> Strategy {
    rule_where(from, to, [])
}

/// A rewrite rule with conditions: match `from`, then the conditions in order, then build `to`.
///
/// It fails where the term does not match `from`, and where a condition is not met. A variable of `to`, or of the term that a
/// condition starts from, which neither `from` nor the outcome of an earlier condition names is a mistake
/// ([`BuildError::NothingBinds`]).
///
/// ```
/// # fn main() -> Result<(), Box<dyn std::error::Error>> {
/// use marshtrundle::strategy::*;
/// use marshtrundle::{run, Bindings, Entry, Store, Table, VARS};
/// const LET: u16 = 1;
/// const VAR: u16 = 2;
/// let [x, e1, e2, ..] = VARS;
/// // Let(x, e1, e2) -> e2 where Var(x) does not occur in e2
/// let dead = rule_where(
///     con(LET, [var(x), var(e1), var(e2)]),
///     var(e2),
///     [fails(var(e2), once_td(match_(con(VAR, [var(x)]))))],
/// );
/// let mut store = Store::new();
/// let (a, b) = (store.node(10, &[])?, store.node(11, &[])?);
/// let use_of_b = store.node(VAR, &[b])?;
/// let unused = store.node(LET, &[a, b, use_of_b])?;
/// let end = run(&Table::of(&dead)?, &mut store, &mut Bindings::new(), Entry::FIRST, unused, 1_000);
/// assert_eq!(end.done()?, use_of_b);
/// # Ok(())
/// # }
/// ```
pub fn rule_where(
    from: Pattern,
    to: Pattern,
    conditions: impl IntoIterator<Item = Condition>,
) -> Strategy {
    rule_within([], from, to, conditions)
}

/// A rewrite rule inside another one: as [`rule_where`], but the variables of `outer` belong to the rule around. They are bound when this rule
/// is tried, so that its left side compares with them, and they are not in its scope.
///
/// With it a rule applies another one somewhere inside its term, by a traversal in a condition:
///
/// ```
/// # fn main() -> Result<(), Box<dyn std::error::Error>> {
/// use marshtrundle::strategy::*;
/// use marshtrundle::{run, Bindings, Entry, Store, Table, VARS};
/// const LET: u16 = 1;
/// const VAR: u16 = 2;
/// let [x, value, body, new, ..] = VARS;
/// // Let(x, value, body) -> Let(x, value, new), where new is body with value for Var(x)
/// let propagate = rule_where(
///     con(LET, [var(x), var(value), var(body)]),
///     con(LET, [var(x), var(value), var(new)]),
///     [gives(var(body), some_td(rule_within([x, value], con(VAR, [var(x)]), var(value), [])), var(new))],
/// );
/// let mut store = Store::new();
/// let (a, b, seven) = (store.node(10, &[])?, store.node(11, &[])?, store.node(7, &[])?);
/// let (use_of_a, use_of_b) = (store.node(VAR, &[a])?, store.node(VAR, &[b])?);
/// let both = store.node(3, &[use_of_a, use_of_b])?;
/// let whole = store.node(LET, &[a, seven, both])?;
/// store.room(10)?;
/// let end = run(&Table::of(&propagate)?, &mut store, &mut Bindings::new(), Entry::FIRST, whole, 1_000);
/// assert_eq!(store.term(end.done()?).unwrap().to_string(), "1(10, 7, 3(7, 2(11)))");
/// # Ok(())
/// # }
/// ```
pub fn rule_within(
    outer: impl IntoIterator<Item = Var>,
    from: Pattern,
    to: Pattern,
    conditions: impl IntoIterator<Item = Condition>,
) -> Strategy {
    let outer: VarSet = outer.into_iter().collect();
    let mut bound = outer.union(from.vars());
    let mut steps = vec![match_(from)];
    for condition in conditions {
        if let Some(var) = condition.from.vars().iter().find(|&v| !bound.contains(v)) {
            return Strategy::mistaken(BuildError::NothingBinds(var));
        }
        bound = bound.union(condition.binds());
        steps.push(condition.strategy());
    }
    if let Some(var) = to.vars().iter().find(|&v| !bound.contains(v)) {
        return Strategy::mistaken(BuildError::NothingBinds(var));
    }
    let last = build(to);
    let own = bound.iter().filter(|&var| !outer.contains(var));
    scope(
        own,
        steps
            .into_iter()
            .rev()
            .fold(last, |rest, step| seq(step, rest)),
    )
}
