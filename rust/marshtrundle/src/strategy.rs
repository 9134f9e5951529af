//! Strategies and patterns as values. A [`Table`](crate::Table) is laid out from them.
//!
//! Each function below makes one operator of System S. A value may be cloned and used in many places: the table then has
//! its entries once. A mistake, as a seventh operand, does not end the program. It is kept in the value, and the table
//! builder gives it back.
//!
//! What is made of the operators stands here too: rules ([`rule`], [`rule_where`]) and traversals ([`bottom_up`],
//! [`innermost`] and the like). Each says what makes it fail.
use crate::answer::BuildError;
use crate::bindings::{Var, VarSet};
use crate::kind;
use std::fmt;
use std::sync::Arc;

pub use crate::rules::{fails, gives, holds, rule, rule_where, rule_within, Condition};
pub use crate::traversals::{
    all_td, attempt, bottom_up, down_up, innermost, left_of, map, once_bu, once_td, outermost,
    repeat, seq_of, some_bu, some_td, top_down,
};

pub(crate) use crate::kind::{CALL, CONG, PCON, REC};

/// What ties a call to its REC: a token that the two share, or a name.
#[derive(Clone)]
pub(crate) enum Tie {
    Token(Arc<()>),
    Name(Arc<str>),
}

/// One operator with its operands.
pub(crate) struct Tree {
    pub(crate) kind: u32,
    pub(crate) argument: u64,
    pub(crate) operands: Vec<Arc<Tree>>,
    pub(crate) tie: Option<Tie>,
    pub(crate) mistake: Option<BuildError>,
}

/// A tree can be deeper than the stack allows a call for each level, so it is taken apart in a loop.
impl Drop for Tree {
    fn drop(&mut self) {
        let mut rest = std::mem::take(&mut self.operands);
        while let Some(tree) = rest.pop() {
            if let Ok(mut tree) = Arc::try_unwrap(tree) {
                rest.append(&mut tree.operands);
            }
        }
    }
}

/// A strategy: what a run applies to a term.
#[derive(Clone)]
pub struct Strategy(pub(crate) Arc<Tree>);

/// A pattern: what [`match_`] compares a term with and [`build`] makes a term from.
#[derive(Clone)]
pub struct Pattern {
    tree: Arc<Tree>,
    vars: VarSet,
}

impl Strategy {
    fn new(kind: u32, argument: u64, operands: Vec<Arc<Tree>>) -> Strategy {
        Strategy(Arc::new(Tree {
            kind,
            argument,
            operands,
            tie: None,
            mistake: None,
        }))
    }

    fn of(kind: u32, operand: Strategy) -> Strategy {
        Strategy::new(kind, 0, vec![operand.0])
    }

    fn of_two(kind: u32, first: Strategy, second: Strategy) -> Strategy {
        Strategy::new(kind, 0, vec![first.0, second.0])
    }

    /// What stands where a strategy could not be made. A table builder gives the mistake back.
    pub(crate) fn mistaken(mistake: BuildError) -> Strategy {
        Strategy(Arc::new(Tree {
            kind: kind::FAIL,
            argument: 0,
            operands: vec![],
            tie: None,
            mistake: Some(mistake),
        }))
    }

    pub(crate) fn tied(kind: u32, operands: Vec<Arc<Tree>>, tie: Tie) -> Strategy {
        Strategy(Arc::new(Tree {
            kind,
            argument: 0,
            operands,
            tie: Some(tie),
            mistake: None,
        }))
    }
}

impl Pattern {
    /// The variables that the pattern names.
    pub fn vars(&self) -> VarSet {
        self.vars
    }
}

impl fmt::Debug for Strategy {
    fn fmt(&self, f: &mut fmt::Formatter<'_>) -> fmt::Result {
        write!(f, "Strategy({})", kind::name(self.0.kind))
    }
}

impl fmt::Debug for Pattern {
    fn fmt(&self, f: &mut fmt::Formatter<'_>) -> fmt::Result {
        write!(f, "Pattern({})", kind::name(self.tree.kind))
    }
}

/// ID: gives the term back.
pub fn id() -> Strategy {
    Strategy::new(kind::ID, 0, vec![])
}

/// FAIL: fails.
pub fn fail() -> Strategy {
    Strategy::new(kind::FAIL, 0, vec![])
}

/// TEST: succeeds when `s` does, and gives back term and bindings as they were.
pub fn test(s: Strategy) -> Strategy {
    Strategy::of(kind::TEST, s)
}

/// NOT: succeeds when `s` fails, with term and bindings as they were.
pub fn not(s: Strategy) -> Strategy {
    Strategy::of(kind::NOT, s)
}

/// SEQ: `first`, then `second` on what it gives.
pub fn seq(first: Strategy, second: Strategy) -> Strategy {
    Strategy::of_two(kind::SEQ, first, second)
}

/// CHOICE: `first`, and where it fails `second` on the term and the bindings of the beginning.
pub fn choice(first: Strategy, second: Strategy) -> Strategy {
    Strategy::of_two(kind::CHOICE, first, second)
}

/// LEFT: as [`choice`]. System S leaves the order of a choice open and fixes that of a left choice; here both are fixed.
pub fn left(first: Strategy, second: Strategy) -> Strategy {
    Strategy::of_two(kind::LEFT, first, second)
}

/// REC: runs its body. The body gets the call of the whole: `rec(|again| left(seq(s, again), id()))`.
pub fn rec(body: impl FnOnce(Strategy) -> Strategy) -> Strategy {
    let token = Arc::new(());
    let again = Strategy::tied(CALL, vec![], Tie::Token(Arc::clone(&token)));
    Strategy::tied(REC, vec![body(again).0], Tie::Token(token))
}

/// CALL: runs the strategy that [`TableBuilder::define`](crate::TableBuilder::define) gave this name.
pub fn call(name: &str) -> Strategy {
    Strategy::tied(CALL, vec![], Tie::Name(Arc::from(name)))
}

/// PATH: runs `s` on the child at a position from 1 to 6, and fails where the term has no such child.
pub fn path(position: u32, s: Strategy) -> Strategy {
    let mistake = (!(1..=6).contains(&position)).then_some(BuildError::NoSuchPosition(position));
    Strategy(Arc::new(Tree {
        kind: kind::PATH,
        argument: position.into(),
        operands: vec![s.0],
        tie: None,
        mistake,
    }))
}

/// CONG: fails unless constructor and count agree, and then runs each operand on its child.
pub fn cong(constructor: u16, operands: impl IntoIterator<Item = Strategy>) -> Strategy {
    Strategy(many(
        CONG,
        constructor,
        operands.into_iter().map(|s| s.0).collect(),
    ))
}

/// ALL: runs `s` on every child, and needs every one to succeed.
pub fn all(s: Strategy) -> Strategy {
    Strategy::of(kind::ALL, s)
}

/// ONE: runs `s` on the leftmost child where it succeeds.
pub fn one(s: Strategy) -> Strategy {
    Strategy::of(kind::ONE, s)
}

/// SOME: runs `s` on every child, keeps a child where it fails, and needs at least one success.
pub fn some(s: Strategy) -> Strategy {
    Strategy::of(kind::SOME, s)
}

/// MATCH: compares the term with the pattern, and binds the variables that are not bound yet.
pub fn match_(pattern: Pattern) -> Strategy {
    Strategy::new(kind::MATCH, 0, vec![pattern.tree])
}

/// BUILD: makes the pattern's term from the bindings. An unbound variable ends the run with
/// [`Answer::Unbound`](crate::Answer::Unbound): no strategy around it catches that.
pub fn build(pattern: Pattern) -> Strategy {
    Strategy::new(kind::BUILD, 0, vec![pattern.tree])
}

/// SCOPE: unbinds the variables, runs `s`, and puts their outer bindings back.
pub fn scope(vars: impl IntoIterator<Item = Var>, s: Strategy) -> Strategy {
    let vars: VarSet = vars.into_iter().collect();
    Strategy::new(kind::SCOPE, vars.mask(), vec![s.0])
}

/// WHERE: runs `s`, puts the term back and keeps the new bindings.
pub fn where_(s: Strategy) -> Strategy {
    Strategy::of(kind::WHERE, s)
}

/// PVAR: the pattern that is a variable.
pub fn var(var: Var) -> Pattern {
    Pattern {
        tree: Strategy::new(kind::PVAR, var.number().into(), vec![]).0,
        vars: [var].into_iter().collect(),
    }
}

/// PCON: the pattern that is a constructor over patterns.
pub fn con(constructor: u16, operands: impl IntoIterator<Item = Pattern>) -> Pattern {
    let mut vars = VarSet::default();
    let mut trees = vec![];
    for pattern in operands {
        vars = vars.union(pattern.vars);
        trees.push(pattern.tree);
    }
    Pattern {
        tree: many(PCON, constructor, trees),
        vars,
    }
}

fn many(kind: u32, constructor: u16, operands: Vec<Arc<Tree>>) -> Arc<Tree> {
    let mistake = (operands.len() > 6).then_some(BuildError::TooManyOperands(operands.len()));
    Arc::new(Tree {
        kind,
        argument: u64::from(constructor),
        operands,
        tie: None,
        mistake,
    })
}
