//! Strategies and patterns as trees, and the table that a tree becomes.

#![forbid(unsafe_code)]

use twin::checks::kind;

/// The words of one entry.
const WIDTH: usize = 8;

/// A strategy or a pattern. A REC has a name, and a CALL says one.
#[derive(Clone, Debug)]
pub enum Tree {
    /// Kind, argument and operands.
    Entry(u32, u64, Vec<Tree>),
    /// REC with its name and its body.
    Rec(&'static str, Box<Tree>),
    /// CALL of the REC with this name.
    Call(&'static str),
}

use Tree::{Call, Entry, Rec};

/// ID.
pub fn id() -> Tree {
    Entry(kind::ID, 0, vec![])
}

/// TEST of a strategy.
pub fn test(of: Tree) -> Tree {
    Entry(kind::TEST, 0, vec![of])
}

/// NOT of a strategy.
pub fn not(of: Tree) -> Tree {
    Entry(kind::NOT, 0, vec![of])
}

/// SEQs of one or more strategies, nested to the right.
pub fn seq(of: Vec<Tree>) -> Tree {
    nested(kind::SEQ, of)
}

/// CHOICEs of one or more strategies, nested to the right.
pub fn choice(of: Vec<Tree>) -> Tree {
    nested(kind::CHOICE, of)
}

/// LEFTs of one or more strategies, nested to the right.
pub fn left(of: Vec<Tree>) -> Tree {
    nested(kind::LEFT, of)
}

fn nested(kind: u32, of: Vec<Tree>) -> Tree {
    let mut from_the_last = of.into_iter().rev();
    let last = from_the_last.next().expect("one strategy or more");
    from_the_last.fold(last, |rest, first| Entry(kind, 0, vec![first, rest]))
}

/// REC with a name.
pub fn rec(name: &'static str, body: Tree) -> Tree {
    Rec(name, Box::new(body))
}

/// CALL of a name.
pub fn call(name: &'static str) -> Tree {
    Call(name)
}

/// PATH to a child, counted from 1.
pub fn path(position: u32, of: Tree) -> Tree {
    Entry(kind::PATH, position.into(), vec![of])
}

/// CONG of a constructor, with a strategy for each child.
pub fn cong(constructor: u32, of: Vec<Tree>) -> Tree {
    Entry(kind::CONG, constructor.into(), of)
}

/// ALL of a strategy.
pub fn all(of: Tree) -> Tree {
    Entry(kind::ALL, 0, vec![of])
}

/// ONE of a strategy.
pub fn one(of: Tree) -> Tree {
    Entry(kind::ONE, 0, vec![of])
}

/// MATCH of a pattern.
pub fn matching(pattern: Tree) -> Tree {
    Entry(kind::MATCH, 0, vec![pattern])
}

/// BUILD of a pattern.
pub fn build(pattern: Tree) -> Tree {
    Entry(kind::BUILD, 0, vec![pattern])
}

/// WHERE of a strategy.
pub fn within(of: Tree) -> Tree {
    Entry(kind::WHERE, 0, vec![of])
}

/// SCOPE of some variables.
pub fn scope(variables: &[u32], of: Tree) -> Tree {
    let mask = variables.iter().fold(0, |mask, number| mask | 1 << number);
    Entry(kind::SCOPE, mask, vec![of])
}

/// A variable.
pub fn var(number: u32) -> Tree {
    Entry(kind::PVAR, number.into(), vec![])
}

/// A constructor with patterns.
pub fn con(constructor: u32, of: Vec<Tree>) -> Tree {
    Entry(kind::PCON, constructor.into(), of)
}

/// A rewrite rule: SCOPE of its variables, MATCH, BUILD.
pub fn rule(from: Tree, to: Tree) -> Tree {
    let mut mask = 0;
    variables(&from, &mut mask);
    let body = seq(vec![matching(from), build(to)]);
    Entry(kind::SCOPE, mask, vec![body])
}

fn variables(pattern: &Tree, mask: &mut u64) {
    if let Entry(of_kind, argument, operands) = pattern {
        if *of_kind == kind::PVAR {
            *mask |= 1 << argument;
        }
        for operand in operands {
            variables(operand, mask);
        }
    }
}

/// A strategy run many times over, each time on the term as it was given. The
/// strategy is a REC, and from the second time on it is called by its name. With
/// one time an ID comes after it, so that the REC is the same entry for all times.
pub fn repeated(times: usize, name: &'static str, body: Tree) -> Tree {
    let mut runs = vec![test(rec(name, body))];
    for _ in 1..times {
        runs.push(test(call(name)));
    }
    if times == 1 {
        runs.push(id());
    }
    seq(runs)
}

/// The table of a tree. Entry 0 is the whole tree.
pub fn table(tree: &Tree) -> Vec<u32> {
    let mut words = Vec::new();
    let mut names = Vec::new();
    let mut calls = Vec::new();
    place(tree, &mut words, &mut names, &mut calls);
    for (entry, name) in calls {
        let target = names.iter().find(|(known, _)| *known == name);
        words[WIDTH * entry as usize + 2] = target.expect("a REC of that name").1;
    }
    words
}

/// Appends the entries of a tree and gives the number of its own.
fn place(
    tree: &Tree,
    words: &mut Vec<u32>,
    names: &mut Vec<(&'static str, u32)>,
    calls: &mut Vec<(u32, &'static str)>,
) -> u32 {
    let entry = (words.len() / WIDTH) as u32;
    let first = words.len();
    words.resize(first + WIDTH, 0);
    match tree {
        Entry(kind, argument, operands) => {
            words[first] = 16 * kind + operands.len() as u32;
            words[first + 1] = *argument as u32;
            let mut from = first + 2;
            if *kind == kind::SCOPE {
                words[from] = (argument >> 32) as u32;
                from += 1;
            }
            for (position, operand) in operands.iter().enumerate() {
                words[from + position] = place(operand, words, names, calls);
            }
        }
        Rec(name, body) => {
            names.push((name, entry));
            words[first] = 16 * kind::REC + 1;
            words[first + 2] = place(body, words, names, calls);
        }
        Call(name) => {
            calls.push((entry, name));
            words[first] = 16 * kind::CALL + 1;
        }
    }
    entry
}
