//! Seeing terms, patterns, strategies and tables: as text with names, as a graph for Graphviz, and what differs in two terms.
//!
//! Text is in the notation of the pages: `s ; t`, `s <+ t`, `rec x(..)`, `?p`, `!p`, `{x: s}`. What is deeper or longer than the
//! limits is shown as `..`. A subterm that is used more than once is shown once, as `#7=PAIR(..)`, and as `#7` from there on; 7 is
//! its node. So the text of a term is never longer than its nodes.
//!
//! ```
//! # fn main() -> Result<(), Box<dyn std::error::Error>> {
//! use marshtrundle::show::{Names, Show};
//! use marshtrundle::strategy::*;
//! use marshtrundle::{Entry, Store, Table, VARS};
//! let names = Names::read("constructor 1 A\nconstructor 5 PAIR\nvariable 0 x\nvariable 1 y\n")?;
//! let show = Show::new(&names);
//!
//! let mut store = Store::new();
//! let mut term = store.node(1, &[])?;
//! for _ in 0..3 {
//!     term = store.node(5, &[term, term])?;
//! }
//! let term = store.term(term).unwrap();
//! assert_eq!(show.term(term), "PAIR(#2=PAIR(#1=PAIR(A, A), #1), #2)");
//! assert_eq!(show.depth(2).term(term), "PAIR(PAIR(.., ..), PAIR(.., ..))");
//!
//! let [x, y, ..] = VARS;
//! let swap = bottom_up(attempt(rule(con(5, [var(x), var(y)]), con(5, [var(y), var(x)]))));
//! let table = Table::of(&swap)?;
//! assert_eq!(
//!     show.strategy(&table, Entry::FIRST),
//!     "rec s0(all(s0) ; ({x, y: ?PAIR(x, y) ; !PAIR(y, x)} <+ id))"
//! );
//! # Ok(())
//! # }
//! ```
pub use crate::names::{Names, NamesFault};

use crate::bindings::{Bindings, VarSet};
use crate::kind;
use crate::store::{Node, Store, Term};
use crate::table::{Entry, Table};
use std::collections::{HashMap, HashSet};
use std::fmt;
use std::fmt::Write;

/// How to show: by which names, how deep, how long.
#[derive(Clone, Copy, Debug)]
pub struct Show<'n> {
    names: &'n Names,
    depth: usize,
    length: usize,
    is_sharing: bool,
}

/// What is still to be written, the next last.
enum Piece<T> {
    Text(String),
    Thing(T, usize),
}

impl<'n> Show<'n> {
    /// By these names, 100 levels deep and 1,000 nodes or entries long.
    pub fn new(names: &'n Names) -> Show<'n> {
        Show {
            names,
            depth: 100,
            length: 1_000,
            is_sharing: true,
        }
    }

    /// So many levels deep. What is deeper is shown as `..`.
    #[must_use]
    pub fn depth(self, depth: usize) -> Show<'n> {
        Show { depth, ..self }
    }

    /// So many nodes or entries long. What is beyond is shown as `..`.
    #[must_use]
    pub fn length(self, length: usize) -> Show<'n> {
        Show { length, ..self }
    }

    /// Without limits.
    #[must_use]
    pub fn in_full(self) -> Show<'n> {
        self.depth(usize::MAX).length(usize::MAX)
    }

    /// A shared subterm is written out each time. [`Names::read_term`] reads what is then written in full.
    #[must_use]
    pub fn unshared(self) -> Show<'n> {
        Show {
            is_sharing: false,
            ..self
        }
    }

    /// The names to show by.
    pub(crate) fn names(&self) -> &'n Names {
        self.names
    }

    /// The most rows of a profile that a picture has.
    pub(crate) fn rows_drawn(&self) -> usize {
        self.length
    }

    /// A term. A shared subterm with children is shown once.
    pub fn term(&self, term: Term<'_>) -> String {
        let shared = if self.is_sharing {
            self.shared_nodes(term)
        } else {
            HashSet::new()
        };
        let mut defined = HashSet::new();
        let mut left = self.length;
        let mut text = String::new();
        let mut open = vec![Piece::Thing(term, 1)];
        while let Some(piece) = open.pop() {
            let (term, level) = match piece {
                Piece::Text(piece) => {
                    text.push_str(&piece);
                    continue;
                }
                Piece::Thing(term, level) => (term, level),
            };
            let node = term.node();
            if defined.contains(&node) {
                let _ = write!(text, "#{}", node.number());
                continue;
            }
            if level > self.depth || left == 0 {
                text.push_str("..");
                continue;
            }
            left -= 1;
            // Where the children are cut off by the depth there is nothing to say once.
            if shared.contains(&node) && level < self.depth {
                let _ = write!(text, "#{}=", node.number());
                defined.insert(node);
            }
            text.push_str(&self.names.constructor(term.constructor()));
            let children: Vec<_> = term.children().collect();
            push_list(&mut open, &children, level + 1);
        }
        text
    }

    /// The nodes with children that are met more than once where the term is shown within the limits.
    fn shared_nodes(&self, term: Term<'_>) -> HashSet<Node> {
        let mut seen = HashSet::new();
        let mut shared = HashSet::new();
        let mut open = vec![(term, 1)];
        while let Some((term, level)) = open.pop() {
            if level > self.depth || seen.len() >= self.length {
                continue;
            }
            if !seen.insert(term.node()) {
                if term.children().next().is_some() {
                    shared.insert(term.node());
                }
                continue;
            }
            open.extend(term.children().rev().map(|child| (child, level + 1)));
        }
        shared
    }

    /// What is bound: `x = A, y = PAIR(A, A)`.
    pub fn bindings(&self, store: &Store, bindings: &Bindings) -> String {
        let bound = bindings.iter().map(|(var, node)| {
            let term = store.term(node).map(|term| self.term(term));
            let name = self.names.variable(var.number());
            format!("{name} = {}", term.unwrap_or_else(|| "no term".to_owned()))
        });
        bound.collect::<Vec<_>>().join(", ")
    }

    /// The pattern at an entry.
    pub fn pattern(&self, table: &Table, entry: Entry) -> String {
        self.expression(table, entry.number(), &Uses::default())
    }

    /// The strategy at an entry. A strategy inside it that has a name, or that is used more than once, is shown by its name;
    /// [`Show::table`] has them all.
    pub fn strategy(&self, table: &Table, entry: Entry) -> String {
        self.expression(table, entry.number(), &Uses::of(table))
    }

    /// The whole table as definitions, `name = strategy`, a line each: the strategies that nothing uses, those that have a name,
    /// and those that are used more than once.
    pub fn table(&self, table: &Table) -> String {
        let uses = Uses::of(table);
        let mut text = String::new();
        for entry in 0..table.entries() as u32 {
            if uses.is_strategy(entry)
                && (uses.of[entry as usize] == 0 || self.is_named(&uses, entry))
            {
                let _ = writeln!(
                    text,
                    "{} = {}",
                    self.names.entry(entry),
                    self.expression(table, entry, &uses)
                );
            }
        }
        text
    }

    /// Every entry with its number, a line each: its kind, its operands, and what it stands for.
    pub fn entries(&self, table: &Table) -> String {
        let uses = Uses::of(table);
        let mut text = String::new();
        for (entry, row) in (0_u32..).zip(table.words().chunks_exact(8)) {
            let kind = kind::name(row[0] / 16);
            let operands: Vec<String> = kind::operands(row).iter().map(u32::to_string).collect();
            let _ = writeln!(
                text,
                "{entry}\t{kind}\t{}\t{}",
                operands.join(" "),
                self.expression(table, entry, &uses)
            );
        }
        text
    }

    /// Whether an entry is shown by its name where it is an operand.
    fn is_named(&self, uses: &Uses, entry: u32) -> bool {
        self.names.names_entry(entry) || (uses.is_large(entry) && uses.of[entry as usize] > 1)
    }

    /// An entry in notation. What is named is shown by its name, but for the entry itself.
    fn expression(&self, table: &Table, entry: u32, uses: &Uses) -> String {
        let mut left = self.length;
        let mut text = String::new();
        // With each entry goes the operator whose operand it is, where that one is written between its operands.
        let mut open = vec![Piece::Thing((entry, None, true), 1)];
        while let Some(piece) = open.pop() {
            let ((entry, inside, first), level) = match piece {
                Piece::Text(piece) => {
                    text.push_str(&piece);
                    continue;
                }
                Piece::Thing(thing, level) => (thing, level),
            };
            let row = match table.words().chunks_exact(8).nth(entry as usize) {
                Some(row) => row,
                None => {
                    let _ = write!(text, "<{entry}>");
                    continue;
                }
            };
            if level > 1 && uses.is_strategy(entry) && self.is_named(uses, entry) {
                text.push_str(&self.names.entry(entry));
                continue;
            }
            if level > self.depth || left == 0 {
                text.push_str("..");
                continue;
            }
            left -= 1;
            let kind = row[0] / 16;
            // In a table that does not pass its check an operand may be anywhere. One that is not above is shown as `<5>`.
            let lower = |&operand: &u32| {
                if operand > entry {
                    Piece::Thing((operand, None, true), level + 1)
                } else {
                    Piece::Text(format!("<{operand}>"))
                }
            };
            let list = kind::operands(row);
            let one = |open: &mut Vec<_>, before: String, after: &str| {
                open.push(Piece::Text(after.to_owned()));
                open.extend(list.first().map(lower));
                open.push(Piece::Text(before));
            };
            match kind {
                kind::ID => text.push_str("id"),
                kind::FAIL => text.push_str("fail"),
                kind::TEST => one(&mut open, "test(".to_owned(), ")"),
                kind::NOT => one(&mut open, "not(".to_owned(), ")"),
                kind::SEQ..=kind::LEFT
                    if list.len() == 2 && list.iter().all(|&operand| operand > entry) =>
                {
                    let sign = [" ; ", " + ", " <+ "][(kind - kind::SEQ) as usize];
                    // `s ; t ; u` is `s ; (t ; u)`, and the same for the choices.
                    let bare = inside.is_none() || (inside == Some(kind) && !first);
                    open.push(Piece::Text(if bare { "" } else { ")" }.to_owned()));
                    open.push(Piece::Thing((list[1], Some(kind), false), level + 1));
                    open.push(Piece::Text(sign.to_owned()));
                    open.push(Piece::Thing((list[0], Some(kind), true), level + 1));
                    open.push(Piece::Text(if bare { "" } else { "(" }.to_owned()));
                }
                kind::REC => one(&mut open, format!("rec {}(", self.names.entry(entry)), ")"),
                kind::CALL => text.push_str(&self.names.entry(list.first().copied().unwrap_or(0))),
                kind::PATH => one(&mut open, format!("{}(", row[1]), ")"),
                kind::ALL => one(&mut open, "all(".to_owned(), ")"),
                kind::ONE => one(&mut open, "one(".to_owned(), ")"),
                kind::SOME => one(&mut open, "some(".to_owned(), ")"),
                kind::MATCH => one(&mut open, "?".to_owned(), ""),
                kind::BUILD => one(&mut open, "!".to_owned(), ""),
                kind::SCOPE => one(
                    &mut open,
                    format!("{{{}: ", self.variables(kind::argument(row))),
                    "}",
                ),
                kind::WHERE => one(&mut open, "where(".to_owned(), ")"),
                kind::PVAR => text.push_str(&self.names.variable(row[1])),
                kind::CONG | kind::PCON => {
                    text.push_str(&self.names.constructor(row[1]));
                    if !list.is_empty() {
                        open.push(Piece::Text(")".to_owned()));
                        for (k, operand) in list.iter().enumerate().rev() {
                            open.push(lower(operand));
                            open.push(Piece::Text(if k == 0 { "(" } else { ", " }.to_owned()));
                        }
                    }
                }
                _ => {
                    let _ = write!(text, "<kind {kind}>");
                }
            }
        }
        text
    }

    fn variables(&self, mask: u64) -> String {
        let vars = VarSet::from_mask(mask);
        let names = vars.iter().map(|var| self.names.variable(var.number()));
        names.collect::<Vec<_>>().join(", ")
    }

    /// A term as a graph for Graphviz: a box for each node, once, and an arrow to each child with its position.
    pub fn term_graph(&self, term: Term<'_>) -> String {
        let nodes = term.nodes();
        let shown: HashSet<Node> = nodes.iter().rev().take(self.length).copied().collect();
        let mut graph = Graph::new(nodes.len() > shown.len());
        for node in nodes.iter().rev().filter(|node| shown.contains(node)) {
            let term = term.at(*node);
            let name = self.names.constructor(term.constructor());
            graph.vertex(node.number(), &name);
            for (position, child) in (1..).zip(term.children()) {
                if shown.contains(&child.node()) {
                    graph.arrow(node.number(), child.node().number(), position, "solid");
                }
            }
        }
        graph.text()
    }

    /// A table as a graph for Graphviz: a box for each entry, an arrow to each operand with its position, and a dashed one from each
    /// CALL.
    pub fn table_graph(&self, table: &Table) -> String {
        let rows = || {
            (0_u32..)
                .zip(table.words().chunks_exact(8))
                .take(self.length)
        };
        let mut graph = Graph::new(table.entries() > self.length);
        for (entry, row) in rows() {
            let kind = row[0] / 16;
            let mut label = format!("{entry} ");
            if self.names.names_entry(entry) {
                let _ = write!(label, "{} ", self.names.entry(entry));
            }
            let _ = match kind {
                kind::PATH => write!(label, "PATH {}", row[1]),
                kind::CONG | kind::PCON => write!(
                    label,
                    "{} {}",
                    kind::name(kind),
                    self.names.constructor(row[1])
                ),
                kind::SCOPE => write!(label, "SCOPE {}", self.variables(kind::argument(row))),
                kind::PVAR => write!(label, "PVAR {}", self.names.variable(row[1])),
                _ => write!(label, "{}", kind::name(kind)),
            };
            graph.vertex(entry, &label);
            let style = if kind == kind::CALL {
                "dashed"
            } else {
                "solid"
            };
            for (position, &operand) in (1..).zip(kind::operands(row)) {
                graph.arrow(entry, operand, position, style);
            }
        }
        graph.text()
    }

    /// What differs in two terms, which may be of two stores: at most [`Show::length`] places, in the order in which they are met.
    /// Below a place where constructors or numbers of children differ nothing is looked at.
    pub fn differences<'a>(&self, before: Term<'a>, after: Term<'a>) -> Vec<Difference<'a>> {
        let mut shapes = HashMap::new();
        let of_before = before.shapes(&mut shapes);
        let of_after = after.shapes(&mut shapes);
        let mut found = vec![];
        let mut open = vec![(vec![], before, after)];
        while let Some((place, before, after)) = open.pop() {
            if of_before.get(&before.node()) == of_after.get(&after.node()) {
                continue;
            }
            let children: Vec<_> = before.children().zip(after.children()).collect();
            let alike = before.constructor() == after.constructor()
                && before.children().count() == after.children().count();
            if alike {
                for (k, (one, other)) in children.into_iter().enumerate().rev() {
                    let mut place: Vec<usize> = place.clone();
                    place.push(k + 1);
                    open.push((place, one, other));
                }
            } else {
                found.push(Difference {
                    place,
                    before,
                    after,
                });
                if found.len() >= self.length {
                    break;
                }
            }
        }
        found
    }

    /// The differences of two terms as lines, `at 1.2: A, then B`. Empty where the terms are equal.
    pub fn difference(&self, before: Term<'_>, after: Term<'_>) -> String {
        let mut text = String::new();
        for difference in self.differences(before, after) {
            let _ = writeln!(
                text,
                "at {}: {}, then {}",
                Place(&difference.place),
                self.term(difference.before),
                self.term(difference.after)
            );
        }
        text
    }
}

/// A place where two terms differ: the child positions that lead to it, and what stands there.
#[derive(Clone, Debug)]
pub struct Difference<'a> {
    /// The positions from the top, each from 1. Empty for the terms themselves.
    pub place: Vec<usize>,
    /// What stands there in the first term.
    pub before: Term<'a>,
    /// What stands there in the second.
    pub after: Term<'a>,
}

/// A place in a term: `1.2` is the second child of the first child, and `the top` the term itself.
pub struct Place<'a>(pub &'a [usize]);

impl fmt::Display for Place<'_> {
    fn fmt(&self, f: &mut fmt::Formatter<'_>) -> fmt::Result {
        if self.0.is_empty() {
            return f.write_str("the top");
        }
        let positions: Vec<String> = self.0.iter().map(usize::to_string).collect();
        f.write_str(&positions.join("."))
    }
}

/// Pushes things in brackets with commas between.
fn push_list<T: Copy>(open: &mut Vec<Piece<T>>, things: &[T], level: usize) {
    if things.is_empty() {
        return;
    }
    open.push(Piece::Text(")".to_owned()));
    for (k, &thing) in things.iter().enumerate().rev() {
        open.push(Piece::Thing(thing, level));
        open.push(Piece::Text(if k == 0 { "(" } else { ", " }.to_owned()));
    }
}

/// How often each entry of a table is an operand, calls left aside, and of which kind it is.
#[derive(Default)]
struct Uses {
    of: Vec<u32>,
    kinds: Vec<u32>,
}

impl Uses {
    fn of(table: &Table) -> Uses {
        let mut uses = Uses {
            of: vec![0; table.entries()],
            kinds: vec![],
        };
        for row in table.words().chunks_exact(8) {
            uses.kinds.push(row[0] / 16);
            if row[0] / 16 != kind::CALL {
                for &operand in kind::operands(row) {
                    if let Some(count) = uses.of.get_mut(operand as usize) {
                        *count += 1;
                    }
                }
            }
        }
        uses
    }

    fn is_strategy(&self, entry: u32) -> bool {
        self.kinds
            .get(entry as usize)
            .map_or(false, |&kind| kind < kind::PVAR)
    }

    /// Whether an entry has strategies for operands, so that it is worth a name.
    fn is_large(&self, entry: u32) -> bool {
        let kind = self.kinds.get(entry as usize);
        kind.map_or(false, |&kind| {
            !matches!(
                kind,
                kind::ID
                    | kind::FAIL
                    | kind::CALL
                    | kind::MATCH
                    | kind::BUILD
                    | kind::PVAR
                    | kind::PCON
            )
        })
    }
}

/// The text of a graph.
struct Graph {
    lines: String,
}

impl Graph {
    fn new(is_cut: bool) -> Graph {
        let mut lines = String::from("digraph {\n  node [shape=box, fontname=monospace];\n");
        if is_cut {
            lines.push_str("  label=\"cut off: there is more\";\n");
        }
        Graph { lines }
    }

    fn vertex(&mut self, number: u32, label: &str) {
        let label = label.replace('\\', "\\\\").replace('"', "\\\"");
        let _ = writeln!(self.lines, "  n{number} [label=\"{label}\"];");
    }

    fn arrow(&mut self, from: u32, to: u32, position: usize, style: &str) {
        let _ = writeln!(
            self.lines,
            "  n{from} -> n{to} [label=\"{position}\", style={style}];"
        );
    }

    fn text(mut self) -> String {
        self.lines.push_str("}\n");
        self.lines
    }
}
