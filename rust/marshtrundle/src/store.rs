//! The store of terms: making nodes, making room, and reading terms back.
use crate::answer::{Answer, BuildError};
use crate::archive;
use crate::bindings::Bindings;
use crate::signature::Signature;
use crate::NODES;
use std::collections::{BTreeSet, HashMap};
use std::fmt;

/// A node's number in its store. It names a term: the node and what hangs on it.
#[derive(Clone, Copy, Debug, PartialEq, Eq, Hash, PartialOrd, Ord)]
pub struct Node(u32);

impl Node {
    /// The node with this number. A run refuses a subject that is not below the mark (answer 5).
    pub fn from_number(number: u32) -> Node {
        Node(number)
    }

    /// The node's number.
    pub fn number(self) -> u32 {
        self.0
    }
}

/// A store: nodes in use, and room behind them in which a run makes new ones.
///
/// ```
/// # fn main() -> Result<(), marshtrundle::BuildError> {
/// use marshtrundle::Store;
/// let mut store = Store::new();
/// let one = store.node(1, &[])?;
/// let two = store.node(2, &[])?;
/// let pair = store.node(5, &[one, two])?;
/// store.room(10)?;
/// assert_eq!(store.mark(), 3);
/// assert_eq!(store.term(pair).unwrap().to_string(), "5(1, 2)");
/// # Ok(())
/// # }
/// ```
#[derive(Clone, Debug, Default, PartialEq, Eq)]
pub struct Store {
    words: Vec<u32>,
    mark: u32,
    signature: Option<Signature>,
}

impl Store {
    /// A store without nodes and without room.
    pub fn new() -> Store {
        Store::default()
    }

    /// The store with these words and this mark. Both may be anything: [`Store::check`] and a run say what is wrong.
    pub fn from_words(words: impl Into<Vec<u32>>, mark: u32) -> Store {
        Store {
            words: words.into(),
            mark,
            signature: None,
        }
    }

    /// Sees to it that [`Store::node`] makes only nodes that obey this signature. It looks at no node that is there already, and
    /// no run looks at it: [`run_signed`](crate::run_signed) is lent one of its own.
    pub fn declare(&mut self, signature: &Signature) -> &mut Store {
        self.signature = Some(signature.clone());
        self
    }

    /// The store's words, eight to a node.
    pub fn words(&self) -> &[u32] {
        &self.words
    }

    /// The number of nodes in use.
    pub fn mark(&self) -> u32 {
        self.mark
    }

    /// The number of nodes that the store has room for, those in use among them.
    pub fn capacity(&self) -> usize {
        self.words.len() / 8
    }

    /// Lends the store's words with an index behind them, the number of the store's, and the mark. The index is gone afterwards.
    pub(crate) fn lend_indexed<R>(
        &mut self,
        work: impl FnOnce(&mut [u32], u32, &mut u32) -> R,
    ) -> R {
        let own = self.words.len();
        self.words.resize(own + own / 4, 0);
        let result = work(&mut self.words, own as u32, &mut self.mark);
        self.words.truncate(own);
        result
    }

    pub(crate) fn parts(&mut self) -> (&mut [u32], &mut u32) {
        (&mut self.words, &mut self.mark)
    }

    /// Makes a node with this constructor and these children, and gives its number back.
    pub fn node(&mut self, constructor: u16, children: &[Node]) -> Result<Node, BuildError> {
        if children.len() > 6 {
            return Err(BuildError::TooManyChildren(children.len()));
        }
        if let Some(signature) = &self.signature {
            signature.obeyed(constructor, children.len())?;
        }
        if let Some(&child) = children.iter().find(|child| child.0 >= self.mark) {
            return Err(BuildError::NoSuchChild(child));
        }
        if self.free() == 0 {
            self.room(1)?;
        }
        let mut row = [0; 8];
        row[0] = u32::from(constructor);
        row[1] = children.len() as u32;
        for (word, child) in row[2..].iter_mut().zip(children) {
            *word = child.0;
        }
        let node = Node(self.mark);
        let at = 8 * self.mark as usize;
        if let Some(words) = self.words.get_mut(at..at + 8) {
            words.copy_from_slice(&row);
            self.mark += 1;
        }
        Ok(node)
    }

    /// The number of nodes that can still be made.
    pub fn free(&self) -> usize {
        self.capacity().saturating_sub(self.mark as usize)
    }

    /// Sees to it that at least `nodes` more nodes can be made. New room is zero. A store has at most 131,072 nodes.
    pub fn room(&mut self, nodes: usize) -> Result<(), BuildError> {
        let wanted = nodes.saturating_add(self.mark as usize);
        if wanted > NODES {
            return Err(BuildError::TooManyNodes(wanted));
        }
        if wanted > self.capacity() {
            self.words.resize(8 * wanted, 0);
        }
        Ok(())
    }

    /// Makes all the room that there can be: 131,072 nodes, those in use among them. That is 4 MiB.
    pub fn most_room(&mut self) {
        if self.capacity() < NODES {
            self.words.resize(8 * NODES, 0);
        }
    }

    /// The store check: every node below the mark has its form. This is what a run asks first.
    pub fn check(&self) -> Result<(), Answer> {
        Answer::checked(archive::check_store(&self.words, self.mark))
    }

    /// Gives room back between runs. Just the nodes reachable from `subject` and from the bindings stay, in their old order
    /// and numbered from 0. The bindings get the new numbers, and the subject's new node comes back. Both name terms equal
    /// to those before. Any other [`Node`] from before names nothing any more.
    ///
    /// Where something is wrong nothing changes. The answer is then [`Answer::RefusedSizes`], [`Answer::BadNode`] or
    /// [`Answer::BadStart`].
    ///
    /// ```
    /// # fn main() -> Result<(), Box<dyn std::error::Error>> {
    /// use marshtrundle::{Bindings, Store};
    /// let mut store = Store::new();
    /// let one = store.node(1, &[])?;
    /// let old = store.node(4, &[one])?;
    /// let new = store.node(5, &[one, one])?;
    /// let new = store.collect(&mut Bindings::new(), new)?;
    /// assert_eq!((old.number(), new.number(), store.mark()), (1, 1, 2));
    /// assert_eq!(store.term(new).unwrap().to_string(), "5(1, 1)");
    /// # Ok(())
    /// # }
    /// ```
    pub fn collect(&mut self, bindings: &mut Bindings, subject: Node) -> Result<Node, Answer> {
        let mut work = vec![0; self.capacity()];
        let [answer, place, subject, mark] = archive::collect(
            &mut self.words,
            bindings.words_mut(),
            &mut work,
            self.mark,
            subject.0,
        );
        Answer::checked([answer, place])?;
        self.mark = mark;
        Ok(Node(subject))
    }

    /// The term at a node below the mark.
    pub fn term(&self, node: Node) -> Option<Term<'_>> {
        let there = node.0 < self.mark && (node.0 as usize) < self.capacity();
        there.then_some(Term {
            words: &self.words,
            node,
        })
    }
}

/// A term: a node of a store with all that hangs on it.
///
/// Two terms are equal when constructors, counts and children are, whatever their node numbers. They may be of two stores.
/// In a store that does not pass its check, a child that is not below its parent is left out.
#[derive(Clone, Copy)]
pub struct Term<'a> {
    words: &'a [u32],
    node: Node,
}

impl<'a> Term<'a> {
    /// The term at a node of a store's words, for callers that keep their own. None where the words have no such node.
    pub fn of_words(words: &'a [u32], node: Node) -> Option<Term<'a>> {
        let there = (node.0 as usize) < words.len() / 8;
        there.then_some(Term { words, node })
    }

    fn row(self) -> &'a [u32] {
        let at = 8 * self.node.0 as usize;
        self.words.get(at..at + 8).unwrap_or(&[0; 8])
    }

    /// The term's node.
    pub fn node(self) -> Node {
        self.node
    }

    /// The constructor.
    pub fn constructor(self) -> u32 {
        self.row()[0]
    }

    /// The children, left to right.
    pub fn children(self) -> impl DoubleEndedIterator<Item = Term<'a>> {
        let count = (self.row()[1] as usize).min(6);
        let below = self.node.0;
        self.row()[2..2 + count]
            .iter()
            .filter(move |&&child| child < below)
            .map(move |&child| self.at(Node(child)))
    }

    /// The child at a position from 1, as PATH counts.
    pub fn child(self, position: usize) -> Option<Term<'a>> {
        self.children().nth(position.checked_sub(1)?)
    }

    /// Every node of the term once, children before parents; the term's own node is the last.
    pub fn nodes(self) -> Vec<Node> {
        let mut found = BTreeSet::from([self.node]);
        let mut open = vec![self];
        while let Some(term) = open.pop() {
            open.extend(term.children().filter(|child| found.insert(child.node)));
        }
        found.into_iter().collect()
    }

    /// The term at another node of the same store.
    pub(crate) fn at(self, node: Node) -> Term<'a> {
        Term { node, ..self }
    }

    /// A number for the shape of each of the term's nodes. Terms that are numbered with one list of shapes get equal numbers when
    /// they are equal.
    pub(crate) fn shapes(
        self,
        shapes: &mut HashMap<(u32, Vec<usize>), usize>,
    ) -> HashMap<Node, usize> {
        let mut of: HashMap<Node, usize> = HashMap::new();
        for node in self.nodes() {
            let term = self.at(node);
            let children = term
                .children()
                .filter_map(|child| of.get(&child.node).copied())
                .collect();
            let new = shapes.len();
            let shape = *shapes.entry((term.constructor(), children)).or_insert(new);
            of.insert(node, shape);
        }
        of
    }
}

impl PartialEq for Term<'_> {
    fn eq(&self, other: &Term<'_>) -> bool {
        let mut shapes = HashMap::new();
        let (own, others) = (self.shapes(&mut shapes), other.shapes(&mut shapes));
        own.get(&self.node) == others.get(&other.node)
    }
}

impl Eq for Term<'_> {}

/// The constructor, then the children in brackets: `5(1, 2)`. A term that shares much is written out in full.
impl fmt::Display for Term<'_> {
    fn fmt(&self, f: &mut fmt::Formatter<'_>) -> fmt::Result {
        enum Piece<'a> {
            Term(Term<'a>),
            Text(&'static str),
        }
        let mut open = vec![Piece::Term(*self)];
        while let Some(piece) = open.pop() {
            match piece {
                Piece::Text(text) => f.write_str(text)?,
                Piece::Term(term) => {
                    write!(f, "{}", term.constructor())?;
                    let before = open.len();
                    for child in term.children().rev() {
                        open.push(Piece::Text(if open.len() == before { ")" } else { ", " }));
                        open.push(Piece::Term(child));
                    }
                    if open.len() > before {
                        f.write_str("(")?;
                    }
                }
            }
        }
        Ok(())
    }
}

impl fmt::Debug for Term<'_> {
    fn fmt(&self, f: &mut fmt::Formatter<'_>) -> fmt::Result {
        write!(f, "{}", self)
    }
}
