//! The strategy table: laying strategies out as words.
use crate::answer::{Answer, BuildError};
use crate::archive;
use crate::fault::{self, EntryFault};
use crate::kind;
use crate::signature::Signature;
use crate::strategy::{Strategy, Tie, Tree, CALL, CONG, PCON, REC};
use crate::ENTRIES;
use std::collections::{BTreeMap, HashMap, VecDeque};
use std::sync::Arc;

/// An entry's number in its table.
#[derive(Clone, Copy, Debug, PartialEq, Eq, Hash, PartialOrd, Ord)]
pub struct Entry(u32);

impl Entry {
    /// Entry 0: the whole strategy in a table made by [`Table::of`].
    pub const FIRST: Entry = Entry(0);

    /// The entry with this number. A run refuses one outside the table (answer 5).
    pub fn from_number(number: u32) -> Entry {
        Entry(number)
    }

    /// The entry's number.
    pub fn number(self) -> u32 {
        self.0
    }
}

/// A strategy table.
#[derive(Clone, Debug, Default, PartialEq, Eq)]
pub struct Table {
    words: Vec<u32>,
    names: BTreeMap<String, Entry>,
}

impl Table {
    /// The table of one strategy. It starts at [`Entry::FIRST`].
    ///
    /// ```
    /// # fn main() -> Result<(), marshtrundle::BuildError> {
    /// use marshtrundle::{strategy::*, Table};
    /// let table = Table::of(&attempt(fail()))?;
    /// assert_eq!(table.entries(), 3);
    /// assert_eq!(table.check(), Ok(()));
    /// # Ok(())
    /// # }
    /// ```
    pub fn of(strategy: &Strategy) -> Result<Table, BuildError> {
        layout(&[(None, strategy)], None)
    }

    /// The table with these words. They may be anything: [`Table::check`] and a run say what is wrong.
    pub fn from_words(words: impl Into<Vec<u32>>) -> Table {
        Table {
            words: words.into(),
            names: BTreeMap::new(),
        }
    }

    /// The table's words, eight to an entry.
    pub fn words(&self) -> &[u32] {
        &self.words
    }

    /// Other words for the table; its names stay.
    pub(crate) fn replace_words(&mut self, words: Vec<u32>) {
        self.words = words;
    }

    /// The number of entries.
    pub fn entries(&self) -> usize {
        self.words.len() / 8
    }

    /// The entry at which the strategy of this name starts.
    pub fn entry(&self, name: &str) -> Option<Entry> {
        self.names.get(name).copied()
    }

    /// The names of the table's strategies with their entries.
    pub fn names(&self) -> impl Iterator<Item = (&str, Entry)> {
        self.names
            .iter()
            .map(|(name, &entry)| (name.as_str(), entry))
    }

    /// The table check: every entry has its form. This is what a run asks first.
    pub fn check(&self) -> Result<(), Answer> {
        Answer::checked(archive::check_table(&self.words))
    }

    /// Which word of a bad entry is wrong, and what was expected there. None where the answer is about no entry of this table.
    pub fn explain(&self, answer: Answer) -> Option<EntryFault> {
        match answer {
            Answer::BadEntry(entry, fault) => fault::explain(&self.words, entry, fault),
            _ => None,
        }
    }
}

/// Makes a table of several strategies with names.
///
/// ```
/// # fn main() -> Result<(), marshtrundle::BuildError> {
/// use marshtrundle::{strategy::*, TableBuilder};
/// let mut builder = TableBuilder::new();
/// builder.define("even", left(match_(con(0, [])), path(1, call("odd"))));
/// builder.define("odd", path(1, call("even")));
/// builder.add("not even", not(call("even")));
/// let table = builder.build()?;
/// assert!(table.entry("not even").is_some());
/// # Ok(())
/// # }
/// ```
#[derive(Clone, Debug, Default)]
pub struct TableBuilder {
    strategies: Vec<(String, Strategy)>,
    signature: Option<Signature>,
}

impl TableBuilder {
    /// A builder without strategies.
    pub fn new() -> TableBuilder {
        TableBuilder::default()
    }

    /// Sees to it that [`TableBuilder::build`] refuses a congruence and a constructor's pattern that do not obey this signature.
    pub fn declare(&mut self, signature: &Signature) -> &mut TableBuilder {
        self.signature = Some(signature.clone());
        self
    }

    /// Adds a strategy that a run can start at.
    pub fn add(&mut self, name: &str, strategy: Strategy) -> &mut TableBuilder {
        self.strategies.push((name.to_owned(), strategy));
        self
    }

    /// Adds a REC with this body. A run can start at it, and [`call`](crate::strategy::call) calls it by its name.
    pub fn define(&mut self, name: &str, body: Strategy) -> &mut TableBuilder {
        let rec = Strategy::tied(REC, vec![body.0], Tie::Name(Arc::from(name)));
        self.add(name, rec)
    }

    /// The table of all strategies added.
    pub fn build(&self) -> Result<Table, BuildError> {
        let roots: Vec<_> = self
            .strategies
            .iter()
            .map(|(name, strategy)| (Some(name.as_str()), strategy))
            .collect();
        layout(&roots, self.signature.as_ref())
    }
}

/// What one entry will be: its operands are places in the list of shapes. Equal shapes are one entry.
#[derive(Clone, PartialEq, Eq, Hash)]
struct Shape {
    kind: u32,
    argument: u64,
    operands: Vec<usize>,
    tie: Option<Knot>,
}

/// A tie that can be looked up.
#[derive(Clone, PartialEq, Eq, Hash)]
enum Knot {
    Token(*const ()),
    Name(Arc<str>),
}

#[derive(Default)]
struct Shapes {
    list: Vec<Shape>,
    places: HashMap<Shape, usize>,
    seen: HashMap<*const Tree, usize>,
}

impl Shapes {
    /// The place of a tree's shape. Operands are placed before what they belong to, in a loop, however deep the tree is.
    fn place(&mut self, root: &Arc<Tree>) -> Result<usize, BuildError> {
        let mut open = vec![(root, false)];
        let mut place = 0;
        while let Some((tree, operands_placed)) = open.pop() {
            if let Some(&known) = self.seen.get(&Arc::as_ptr(tree)) {
                place = known;
                continue;
            }
            if let Some(mistake) = &tree.mistake {
                return Err(mistake.clone());
            }
            if !operands_placed {
                open.push((tree, true));
                open.extend(tree.operands.iter().rev().map(|operand| (operand, false)));
                continue;
            }
            let shape = Shape {
                kind: tree.kind,
                argument: tree.argument,
                operands: tree
                    .operands
                    .iter()
                    .filter_map(|operand| self.seen.get(&Arc::as_ptr(operand)).copied())
                    .collect(),
                tie: tree.tie.as_ref().map(|tie| match tie {
                    Tie::Token(token) => Knot::Token(Arc::as_ptr(token)),
                    Tie::Name(name) => Knot::Name(Arc::clone(name)),
                }),
            };
            place = match self.places.get(&shape) {
                Some(&known) => known,
                None => {
                    self.list.push(shape.clone());
                    self.places.insert(shape, self.list.len() - 1);
                    self.list.len() - 1
                }
            };
            self.seen.insert(Arc::as_ptr(tree), place);
        }
        Ok(place)
    }

    /// The places in an order in which each stands before its operands, the roots' order kept.
    fn order(&self, roots: &[usize]) -> Vec<usize> {
        let mut users = vec![0_usize; self.list.len()];
        for &operand in self.list.iter().flat_map(|shape| &shape.operands) {
            users[operand] += 1;
        }
        let mut ready: VecDeque<usize> = VecDeque::new();
        for &root in roots {
            if users[root] == 0 && !ready.contains(&root) {
                ready.push_back(root);
            }
        }
        let mut order = vec![];
        while let Some(place) = ready.pop_front() {
            order.push(place);
            for &operand in &self.list[place].operands {
                users[operand] -= 1;
                if users[operand] == 0 {
                    ready.push_back(operand);
                }
            }
        }
        order
    }
}

fn layout(
    roots: &[(Option<&str>, &Strategy)],
    signature: Option<&Signature>,
) -> Result<Table, BuildError> {
    let mut shapes = Shapes::default();
    let mut places = vec![];
    for (_, strategy) in roots {
        places.push(shapes.place(&strategy.0)?);
    }
    if shapes.list.is_empty() {
        return Err(BuildError::NoStrategy);
    }
    if shapes.list.len() > ENTRIES {
        return Err(BuildError::TooManyEntries(shapes.list.len()));
    }
    if let Some(signature) = signature {
        let named = |shape: &&Shape| matches!(shape.kind, CONG | PCON);
        for shape in shapes.list.iter().filter(named) {
            // Both take a `u16` as their constructor.
            signature.obeyed(shape.argument as u16, shape.operands.len())?;
        }
    }
    let order = shapes.order(&places);
    let mut numbers = vec![0; shapes.list.len()];
    let mut recs = HashMap::new();
    for (number, &place) in (0_u32..).zip(&order) {
        numbers[place] = number;
        let shape = &shapes.list[place];
        if let (REC, Some(knot)) = (shape.kind, &shape.tie) {
            recs.insert(knot, number);
        }
    }
    let mut names = BTreeMap::new();
    for ((name, _), &place) in roots.iter().zip(&places) {
        if let Some(name) = name {
            if names
                .insert((*name).to_owned(), Entry(numbers[place]))
                .is_some()
            {
                return Err(BuildError::NameTwice((*name).to_owned()));
            }
        }
    }
    let mut words = Vec::with_capacity(8 * order.len());
    for &place in &order {
        let shape = &shapes.list[place];
        let mut operands: Vec<u32> = shape.operands.iter().map(|&o| numbers[o]).collect();
        if let (CALL, Some(knot)) = (shape.kind, &shape.tie) {
            operands.push(match (recs.get(knot), knot) {
                (Some(&rec), _) => rec,
                (None, Knot::Name(name)) => return Err(BuildError::UnknownName(name.to_string())),
                (None, Knot::Token(_)) => return Err(BuildError::CallOutsideRec),
            });
        }
        let mut row = [0; 8];
        let from = kind::operands_from(shape.kind);
        row[0] = 16 * shape.kind + operands.len() as u32;
        row[1] = shape.argument as u32;
        if from == 3 {
            row[2] = (shape.argument >> 32) as u32;
        }
        row[from..from + operands.len()].copy_from_slice(&operands);
        words.extend(row);
    }
    Ok(Table { words, names })
}
