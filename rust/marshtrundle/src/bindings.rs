//! Variables, sets of them, and what they are bound to.
use crate::store::Node;
use std::fmt;

/// A variable: one of 64. They are got from [`VARS`], or by number from [`Var::new`].
#[derive(Clone, Copy, Debug, PartialEq, Eq, Hash, PartialOrd, Ord)]
pub struct Var(u8);

impl Var {
    /// Variable `number`, if it is below 64.
    pub fn new(number: u32) -> Option<Var> {
        VARS.get(usize::try_from(number).ok()?).copied()
    }

    /// The variable's number, 0 to 63.
    pub fn number(self) -> u32 {
        u32::from(self.0)
    }
}

/// How many variables there are.
pub const VARIABLES: usize = 64;

/// All 64 variables. Name the ones that you use by taking the array apart:
///
/// ```
/// use marshtrundle::VARS;
/// let [x, y, ..] = VARS;
/// assert_eq!((x.number(), y.number()), (0, 1));
/// ```
pub const VARS: [Var; VARIABLES] = {
    let mut vars = [Var(0); VARIABLES];
    let mut v = 0;
    while v < VARIABLES {
        vars[v] = Var(v as u8);
        v += 1;
    }
    vars
};

/// A set of variables: bit v of its mask is set where variable v is in it.
#[derive(Clone, Copy, Default, PartialEq, Eq, Hash)]
pub struct VarSet(u64);

impl VarSet {
    /// The set with this mask. Every mask is a set.
    pub fn from_mask(mask: u64) -> VarSet {
        VarSet(mask)
    }

    /// The set's mask.
    pub fn mask(self) -> u64 {
        self.0
    }

    /// True if the set has the variable.
    pub fn contains(self, var: Var) -> bool {
        self.0 >> var.0 & 1 == 1
    }

    /// True if the set has no variable.
    pub fn is_empty(self) -> bool {
        self.0 == 0
    }

    /// The variables of both sets.
    pub fn union(self, other: VarSet) -> VarSet {
        VarSet(self.0 | other.0)
    }

    /// The variables, rising.
    pub fn iter(self) -> impl Iterator<Item = Var> {
        VARS.into_iter().filter(move |&var| self.contains(var))
    }
}

impl FromIterator<Var> for VarSet {
    fn from_iter<I: IntoIterator<Item = Var>>(vars: I) -> VarSet {
        VarSet(vars.into_iter().fold(0, |mask, var| mask | 1 << var.0))
    }
}

impl fmt::Debug for VarSet {
    fn fmt(&self, f: &mut fmt::Formatter<'_>) -> fmt::Result {
        f.debug_set().entries(self.iter().map(Var::number)).finish()
    }
}

/// What each of the 64 variables is bound to: nothing, or a node of the store.
#[derive(Clone, Debug, PartialEq, Eq)]
pub struct Bindings {
    words: [u32; VARIABLES],
}

impl Default for Bindings {
    fn default() -> Bindings {
        Bindings::new()
    }
}

impl Bindings {
    /// Bindings in which nothing is bound.
    pub fn new() -> Bindings {
        Bindings {
            words: [0; VARIABLES],
        }
    }

    /// The bindings with these words: 0 is unbound, and any other word is a node number plus one.
    pub fn from_words(words: [u32; VARIABLES]) -> Bindings {
        Bindings { words }
    }

    /// The 64 words.
    pub fn words(&self) -> &[u32; VARIABLES] {
        &self.words
    }

    pub(crate) fn words_mut(&mut self) -> &mut [u32; VARIABLES] {
        &mut self.words
    }

    /// The node that the variable is bound to.
    pub fn get(&self, var: Var) -> Option<Node> {
        self.words[usize::from(var.0)]
            .checked_sub(1)
            .map(Node::from_number)
    }

    /// Binds the variable. A run refuses a node that is not below the store's mark (answer 5).
    pub fn bind(&mut self, var: Var, node: Node) {
        self.words[usize::from(var.0)] = node.number().saturating_add(1);
    }

    /// Unbinds the variable.
    pub fn unbind(&mut self, var: Var) {
        self.words[usize::from(var.0)] = 0;
    }

    /// The bound variables.
    pub fn bound(&self) -> VarSet {
        self.iter().map(|(var, _)| var).collect()
    }

    /// The bound variables with their nodes, rising.
    pub fn iter(&self) -> impl Iterator<Item = (Var, Node)> + '_ {
        VARS.into_iter()
            .filter_map(move |var| self.get(var).map(|node| (var, node)))
    }
}
