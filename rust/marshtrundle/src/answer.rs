//! What comes back from a run, and what a builder refuses.
use crate::bindings::Var;
use crate::fault::Fault;
use crate::store::Node;
use crate::table::Entry;
use crate::ENTRIES;
use std::error::Error;
use std::fmt;

/// How a run ended. The number of each answer is document 01's, and [`Answer::number`] gives it.
#[derive(Clone, Copy, Debug, PartialEq, Eq, Hash)]
pub enum Answer {
    /// 0: the strategy succeeded. The outcome has the new subject and mark; the bindings are the new ones.
    Done,
    /// 1: the strategy failed. This is the pattern's entry at which the last match in the run gave up, caught or not; none where
    /// no match failed. [`Table::missed`](crate::Table::missed) says in which rule it stands. Subject, mark and bindings are as
    /// given.
    Failed(Option<Entry>),
    /// 2: a length or the mark is bad. Nothing was written.
    RefusedSizes,
    /// 13 to 17: this entry is the lowest bad entry of the table, and this is its first fault. Nothing was written.
    /// [`Table::explain`](crate::Table::explain) says which word it is, and what was expected there.
    BadEntry(u32, Fault),
    /// 4: this node is the lowest bad node below the mark. Nothing was written.
    BadNode(u32),
    /// 10: this entry, used or not, is the lowest CONG or PCON whose constructor the signature does not declare with its count.
    /// Nothing was written. [`run_signed`](crate::run_signed) alone gives it.
    DisobeyingEntry(u32),
    /// 11: this node, reachable or not, is the lowest below the mark whose constructor the signature does not declare with its
    /// count. Nothing was written. [`run_signed`](crate::run_signed) alone gives it.
    DisobeyingNode(u32),
    /// 21: this node is the lowest below the mark that has the eight words of an earlier one. Nothing was written.
    /// [`run_indexed`](crate::run_indexed) and its kin alone give it.
    TwinNode(u32),
    /// 24: a count of this entry, the lowest such, is too high to be added to. Nothing was written. [`run_counted`](crate::run_counted) and
    /// [`run_indexed_counted`](crate::run_indexed_counted) alone give it.
    FullCount(u32),
    /// 5: the start is outside the table or a pattern, the subject is not below the mark, or a binding names no node below
    /// the mark. Nothing was written.
    BadStart,
    /// 6: all units were used before the run could end. Subject, mark and bindings are as given.
    OutOfUnits,
    /// 7: a node was to be made and the store was full. Subject, mark and bindings are as given.
    OutOfRoom,
    /// 8: a visit would have been nested deeper than 4,096. Subject, mark and bindings are as given.
    TooDeep,
    /// 12: a BUILD met this variable, and it is unbound. The strategy is wrong, and nothing in it caught that. Subject, mark and
    /// bindings are as given.
    Unbound(Var),
    /// 25: a run in steps goes on, and is set aside before its next visit. Subject and mark are as given. [`words::start`](crate::words::start)
    /// and [`words::step`](crate::words::step) alone give it; a [`Stepper`](crate::Stepper) stands for it.
    Unfinished,
    /// 27: a step on a work list of zeros, which holds no run. Nothing was written. [`words::step`](crate::words::step) alone gives it: a
    /// [`Stepper`](crate::Stepper) has a run.
    NoRun,
}

impl Answer {
    /// The answer for the first two numbers that the archive gives back. Its contracts leave no other answer, so that another
    /// number means an archive that does not go with this crate, and ends the thread.
    pub(crate) fn told(answer: u32, place: u32) -> Answer {
        match answer {
            0 => Answer::Done,
            1 if place as usize == ENTRIES => Answer::Failed(None),
            1 => Answer::Failed(Some(Entry::from_number(place))),
            2 => Answer::RefusedSizes,
            4 => Answer::BadNode(place),
            5 => Answer::BadStart,
            6 => Answer::OutOfUnits,
            7 => Answer::OutOfRoom,
            8 => Answer::TooDeep,
            10 => Answer::DisobeyingEntry(place),
            11 => Answer::DisobeyingNode(place),
            12 => Answer::Unbound(Var::new(place).expect("the archive's place is a variable")),
            13 => Answer::BadEntry(place, Fault::Kind),
            14 => Answer::BadEntry(place, Fault::Argument),
            15 => Answer::BadEntry(place, Fault::Operand),
            16 => Answer::BadEntry(place, Fault::Sort),
            17 => Answer::BadEntry(place, Fault::Word),
            21 => Answer::TwinNode(place),
            24 => Answer::FullCount(place),
            25 => Answer::Unfinished,
            27 => Answer::NoRun,
            other => panic!("the archive answers {other}, which this crate does not know"),
        }
    }

    /// `Ok` for answer 0, and the answer itself otherwise.
    pub(crate) fn checked(numbers: [u32; 2]) -> Result<(), Answer> {
        match Answer::told(numbers[0], numbers[1]) {
            Answer::Done => Ok(()),
            other => Err(other),
        }
    }

    /// The answer's number.
    pub fn number(self) -> u32 {
        match self {
            Answer::Done => 0,
            Answer::Failed(_) => 1,
            Answer::RefusedSizes => 2,
            Answer::BadEntry(_, fault) => fault.number(),
            Answer::BadNode(_) => 4,
            Answer::DisobeyingEntry(_) => 10,
            Answer::DisobeyingNode(_) => 11,
            Answer::TwinNode(_) => 21,
            Answer::FullCount(_) => 24,
            Answer::BadStart => 5,
            Answer::OutOfUnits => 6,
            Answer::OutOfRoom => 7,
            Answer::TooDeep => 8,
            Answer::Unbound(_) => 12,
            Answer::Unfinished => 25,
            Answer::NoRun => 27,
        }
    }

    /// The number of the bad entry, of the bad node or of the unbound variable; of a failed run that of the pattern at which the last
    /// match gave up, or 4,096; and 0 in all other answers.
    pub fn place(self) -> u32 {
        match self {
            Answer::BadEntry(place, _)
            | Answer::BadNode(place)
            | Answer::DisobeyingEntry(place)
            | Answer::DisobeyingNode(place)
            | Answer::TwinNode(place)
            | Answer::FullCount(place) => place,
            Answer::Unbound(var) => var.number(),
            Answer::Failed(miss) => miss.map_or(ENTRIES as u32, Entry::number),
            Answer::Done
            | Answer::RefusedSizes
            | Answer::BadStart
            | Answer::OutOfUnits
            | Answer::OutOfRoom
            | Answer::TooDeep
            | Answer::Unfinished
            | Answer::NoRun => 0,
        }
    }

    /// True for answers 2, 4, 5, 10, 11, 13 to 17, 21, 24 and 27: the input is malformed, or there is no run to step, and nothing was run.
    pub fn is_refusal(self) -> bool {
        matches!(
            self,
            Answer::RefusedSizes
                | Answer::BadEntry(..)
                | Answer::BadNode(_)
                | Answer::DisobeyingEntry(_)
                | Answer::DisobeyingNode(_)
                | Answer::TwinNode(_)
                | Answer::FullCount(_)
                | Answer::BadStart
                | Answer::NoRun
        )
    }

    /// True for answers 6, 7, 8 and 12: a limit was met, or a variable that was to be built is unbound. No strategy catches it.
    pub fn is_cut_off(self) -> bool {
        matches!(
            self,
            Answer::OutOfUnits | Answer::OutOfRoom | Answer::TooDeep | Answer::Unbound(_)
        )
    }
}

impl fmt::Display for Answer {
    fn fmt(&self, f: &mut fmt::Formatter<'_>) -> fmt::Result {
        match self {
            Answer::Done => f.write_str("done"),
            Answer::Failed(None) => f.write_str("failed"),
            Answer::Failed(Some(entry)) => write!(
                f,
                "failed: the last match gave up at entry {}",
                entry.number()
            ),
            Answer::RefusedSizes => f.write_str("a length or the mark is bad"),
            Answer::BadEntry(e, fault) => write!(f, "entry {e} is bad: {fault}"),
            Answer::BadNode(k) => write!(f, "node {k} is bad"),
            Answer::DisobeyingEntry(e) => write!(f, "entry {e} does not obey the signature"),
            Answer::DisobeyingNode(k) => write!(f, "node {k} does not obey the signature"),
            Answer::TwinNode(k) => write!(f, "node {k} has the words of an earlier node"),
            Answer::FullCount(e) => write!(f, "a count of entry {e} is too high to be added to"),
            Answer::BadStart => f.write_str("the start, the subject or a binding is bad"),
            Answer::OutOfUnits => f.write_str("all units are used"),
            Answer::OutOfRoom => f.write_str("the store has no room"),
            Answer::TooDeep => f.write_str("a visit is nested too deep"),
            Answer::Unbound(var) => write!(f, "variable {} is built and unbound", var.number()),
            Answer::Unfinished => f.write_str("the run is set aside"),
            Answer::NoRun => f.write_str("the work list holds no run"),
        }
    }
}

impl Error for Answer {}

/// What a run gives back.
#[derive(Clone, Copy, Debug, PartialEq, Eq)]
#[must_use]
pub struct Outcome {
    /// How the run ended.
    pub answer: Answer,
    /// The new subject if the run is done, and the given one otherwise.
    pub subject: Node,
    /// The new mark if the run is done, and the given one otherwise.
    pub mark: u32,
    /// The visits that were counted. 0 where the input was refused.
    pub units: u32,
}

/// Why a table or a store could not be built.
#[derive(Clone, Debug, PartialEq, Eq)]
#[non_exhaustive]
pub enum BuildError {
    /// The table has no strategy.
    NoStrategy,
    /// The table would have this many entries; 4,096 are allowed.
    TooManyEntries(usize),
    /// A congruence or a pattern has this many operands; 6 are allowed.
    TooManyOperands(usize),
    /// A child position is not 1 to 6.
    NoSuchPosition(u32),
    /// Two strategies of the table have this name.
    NameTwice(String),
    /// A call names this strategy, and the table does not define it.
    UnknownName(String),
    /// A call was taken out of the `rec` that it belongs to, and the table does not have that `rec`.
    CallOutsideRec,
    /// A rule builds this variable, and neither its left side nor a condition before it binds it.
    NothingBinds(Var),
    /// A node has this many children; 6 are allowed.
    TooManyChildren(usize),
    /// A child is not in the store.
    NoSuchChild(Node),
    /// The store would have this many nodes; 131,072 are allowed.
    TooManyNodes(usize),
    /// A constructor is written with this many children, and it is declared with another count, or not at all.
    WrongCount {
        /// The constructor.
        constructor: u16,
        /// The children or operands that it is written with.
        count: usize,
        /// The count that it is declared with, if it is declared.
        declared: Option<usize>,
    },
    /// A constructor is declared a second time with another count.
    DeclaredTwice(u16),
}

impl fmt::Display for BuildError {
    fn fmt(&self, f: &mut fmt::Formatter<'_>) -> fmt::Result {
        match self {
            BuildError::NoStrategy => f.write_str("the table has no strategy"),
            BuildError::TooManyEntries(n) => write!(f, "{n} entries; at most 4096 are allowed"),
            BuildError::TooManyOperands(n) => write!(f, "{n} operands; at most 6 are allowed"),
            BuildError::NoSuchPosition(i) => write!(f, "child position {i} is not 1 to 6"),
            BuildError::NameTwice(name) => write!(f, "two strategies are named '{name}'"),
            BuildError::UnknownName(name) => write!(f, "no strategy is defined as '{name}'"),
            BuildError::CallOutsideRec => f.write_str("a call stands outside its rec"),
            BuildError::NothingBinds(var) => {
                write!(
                    f,
                    "a rule builds variable {}, and nothing binds it",
                    var.number()
                )
            }
            BuildError::TooManyChildren(n) => write!(f, "{n} children; at most 6 are allowed"),
            BuildError::NoSuchChild(node) => write!(f, "node {} is not there", node.number()),
            BuildError::TooManyNodes(n) => write!(f, "{n} nodes; at most 131072 are allowed"),
            BuildError::WrongCount {
                constructor,
                count,
                declared: Some(declared),
            } => write!(
                f,
                "constructor {constructor} with {count} children; it is declared with {declared}"
            ),
            BuildError::WrongCount {
                constructor,
                count,
                declared: None,
            } => write!(
                f,
                "constructor {constructor} with {count} children; it is not declared"
            ),
            BuildError::DeclaredTwice(c) => {
                write!(f, "constructor {c} is declared with two counts")
            }
        }
    }
}

impl Error for BuildError {}

#[cfg(test)]
mod tests {
    use super::Answer;

    #[test]
    fn every_answer_has_its_own_number() {
        for number in (0..=2).chain(4..=8).chain(10..=17).chain([21, 24, 25, 27]) {
            assert_eq!(Answer::told(number, 0).number(), number);
        }
    }

    #[test]
    fn no_other_number_is_an_answer() {
        for number in [3, 9, 18, 23, 26, 28, u32::MAX] {
            assert!(std::panic::catch_unwind(|| Answer::told(number, 0)).is_err());
        }
    }
}
