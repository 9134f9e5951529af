//! A run that can be set aside: it is made in steps of so many visits, and holds its pending work in a work list.
use crate::answer::{Answer, Outcome};
use crate::archive;
use crate::bindings::Bindings;
use crate::signature::Signature;
use crate::store::{Node, Store};
use crate::table::{Entry, Table};
use crate::NESTING;
use std::fmt;

/// The words of a work list: 80 for each of 4,096 levels.
pub const WORK_WORDS: usize = 80 * NESTING as usize;

/// Memory for a run in steps: 1.25 MiB. One list serves any number of runs, one after the other.
#[derive(Clone)]
pub struct WorkList {
    words: Vec<u32>,
}

impl WorkList {
    /// A work list.
    pub fn new() -> WorkList {
        WorkList {
            words: vec![0; WORK_WORDS],
        }
    }
}

impl Default for WorkList {
    fn default() -> WorkList {
        WorkList::new()
    }
}

impl fmt::Debug for WorkList {
    fn fmt(&self, f: &mut fmt::Formatter<'_>) -> fmt::Result {
        f.debug_struct("WorkList").finish_non_exhaustive()
    }
}

/// A run that is set aside. It borrows the table, the store, the bindings and the work list that it works on, so that nobody touches
/// them between two steps. [`step`](Stepper::step) takes it, and gives it back while the run goes on.
///
/// Stepped to its end, by whatever numbers of visits, it gives what [`run`](crate::run) gives, and leaves the same store and bindings.
/// A step takes 64 KiB of stack at most, however deep the run is nested. A run that is dropped before its end leaves the store's nodes
/// and the bindings as they were.
///
/// ```
/// # fn main() -> Result<(), Box<dyn std::error::Error>> {
/// use marshtrundle::strategy::*;
/// use marshtrundle::{Bindings, Entry, Step, Stepper, Store, Table, WorkList};
/// let mut store = Store::new();
/// let one = store.node(1, &[])?;
/// let pair = store.node(5, &[one, one])?;
/// store.room(100)?;
/// let table = Table::of(&all(rule(con(1, []), con(2, []))))?;
/// let (mut bindings, mut work) = (Bindings::new(), WorkList::new());
/// let mut run = Stepper::start(&table, &mut store, &mut bindings, &mut work, Entry::FIRST, pair, 1_000)?;
/// let mut steps = 0;
/// let end = loop {
///     steps += 1;
///     match run.step(5) {
///         Step::Unfinished(rest) => run = rest, // here a window may be drawn
///         Step::Ended(end) => break end,
///     }
/// };
/// assert_eq!((steps, end.units), (3, 13));
/// let new = end.done()?;
/// assert_eq!(store.term(new).ok_or("no term")?.to_string(), "5(2, 2)");
/// # Ok(())
/// # }
/// ```
#[derive(Debug)]
#[must_use]
pub struct Stepper<'a> {
    table: &'a Table,
    store: &'a mut Store,
    bindings: &'a mut Bindings,
    work: &'a mut WorkList,
    units: u32,
    used: u32,
}

/// What a step comes to.
#[derive(Debug)]
#[must_use]
pub enum Step<'a> {
    /// The run goes on: it is set aside before its next visit.
    Unfinished(Stepper<'a>),
    /// The run has ended, with the outcome that [`run`](crate::run) has.
    Ended(Outcome),
}

impl<'a> Stepper<'a> {
    /// Starts a run of the strategy at `start` on `subject`, with at most `units` visits. It checks as [`run`](crate::run) does, and
    /// makes no visit. A refusal is the error, and writes nothing.
    pub fn start(
        table: &'a Table,
        store: &'a mut Store,
        bindings: &'a mut Bindings,
        work: &'a mut WorkList,
        start: Entry,
        subject: Node,
        units: u32,
    ) -> Result<Stepper<'a>, Answer> {
        let mark = store.mark();
        let numbers = archive::start(
            table.words(),
            store.words(),
            bindings.words(),
            &mut work.words,
            mark,
            start.number(),
            subject.number(),
            units,
        );
        started(numbers, table, store, bindings, work, units)
    }

    /// Starts as [`start`](Stepper::start) does, with a signature, which is asked as [`run_signed`](crate::run_signed) asks it.
    #[allow(clippy::too_many_arguments)]
    pub fn start_signed(
        table: &'a Table,
        store: &'a mut Store,
        bindings: &'a mut Bindings,
        work: &'a mut WorkList,
        signature: &Signature,
        start: Entry,
        subject: Node,
        units: u32,
    ) -> Result<Stepper<'a>, Answer> {
        let mark = store.mark();
        let numbers = archive::start_signed(
            table.words(),
            store.words(),
            bindings.words(),
            &mut work.words,
            mark,
            start.number(),
            subject.number(),
            units,
            signature.words(),
        );
        started(numbers, table, store, bindings, work, units)
    }

    /// Makes so many visits and what follows the last of them, up to the next one's limit test; or fewer, where the run ends. A step of
    /// no visits does nothing.
    pub fn step(mut self, visits: u32) -> Step<'a> {
        let (words, mark) = self.store.parts();
        let numbers = archive::step(
            self.table.words(),
            words,
            self.bindings.words_mut(),
            &mut self.work.words,
            visits,
        );
        let outcome = Outcome::told(numbers);
        if outcome.answer == Answer::Unfinished {
            self.used = outcome.units;
            return Step::Unfinished(self);
        }
        *mark = outcome.mark;
        Step::Ended(outcome)
    }

    /// Steps to the end of the run, so many visits at a time. Before each step but the first `between` is told the visits made so far. Steps of
    /// no visits would never end: they are taken for steps of one.
    pub fn finish(self, visits: u32, mut between: impl FnMut(u32)) -> Outcome {
        let mut run = self;
        loop {
            match run.step(visits.max(1)) {
                Step::Unfinished(rest) => run = rest,
                Step::Ended(end) => return end,
            }
            between(run.used);
        }
    }

    /// The visits made so far.
    pub fn units_used(&self) -> u32 {
        self.used
    }

    /// The most visits that the run may make.
    pub fn units(&self) -> u32 {
        self.units
    }
}

/// The run that a start call's numbers begin, or its refusal.
fn started<'a>(
    numbers: [u32; 5],
    table: &'a Table,
    store: &'a mut Store,
    bindings: &'a mut Bindings,
    work: &'a mut WorkList,
    units: u32,
) -> Result<Stepper<'a>, Answer> {
    match Answer::told(numbers[0], numbers[1]) {
        Answer::Unfinished => Ok(Stepper {
            table,
            store,
            bindings,
            work,
            units,
            used: 0,
        }),
        refusal => Err(refusal),
    }
}
