//! One strategy on many subjects in one call, and their outcomes.
use crate::answer::{Answer, Outcome};
use crate::archive;
use crate::bindings::Bindings;
use crate::signature::Signature;
use crate::store::{Node, Store};
use crate::table::{Entry, Table};
use std::iter::FusedIterator;

/// Runs the strategy at `start` on each subject in turn, each with at most `units` visits. The outcome is that of single calls of
/// [`run`](crate::run), with table and store checked once.
///
/// Each subject begins with the bindings given, its own full units and the mark left by the one before. A subject that fails or
/// is cut off does not stop the rest, and the nodes that it made are gone. The bindings stay as given. The store's mark is then
/// that of the last subject.
///
/// A call that is refused runs no subject and writes nothing: the answer is one of those for which
/// [`Answer::is_refusal`] holds. A subject that is not below the mark at the call is refused with [`Answer::BadStart`],
/// whatever nodes those before it would make. With no subjects the call is refused as any other; where it is not, it writes
/// nothing.
///
/// A long list may be cut in batches, with something done between them: the outcomes are the same.
///
/// ```
/// # fn main() -> Result<(), Box<dyn std::error::Error>> {
/// use marshtrundle::strategy::*;
/// use marshtrundle::{run_many, Bindings, Entry, Store, Table};
/// let mut store = Store::new();
/// let subjects = [store.node(1, &[])?, store.node(2, &[])?, store.node(1, &[])?];
/// store.room(10)?;
/// let table = Table::of(&rule(con(1, []), con(3, [])))?;
/// let outcomes = run_many(&table, &mut store, &Bindings::new(), Entry::FIRST, &subjects, 100)?;
/// let answers: Vec<u32> = outcomes.map(|outcome| outcome.answer.number()).collect();
/// assert_eq!(answers, [0, 1, 0]); // done, failed, done
/// assert_eq!(store.mark(), 5);
/// # Ok(())
/// # }
/// ```
pub fn run_many(
    table: &Table,
    store: &mut Store,
    bindings: &Bindings,
    start: Entry,
    subjects: &[Node],
    units: u32,
) -> Result<Outcomes, Answer> {
    call(store, subjects, |words, mark, subjects, results| {
        archive::run_many(
            table.words(),
            words,
            bindings.words(),
            mark,
            start.number(),
            subjects,
            units,
            results,
        )
    })
}

/// Runs as [`run_many`] does, with a signature, which is asked of the table and the store once, as
/// [`run_signed`](crate::run_signed) asks it.
pub fn run_many_signed(
    table: &Table,
    store: &mut Store,
    bindings: &Bindings,
    signature: &Signature,
    start: Entry,
    subjects: &[Node],
    units: u32,
) -> Result<Outcomes, Answer> {
    call(store, subjects, |words, mark, subjects, results| {
        archive::run_many_signed(
            table.words(),
            words,
            bindings.words(),
            mark,
            start.number(),
            subjects,
            units,
            results,
            signature.words(),
        )
    })
}

/// Makes a call on the store's words, its mark, the subjects' numbers and a result list. The store gets the last mark.
fn call(
    store: &mut Store,
    subjects: &[Node],
    work: impl FnOnce(&mut [u32], u32, &[u32], &mut [u32]) -> [u32; 2],
) -> Result<Outcomes, Answer> {
    let (words, mark) = store.parts();
    listed(subjects, mark, |mark, subjects, results| {
        work(words, mark, subjects, results)
    })
}

/// Makes a call with the subjects' numbers and a result list. The mark becomes the last one.
pub(crate) fn listed(
    subjects: &[Node],
    mark: &mut u32,
    work: impl FnOnce(u32, &[u32], &mut [u32]) -> [u32; 2],
) -> Result<Outcomes, Answer> {
    let subjects: Vec<u32> = subjects.iter().map(|node| node.number()).collect();
    let mut results = vec![0; 5 * subjects.len()];
    Answer::checked(work(*mark, &subjects, &mut results))?;
    let outcomes = Outcomes {
        results: results.into_iter(),
    };
    *mark = outcomes.mark().unwrap_or(*mark);
    Ok(outcomes)
}

/// The outcomes of a call of [`run_many`], in the order of the subjects. All subjects have been run when it is made.
#[derive(Clone, Debug)]
pub struct Outcomes {
    /// Five words for each outcome that is still to be given.
    results: std::vec::IntoIter<u32>,
}

impl Outcomes {
    /// The mark that the last subject left: the fourth number of the last five.
    fn mark(&self) -> Option<u32> {
        self.results.as_slice().iter().nth_back(1).copied()
    }
}

impl Iterator for Outcomes {
    type Item = Outcome;

    fn next(&mut self) -> Option<Outcome> {
        let mut numbers = [0; 5];
        for word in &mut numbers {
            *word = self.results.next()?;
        }
        Some(Outcome::told(numbers))
    }

    fn size_hint(&self) -> (usize, Option<usize>) {
        let left = self.results.len() / 5;
        (left, Some(left))
    }
}

impl ExactSizeIterator for Outcomes {}
impl FusedIterator for Outcomes {}
