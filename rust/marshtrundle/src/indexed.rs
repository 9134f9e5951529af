//! One node for one term: runs in a store that lends an index behind its words.
use crate::answer::{Answer, Outcome};
use crate::archive;
use crate::bindings::Bindings;
use crate::many::{listed, Outcomes};
use crate::signature::Signature;
use crate::store::{Node, Store};
use crate::table::{Entry, Table};

/// Runs as [`run`](crate::run) does, with an index that the store lends by itself: a node that stands below the mark with the same
/// words is not made again. Two terms of the store are then equal exactly when their nodes are.
///
/// Where [`run`](crate::run) is done, fails, or is cut off by units, by nesting or at an unbound variable, this does the same, with
/// equal terms, bindings and units, and the mark is never higher. Where it is cut off by room this may go further. A store in which
/// two nodes below the mark have the same words is refused with [`Answer::TwinNode`]. A signature may be given.
///
/// ```
/// # fn main() -> Result<(), Box<dyn std::error::Error>> {
/// use marshtrundle::strategy::*;
/// use marshtrundle::{run, run_indexed, Bindings, Entry, Store, Table};
/// let mut store = Store::new();
/// let leaf = store.node(1, &[])?;
/// let pair = store.node(2, &[leaf, leaf])?;
/// store.room(10)?;
/// // Rebuilds a pair of two new leaves: three nodes in the plain store, and none with an index.
/// let table = Table::of(&build(con(2, [con(1, []), con(1, [])])))?;
/// let mut plain = store.clone();
/// run(&table, &mut plain, &mut Bindings::new(), Entry::FIRST, pair, 100);
/// assert_eq!(plain.mark(), 5);
/// let end = run_indexed(&table, &mut store, &mut Bindings::new(), None, Entry::FIRST, pair, 100);
/// assert_eq!((end.subject, store.mark()), (pair, 2));
/// # Ok(())
/// # }
/// ```
pub fn run_indexed(
    table: &Table,
    store: &mut Store,
    bindings: &mut Bindings,
    signature: Option<&Signature>,
    start: Entry,
    subject: Node,
    units: u32,
) -> Outcome {
    store.lend_indexed(|lent, words, mark| {
        let outcome = Outcome::told(archive::run_indexed(
            table.words(),
            lent,
            words,
            bindings.words_mut(),
            *mark,
            start.number(),
            subject.number(),
            units,
            signature.map(Signature::words),
        ));
        *mark = outcome.mark;
        outcome
    })
}

/// Runs as [`run_many`](crate::run_many) does, with an index as [`run_indexed`]'s, which is built once and cleared once.
pub fn run_many_indexed(
    table: &Table,
    store: &mut Store,
    bindings: &Bindings,
    signature: Option<&Signature>,
    start: Entry,
    subjects: &[Node],
    units: u32,
) -> Result<Outcomes, Answer> {
    store.lend_indexed(|lent, words, mark| {
        listed(subjects, mark, |mark, subjects, results| {
            archive::run_many_indexed(
                table.words(),
                lent,
                words,
                bindings.words(),
                mark,
                start.number(),
                subjects,
                units,
                results,
                signature.map(Signature::words),
            )
        })
    })
}
