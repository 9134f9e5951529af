//! 02, wish 1: the same start on each of a list of subjects, in one call.

use crate::checks::DONE;
use crate::engine::{run_accepted, Lent};
use crate::refusals::{refusal, Input};

/// Runs the start on each subject in turn. It gives an answer and a place.
///
/// 02: "Each subject begins with the bindings given to the call, its own full
/// units and the mark left by the one before; a failed or cut-off subject
/// doesn't stop the rest. Five numbers per subject go into a lent list."
///
/// "The call itself returns an answer and a place, 0 and 0 when it ran; with no
/// subjects it then writes nothing": not even zeros above the mark. "A refusal
/// writes nothing", and it is asked for with no subjects too.
#[allow(clippy::too_many_arguments)]
pub fn run_many(
    table: &[u32],
    store: &mut [u32],
    bindings: &[u32],
    mark: u32,
    start: u32,
    subjects: &[u32],
    units: u32,
    results: &mut [u32],
    lent: Lent,
) -> (u32, u32) {
    let refused = refusal(&Input {
        table,
        store,
        bindings,
        mark,
        start,
        subjects,
        signature: lent.signature,
        index: lent.index.as_ref().map(|index| index.len()),
        counts: None,
        results: Some(results.len()),
        work: None,
    });
    if let Some(refusal) = refused {
        return refusal;
    }
    let mut mark = mark;
    for (&subject, five) in subjects.iter().zip(results.chunks_mut(5)) {
        // 02: "Lent bindings stay as given."
        let mut own = bindings.to_vec();
        let shared = lent.index.is_some();
        let outcome = run_accepted(
            table,
            store,
            &mut own,
            mark,
            start,
            subject,
            units,
            shared,
            &mut (),
        );
        // A subject that is not done leaves the mark that it was given.
        mark = outcome.mark;
        five.copy_from_slice(&outcome.numbers());
    }
    // 02, wish 12: "The index is all zero on return from a run." With no subjects
    // there was no run, and nothing is written.
    if let (false, Some(index)) = (subjects.is_empty(), lent.index) {
        index.fill(0);
    }
    (DONE, 0)
}
