//! 02, wish 8: a run that can be set aside.
//!
//! Between two steps this implementation keeps only what the start was given, and
//! the visits done. A step runs the whole beginning again and goes on from there:
//! slow, but plainly the same run. That works because a run leaves the nodes below
//! the given mark and the given bindings alone until it is done, and does not look
//! at words above the mark.

use crate::checks::{
    bad_store_length, bad_table_length, BAD_LENGTH, NO_RUN, UNFINISHED, VARIABLES,
};
use crate::engine::{run_paused, Outcome};
use crate::refusals::{bad_work, refusal, Input};

/// The words of the work list that are used here: a word that is not zero, the
/// mark, the start, the subject, the units and the visits done.
const KEPT: usize = 6;

/// Five numbers of which all but the answer are zero.
fn answer_alone(answer: u32) -> Outcome {
    Outcome {
        answer,
        place: 0,
        subject: 0,
        mark: 0,
        units: 0,
    }
}

/// Starts a run: checks, and sets it aside before its first visit.
///
/// 02: "A start call checks and answers 25, units 0." The work list may hold
/// anything; refused, nothing is written.
#[allow(clippy::too_many_arguments)]
pub fn start_run(
    table: &[u32],
    store: &mut [u32],
    bindings: &mut [u32],
    mark: u32,
    start: u32,
    subject: u32,
    units: u32,
    signature: Option<&[u32]>,
    work: &mut [u32],
) -> Outcome {
    let refused = refusal(&Input {
        table,
        store,
        bindings,
        mark,
        start,
        subjects: &[subject],
        signature,
        index: None,
        counts: None,
        results: None,
        work: Some(work.len()),
    });
    let (answer, place) = refused.unwrap_or((UNFINISHED, 0));
    if refused.is_none() {
        work.fill(0);
        work[..KEPT].copy_from_slice(&[1, mark, start, subject, units, 0]);
    }
    Outcome {
        answer,
        place,
        subject,
        mark,
        units: 0,
    }
}

/// Does so many visits of a run that was started, or fewer if it ends.
///
/// 02: "A step call does the stated number of visits and what follows up to the
/// next one's limit test, or fewer if the run ends". The readings: lengths that
/// the start would refuse give 2 first, and its other numbers are 0, for a step is
/// given no subject and no mark; a work list of zeros gives 27.
pub fn step_run(
    table: &[u32],
    store: &mut [u32],
    bindings: &mut [u32],
    visits: u32,
    work: &mut [u32],
) -> Outcome {
    if bad_table_length(table)
        || bad_store_length(store, 0)
        || bindings.len() != VARIABLES
        || bad_work(work.len())
    {
        return answer_alone(BAD_LENGTH);
    }
    // 02: "a step on a zero one gives 27 with zeros, writing nothing."
    if work.iter().all(|&word| word == 0) {
        return answer_alone(NO_RUN);
    }
    let (mark, start, subject, units, done) = (work[1], work[2], work[3], work[4], work[5]);
    // 02: "That nobody touches the memory between steps is a stated premise;
    // without it a step call still ends": with a refusal, or by running what is
    // there now.
    let refused = refusal(&Input {
        table,
        store,
        bindings,
        mark,
        start,
        subjects: &[subject],
        signature: None,
        index: None,
        counts: None,
        results: None,
        work: Some(work.len()),
    });
    if let Some((answer, _)) = refused {
        return answer_alone(answer);
    }
    let pause = u64::from(done) + u64::from(visits);
    let outcome = run_paused(
        table,
        store,
        bindings,
        mark,
        start,
        subject,
        units,
        pause,
        false,
        &mut (),
    );
    if outcome.answer == UNFINISHED {
        work[5] = outcome.units;
    } else {
        // 02: "and the work list is zero."
        work.fill(0);
    }
    outcome
}
