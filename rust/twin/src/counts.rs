//! 02, wish 13: where the units go.

use crate::checks::kind;
use crate::engine::{run_indexed, Lent, Outcome, Sight, Watcher, Way};
use crate::refusals::{refusal, Input, COUNTS};

/// The outcome of a counted run, and the two numbers that it returns besides.
#[derive(Clone, Copy, Debug, PartialEq, Eq)]
pub struct Counted {
    /// The five numbers.
    pub outcome: Outcome,
    /// 02: "pattern visits"; 0 for a refusal.
    pub patterns: u32,
    /// 02: "pair visits"; 0 for a refusal.
    pub pairs: u32,
}

/// Adds to the counts while a run goes.
struct Tally<'a> {
    counts: &'a mut [u64],
    patterns: u32,
    pairs: u32,
}

impl Watcher for Tally<'_> {
    fn visited(&mut self, kind: u32, _nesting: u32) {
        self.patterns += u32::from(matches!(kind, kind::PVAR | kind::PCON));
    }

    fn compared(&mut self, _nesting: u32) {
        self.pairs += 1;
    }

    fn applied(&mut self, entry: u32, _term: u32, _sight: Sight<'_>) {
        self.counts[COUNTS * entry as usize] += 1;
    }

    /// A visit refused by 6 or 8 was not applied; the one that asked for it is
    /// in flight. So are the open visits of a run that ends in 7 or 12.
    fn ended(&mut self, entry: u32, way: Way, _sight: Sight<'_>) {
        let word = match way {
            Way::Success(_) => 1,
            Way::Failure => 2,
            Way::InFlight => 3,
        };
        self.counts[COUNTS * entry as usize + word] += 1;
    }
}

/// Runs as [`crate::run_lent`] does and counts.
///
/// 02: "A run adds to the lent entry counts and returns the other two; a refused
/// run adds nothing and has them 0."
#[allow(clippy::too_many_arguments)]
pub fn run_counted(
    table: &[u32],
    store: &mut [u32],
    bindings: &mut [u32],
    mark: u32,
    start: u32,
    subject: u32,
    units: u32,
    lent: Lent,
    counts: &mut [u64],
) -> Counted {
    let refused = refusal(&Input {
        table,
        store,
        bindings,
        mark,
        start,
        subjects: &[subject],
        signature: lent.signature,
        index: lent.index.as_ref().map(|index| index.len()),
        counts: Some(counts),
        results: None,
        work: None,
    });
    if let Some((answer, place)) = refused {
        let outcome = Outcome {
            answer,
            place,
            subject,
            mark,
            units: 0,
        };
        return Counted {
            outcome,
            patterns: 0,
            pairs: 0,
        };
    }
    let mut tally = Tally {
        counts,
        patterns: 0,
        pairs: 0,
    };
    let index = lent.index;
    let outcome = run_indexed(
        table, store, bindings, mark, start, subject, units, index, &mut tally,
    );
    Counted {
        outcome,
        patterns: tally.patterns,
        pairs: tally.pairs,
    }
}
