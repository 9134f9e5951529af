//! What refuses a call, asked in its order.
//!
//! Every call that runs a strategy asks the same questions. What a caller may
//! lend besides table, store and bindings adds a question where it is lent.

use crate::checks::{
    bad_signature, bad_store_length, bad_table_length, kind_of, lowest_bad_entry, lowest_bad_node,
    lowest_disobeying_entry, lowest_disobeying_node, lowest_repeated_node, sort_of, Sort,
    BAD_LENGTH, BAD_NODE, BAD_START, FULL_COUNT, REPEATED_NODE, SIGNED_ENTRY, SIGNED_NODE,
    VARIABLES, WIDTH,
};

/// The count words of an entry. 02, wish 13: "Per table entry, in this order:
/// visits as a strategy, successes, failures, and visits in flight at a cut-off".
pub const COUNTS: usize = 4;

/// The greatest count word that a run may be lent.
pub const MOST_COUNT: u64 = 18_446_744_069_414_584_320;

/// What is looked at before anything is written.
pub struct Input<'a> {
    /// The table's words.
    pub table: &'a [u32],
    /// The store's words.
    pub store: &'a [u32],
    /// The bindings' words.
    pub bindings: &'a [u32],
    /// The mark.
    pub mark: u32,
    /// The start.
    pub start: u32,
    /// The subjects.
    pub subjects: &'a [u32],
    /// The signature, where one is lent. An empty one is lent too.
    pub signature: Option<&'a [u32]>,
    /// The length of the index, where one is lent.
    pub index: Option<usize>,
    /// The counts, where they are lent.
    pub counts: Option<&'a [u64]>,
    /// The length of the result list, for the call with many subjects.
    pub results: Option<usize>,
    /// The length of the work list, for the start of a stepped run.
    pub work: Option<usize>,
}

/// Whether a length, the mark or a count word of the signature is bad.
///
/// 02, wish 9: "2 for bindings that aren't 64 words". 02: the result list comes "after 01's
/// sizes" (wish 1) and the signature is "last among the sizes" (wish 2). The
/// order among the sizes cannot be seen: all of them give 2 and 0.
fn bad_sizes(input: &Input) -> bool {
    bad_table_length(input.table)
        || bad_store_length(input.store, input.mark)
        || input.bindings.len() != VARIABLES
        || input
            .results
            .map_or(false, |words| bad_results(input, words))
        || input.signature.map_or(false, bad_signature)
        || input.work.map_or(false, bad_work)
        || input.index.map_or(false, |words| bad_index(input, words))
        || input.counts.map_or(false, |words| bad_counts(input, words))
}

/// Whether a count list has the wrong length.
///
/// 02, wish 13: "a count list that doesn't have four 64-bit words per entry gives
/// 2". A pattern entry has its four words too.
fn bad_counts(input: &Input, words: &[u64]) -> bool {
    words.len() != COUNTS * (input.table.len() / WIDTH)
}

/// The lowest entry with a count word to which a run might not be able to add.
///
/// 02, wish 13: "a count word above 18,446,744,069,414,584,320 gives 24 with the
/// lowest such entry".
fn lowest_full_count(counts: &[u64]) -> Option<u32> {
    counts
        .chunks(COUNTS)
        .position(|four| four.iter().any(|&word| word > MOST_COUNT))
        .map(|entry| entry as u32)
}

/// Whether the work list of a stepped run is too short.
///
/// 02, wish 8: "a work list shorter than 48 words for each of 4,096 levels gives
/// 2"; wish 9: it "takes 80 words a level".
pub fn bad_work(words: usize) -> bool {
    words < 80 * 4_096
}

/// Whether an index is too short.
///
/// 02, wish 12: "an index shorter than twice the store's nodes gives 2".
fn bad_index(input: &Input, words: usize) -> bool {
    words < 2 * (input.store.len() / WIDTH)
}

/// Whether a result list has the wrong length.
///
/// 02, wish 1: "a result list that isn't five words per subject gives 2".
fn bad_results(input: &Input, words: usize) -> bool {
    words != 5 * input.subjects.len()
}

/// Whether the start, a subject or a binding is bad.
///
/// 01: "Answer 5: the start is outside the table or a pattern; the subject isn't
/// below the mark; a binding word exceeds the mark." 02, wish 1: "a subject not
/// below the first mark gives 5".
fn bad_start(input: &Input) -> bool {
    input.start as usize >= input.table.len() / WIDTH
        || sort_of(kind_of(input.table, input.start)) != Some(Sort::Strategy)
        || input.subjects.iter().any(|&subject| subject >= input.mark)
        || input.bindings.iter().any(|&word| word > input.mark)
}

/// The first refusal of an input, as answer and place; `None` where it is
/// accepted.
///
/// 01: "Order: 2, 3, 4, 5, then the run." 02: 13 to 17 "where 3 stood" (wish 4);
/// "10 with the lowest entry, then 11 with the lowest node, both after 4 and
/// before 5" (wish 2); 21 "after 4 and 11 and before 5" (wish 12);
/// 24 "after 5" (wish 13).
pub fn refusal(input: &Input) -> Option<(u32, u32)> {
    if bad_sizes(input) {
        return Some((BAD_LENGTH, 0));
    }
    if let Some(fault) = lowest_bad_entry(input.table) {
        return Some(fault);
    }
    if let Some(node) = lowest_bad_node(input.store, input.mark) {
        return Some((BAD_NODE, node));
    }
    if let Some(signature) = input.signature {
        if let Some(entry) = lowest_disobeying_entry(input.table, signature) {
            return Some((SIGNED_ENTRY, entry));
        }
        if let Some(node) = lowest_disobeying_node(input.store, input.mark, signature) {
            return Some((SIGNED_NODE, node));
        }
    }
    if input.index.is_some() {
        if let Some(node) = lowest_repeated_node(input.store, input.mark) {
            return Some((REPEATED_NODE, node));
        }
    }
    if bad_start(input) {
        return Some((BAD_START, 0));
    }
    let full = input.counts.and_then(lowest_full_count);
    full.map(|entry| (FULL_COUNT, entry))
}
