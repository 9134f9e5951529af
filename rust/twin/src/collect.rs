//! 02, wish 7: room back between passes.

use crate::checks::{
    bad_store_length, lowest_bad_node, BAD_LENGTH, BAD_NODE, BAD_START, DONE, VARIABLES, WIDTH,
};

/// 02: "It returns answer, place, subject and mark, as given when refused."
#[derive(Clone, Copy, Debug, PartialEq, Eq)]
pub struct Collected {
    /// 0, or 2, 4 or 5.
    pub answer: u32,
    /// The lowest bad node for answer 4, else 0.
    pub place: u32,
    /// The subject's new number, or as given.
    pub subject: u32,
    /// The new mark, or as given.
    pub mark: u32,
}

/// The first refusal, as answer and place.
///
/// 02: "2, 4 and 5 as in 01, in that order, without the table parts; a work list
/// shorter than the store's nodes gives 2".
fn refusal(
    store: &[u32],
    bindings: &[u32],
    mark: u32,
    subject: u32,
    work: &[u32],
) -> Option<(u32, u32)> {
    if bad_store_length(store, mark)
        || bindings.len() != VARIABLES
        || work.len() < store.len() / WIDTH
    {
        return Some((BAD_LENGTH, 0));
    }
    if let Some(node) = lowest_bad_node(store, mark) {
        return Some((BAD_NODE, node));
    }
    if subject >= mark || bindings.iter().any(|&word| word > mark) {
        return Some((BAD_START, 0));
    }
    None
}

/// Whether each node below the mark is reachable from some roots.
///
/// 02: "the nodes reachable from the subject and the bound variables".
fn reachable(store: &[u32], mark: u32, roots: Vec<u32>) -> Vec<bool> {
    let mut reached = vec![false; mark as usize];
    let mut pending = roots;
    while let Some(node) = pending.pop() {
        if reached[node as usize] {
            continue;
        }
        reached[node as usize] = true;
        let row = &store[WIDTH * node as usize..WIDTH * node as usize + WIDTH];
        pending.extend_from_slice(&row[2..2 + row[1] as usize]);
    }
    reached
}

/// The new number of each kept node.
///
/// 02: "in their old order, numbered from zero without gaps".
fn numbering(reached: &[bool]) -> Vec<Option<u32>> {
    let mut next = 0;
    let mut numbers = Vec::new();
    for &kept in reached {
        numbers.push(if kept { Some(next) } else { None });
        next += u32::from(kept);
    }
    numbers
}

/// Keeps what the subject and the bindings reach, and gives the rest back.
///
/// The work list is for callers that have no memory of their own; here it is
/// looked at only for its length, and left zero.
pub fn collect(
    store: &mut [u32],
    bindings: &mut [u32],
    mark: u32,
    subject: u32,
    work: &mut [u32],
) -> Collected {
    if let Some((answer, place)) = refusal(store, bindings, mark, subject, work) {
        return Collected {
            answer,
            place,
            subject,
            mark,
        };
    }
    let mut roots = vec![subject];
    roots.extend(
        bindings
            .iter()
            .filter(|&&word| word != 0)
            .map(|&word| word - 1),
    );
    let numbers = numbering(&reachable(store, mark, roots));
    let new = |node: u32| numbers[node as usize].expect("what is kept reaches only what is kept");
    let mut kept = Vec::new();
    for (row, number) in store.chunks(WIDTH).zip(&numbers) {
        if number.is_some() {
            let mut row = row.to_vec();
            let count = row[1] as usize;
            for child in &mut row[2..2 + count] {
                *child = new(*child);
            }
            kept.extend(row);
        }
    }
    // 02: "and zeroes the rest": to the end of the store.
    let below = kept.len();
    store[..below].copy_from_slice(&kept);
    store[below..].fill(0);
    for word in bindings.iter_mut().filter(|word| **word != 0) {
        *word = new(*word - 1) + 1;
    }
    // 02: "The lent work list is zero afterwards": all of it.
    work.fill(0);
    Collected {
        answer: DONE,
        place: 0,
        subject: new(subject),
        mark: (below / WIDTH) as u32,
    }
}
