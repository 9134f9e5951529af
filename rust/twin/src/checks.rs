//! The table check and the store check.
//!
//! 01: "Malformed input, and no other, is refused by number before anything is
//! written." (mission, demand 1). Nothing here writes. Every word is looked at
//! in the order of the entries or nodes, so the first bad one is the lowest.

use std::collections::BTreeSet;

/// The words of one entry, and of one node.
///
/// 01: "eight words to a node"; "Eight words to an entry."
pub const WIDTH: usize = 8;

/// The most words of a table. 01: "over 32,768 words".
pub const TABLE_WORDS: usize = 32_768;

/// The most words of a store. 01: "over 1,048,576 words".
pub const STORE_WORDS: usize = 1_048_576;

/// The number of variables. 02, wish 9: "The bindings become 64 words".
pub const VARIABLES: usize = 64;

/// The most children of a node. 01: "the child count n (0 to 6)".
pub const CHILDREN: u32 = 6;

/// The greatest constructor. 01: "the constructor (0 to 65,535)".
pub const CONSTRUCTOR: u32 = 65_535;

/// The most words of a signature. 02, wish 2: "over 65,536 words".
pub const SIGNATURE_WORDS: usize = 65_536;

/// The greatest word of a signature. 02, wish 2: "the declared count or 7 for
/// undeclared".
pub const UNDECLARED: u32 = 7;

/// The answer of a sound table or store, and of a done run.
pub const DONE: u32 = 0;
/// 01: "failed".
pub const FAILED: u32 = 1;
/// 01: "a length or the mark is bad".
pub const BAD_LENGTH: u32 = 2;
/// 01: "bad node below the mark".
pub const BAD_NODE: u32 = 4;
/// 01: "bad start".
pub const BAD_START: u32 = 5;
/// 01: "units, room, nesting"; the first of them.
pub const NO_UNITS: u32 = 6;
/// 01: "units, room, nesting"; the second of them.
pub const NO_ROOM: u32 = 7;
/// 01: "units, room, nesting"; the third of them.
pub const NO_NESTING: u32 = 8;
/// 01: "Answer 9 [..] is for text that breaks these rules".
pub const BAD_TEXT: u32 = 9;
/// 02, wish 2: "10 with the lowest entry" that disagrees with the signature.
pub const SIGNED_ENTRY: u32 = 10;
/// 02, wish 2: "11 with the lowest node" that disagrees with the signature.
pub const SIGNED_NODE: u32 = 11;
/// 02, wish 3: "12 with the variable as its place".
pub const UNBOUND: u32 = 12;
/// 02, wish 4: "unknown kind or wrong operand count".
pub const BAD_KIND: u32 = 13;
/// 02, wish 4: "argument out of range, or non-zero where none is named".
pub const BAD_ARGUMENT: u32 = 14;
/// 02, wish 4: "operand outside its allowed numbers".
pub const BAD_OPERAND: u32 = 15;
/// 02, wish 4: "operand of the wrong sort, or a CALL's that is no REC".
pub const BAD_SORT: u32 = 16;
/// 02, wish 4: "a non-zero unused word".
pub const BAD_WORD: u32 = 17;
/// 02, wish 12: "a given node with an earlier one's words gives 21".
pub const REPEATED_NODE: u32 = 21;
/// 02, wish 13: "a count word above 18,446,744,069,414,584,320 gives 24".
pub const FULL_COUNT: u32 = 24;
/// 02, wish 8: "an unfinished run answers 25".
pub const UNFINISHED: u32 = 25;
/// 02, wish 8: "a step on a zero one gives 27".
pub const NO_RUN: u32 = 27;

/// Whether an answer is that of a run that began: done, failed, cut off, or
/// ended at an unbound variable. Every other answer is a refusal.
pub fn ran(answer: u32) -> bool {
    matches!(
        answer,
        DONE | FAILED | NO_UNITS | NO_ROOM | NO_NESTING | UNBOUND
    )
}

/// The twenty kinds by name, numbered as in 01's table.
#[allow(missing_docs)]
pub mod kind {
    pub const ID: u32 = 0;
    pub const FAIL: u32 = 1;
    pub const TEST: u32 = 2;
    pub const NOT: u32 = 3;
    pub const SEQ: u32 = 4;
    pub const CHOICE: u32 = 5;
    pub const LEFT: u32 = 6;
    pub const REC: u32 = 7;
    pub const CALL: u32 = 8;
    pub const PATH: u32 = 9;
    pub const CONG: u32 = 10;
    pub const ALL: u32 = 11;
    pub const ONE: u32 = 12;
    pub const SOME: u32 = 13;
    pub const MATCH: u32 = 14;
    pub const BUILD: u32 = 15;
    pub const SCOPE: u32 = 16;
    pub const WHERE: u32 = 17;
    pub const PVAR: u32 = 18;
    pub const PCON: u32 = 19;

    /// The names in the order of the numbers.
    pub const NAMES: [&str; 20] = [
        "ID", "FAIL", "TEST", "NOT", "SEQ", "CHOICE", "LEFT", "REC", "CALL", "PATH", "CONG", "ALL",
        "ONE", "SOME", "MATCH", "BUILD", "SCOPE", "WHERE", "PVAR", "PCON",
    ];
}

/// What an operand must be.
#[derive(Clone, Copy, Debug, PartialEq, Eq)]
pub enum Sort {
    /// Kinds 0 to 17.
    Strategy,
    /// Kinds 18 and 19.
    Pattern,
}

/// 01: "Kinds 0 to 17 are strategies, 18 and 19 patterns."; "a kind above 19
/// has none."
pub fn sort_of(kind: u32) -> Option<Sort> {
    match kind {
        0..=17 => Some(Sort::Strategy),
        18..=19 => Some(Sort::Pattern),
        _ => None,
    }
}

/// The kind of an entry. 01: "Word 0 is 16 × kind + operand count".
///
/// The entry must lie inside the table.
pub fn kind_of(table: &[u32], entry: u32) -> u32 {
    table[WIDTH * entry as usize] / 16
}

/// The word of an entry in which the operands of its kind begin.
///
/// 01: "word 1 the argument, words 2 to 7 the operands." 02, wish 9: "the scope's
/// mask takes words 1 (low) and 2 of its entry, and its operand moves to word 3."
pub fn first_operand(kind: u32) -> usize {
    if kind == kind::SCOPE {
        3
    } else {
        2
    }
}

/// The mask of a scope's entry, from its eight words.
pub fn mask_of(row: &[u32]) -> u64 {
    u64::from(row[1]) | u64::from(row[2]) << 32
}

/// The operands of a good entry, from its eight words.
pub fn operands_of(row: &[u32]) -> &[u32] {
    let first = first_operand(row[0] / 16);
    &row[first..first + (row[0] % 16) as usize]
}

/// The eight words of an entry from its parts, with at most six operands.
///
/// Six operands of a scope would not fit; the last is left out. Such an entry has
/// the wrong count, so none of its other words is looked at.
pub fn row_of(kind: u32, argument: u64, operands: &[u32]) -> [u32; WIDTH] {
    let mut row = [0; WIDTH];
    row[0] = 16 * kind + operands.len() as u32;
    row[1] = argument as u32;
    if kind == kind::SCOPE {
        row[2] = (argument >> 32) as u32;
    }
    for (word, &operand) in row[first_operand(kind)..].iter_mut().zip(operands) {
        *word = operand;
    }
    row
}

/// The least and the most operands of each kind, by 01's table.
const OPERANDS: [(u32, u32); 20] = [
    (0, 0), // ID
    (0, 0), // FAIL
    (1, 1), // TEST
    (1, 1), // NOT
    (2, 2), // SEQ
    (2, 2), // CHOICE
    (2, 2), // LEFT
    (1, 1), // REC
    (1, 1), // CALL
    (1, 1), // PATH
    (0, 6), // CONG
    (1, 1), // ALL
    (1, 1), // ONE
    (1, 1), // SOME
    (1, 1), // MATCH
    (1, 1), // BUILD
    (1, 1), // SCOPE
    (1, 1), // WHERE
    (0, 0), // PVAR
    (0, 6), // PCON
];

/// The least and the greatest argument of a kind, as far as word 1 goes.
///
/// 01's table, and "the argument is zero where none is named." A scope's mask is
/// any 64 bits, so neither of its words is out of range. 02, wish 9: "variables
/// 64 and up are out of range."
fn argument_limits(kind: u32) -> (u32, u32) {
    match kind {
        kind::PATH => (1, CHILDREN),
        kind::CONG | kind::PCON => (0, CONSTRUCTOR),
        kind::SCOPE => (0, u32::MAX),
        kind::PVAR => (0, VARIABLES as u32 - 1),
        _ => (0, 0),
    }
}

/// The sort that a kind's operands must have.
///
/// 01: "MATCH, BUILD and PCON take patterns; all others take strategies."
fn operand_sort(kind: u32) -> Sort {
    match kind {
        kind::MATCH | kind::BUILD | kind::PCON => Sort::Pattern,
        _ => Sort::Strategy,
    }
}

/// Whether an operand's number is outside those allowed to its entry.
///
/// 01: "An operand is a number above its own entry's and inside the table;
/// CALL's alone may be any entry".
fn bad_operand(entries: u32, entry: u32, kind: u32, operand: u32) -> bool {
    operand >= entries || (kind != kind::CALL && operand <= entry)
}

/// Whether an operand inside the table is not what its user takes.
///
/// 01: "that entry must be a REC."; "An operand's sort is read from its kind
/// alone; a kind above 19 has none."
fn bad_sort(table: &[u32], kind: u32, operand: u32) -> bool {
    if kind == kind::CALL {
        return kind_of(table, operand) != kind::REC;
    }
    sort_of(kind_of(table, operand)) != Some(operand_sort(kind))
}

/// What is wrong with one entry, if anything. It must lie inside the table.
///
/// 02, wish 4: "13 to 17 in that order within the lowest bad entry". The reading:
/// each fault is asked of the whole entry before the next, so an operand outside
/// the table at the second place goes before a wrong sort at the first.
fn fault(table: &[u32], entry: u32) -> Option<u32> {
    let entries = (table.len() / WIDTH) as u32;
    let row = &table[WIDTH * entry as usize..WIDTH * entry as usize + WIDTH];
    let kind = row[0] / 16;
    let count = row[0] % 16;
    if kind > kind::PCON {
        return Some(BAD_KIND);
    }
    let (least, most) = OPERANDS[kind as usize];
    if count < least || count > most {
        return Some(BAD_KIND);
    }
    let (low, high) = argument_limits(kind);
    if row[1] < low || row[1] > high {
        return Some(BAD_ARGUMENT);
    }
    let (operands, unused) = row[first_operand(kind)..].split_at(count as usize);
    if operands
        .iter()
        .any(|&operand| bad_operand(entries, entry, kind, operand))
    {
        return Some(BAD_OPERAND);
    }
    if operands
        .iter()
        .any(|&operand| bad_sort(table, kind, operand))
    {
        return Some(BAD_SORT);
    }
    // 01: "Unused words are zero".
    if unused.iter().any(|&word| word != 0) {
        return Some(BAD_WORD);
    }
    None
}

/// Whether one node of the store is good. It must lie inside the store.
///
/// 01: "the constructor (0 to 65,535), the child count n (0 to 6), then n child
/// node numbers, each below k. Words after the last child are zero."
fn good_node(store: &[u32], node: u32) -> bool {
    let row = &store[WIDTH * node as usize..WIDTH * node as usize + WIDTH];
    if row[0] > CONSTRUCTOR || row[1] > CHILDREN {
        return false;
    }
    let (children, unused) = row[2..].split_at(row[1] as usize);
    children.iter().all(|&child| child < node) && unused.iter().all(|&word| word == 0)
}

/// Whether a table's length is bad.
///
/// 01: "the table is empty, not a multiple of 8 or over 32,768 words".
pub fn bad_table_length(table: &[u32]) -> bool {
    table.is_empty() || table.len() % WIDTH != 0 || table.len() > TABLE_WORDS
}

/// Whether a store's length or its mark is bad.
///
/// 01: "the store isn't a multiple of 8 or is over 1,048,576 words; [..] the
/// mark exceeds the store's nodes."
pub fn bad_store_length(store: &[u32], mark: u32) -> bool {
    store.len() % WIDTH != 0 || store.len() > STORE_WORDS || mark as usize > store.len() / WIDTH
}

/// The fault of the lowest bad entry of a table whose length is good, and that
/// entry.
pub fn lowest_bad_entry(table: &[u32]) -> Option<(u32, u32)> {
    (0..(table.len() / WIDTH) as u32)
        .find_map(|entry| fault(table, entry).map(|answer| (answer, entry)))
}

/// The lowest bad node below the mark of a store whose length is good.
pub fn lowest_bad_node(store: &[u32], mark: u32) -> Option<u32> {
    (0..mark).find(|&node| !good_node(store, node))
}

/// The table check: an answer and a place.
///
/// 2 and 0 for a bad length; 13 to 17 and the lowest bad entry; else 0 and 0.
pub fn check_table(table: &[u32]) -> (u32, u32) {
    if bad_table_length(table) {
        return (BAD_LENGTH, 0);
    }
    match lowest_bad_entry(table) {
        Some(fault) => fault,
        None => (DONE, 0),
    }
}

/// The store check: an answer and a place.
///
/// 2 and 0 for a bad length or mark; 4 and the lowest bad node below the mark;
/// else 0 and 0.
pub fn check_store(store: &[u32], mark: u32) -> (u32, u32) {
    if bad_store_length(store, mark) {
        return (BAD_LENGTH, 0);
    }
    match lowest_bad_node(store, mark) {
        Some(node) => (BAD_NODE, node),
        None => (DONE, 0),
    }
}

/// Whether a signature is bad.
///
/// 02, wish 2: "a count word above 7, or over 65,536 words, gives 2".
pub fn bad_signature(signature: &[u32]) -> bool {
    signature.len() > SIGNATURE_WORDS || signature.iter().any(|&word| word > UNDECLARED)
}

/// Whether a constructor with so many children, at most 6, obeys a signature.
///
/// 02, wish 2: what "disagrees, or whose constructor is undeclared or beyond the
/// list, is refused". The word of an undeclared constructor is 7, which is no
/// count.
fn obeys(signature: &[u32], constructor: u32, count: u32) -> bool {
    signature.get(constructor as usize) == Some(&count)
}

/// The lowest entry of a good table that disobeys a signature.
///
/// 02, wish 2: "A CONG, a PCON [..] that disagrees"; used or not.
pub fn lowest_disobeying_entry(table: &[u32], signature: &[u32]) -> Option<u32> {
    let disobeys = |row: &[u32]| {
        matches!(row[0] / 16, kind::CONG | kind::PCON) && !obeys(signature, row[1], row[0] % 16)
    };
    table
        .chunks(WIDTH)
        .position(disobeys)
        .map(|entry| entry as u32)
}

/// The lowest node below the mark of a good store that disobeys a signature.
///
/// 02, wish 2: "or a stored node that disagrees"; reachable or not.
pub fn lowest_disobeying_node(store: &[u32], mark: u32, signature: &[u32]) -> Option<u32> {
    store
        .chunks(WIDTH)
        .take(mark as usize)
        .position(|row| !obeys(signature, row[0], row[1]))
        .map(|node| node as u32)
}

/// The lowest node below the mark of a good store whose eight words an earlier
/// node has.
///
/// 02, wish 12: "a given node with an earlier one's words gives 21 with the lowest
/// such".
pub fn lowest_repeated_node(store: &[u32], mark: u32) -> Option<u32> {
    let mut earlier = BTreeSet::new();
    store
        .chunks(WIDTH)
        .take(mark as usize)
        .position(|row| !earlier.insert(row))
        .map(|node| node as u32)
}
