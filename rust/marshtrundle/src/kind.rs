//! The twenty kinds of entries, by number. Kinds 0 to 17 are strategies, 18 and 19 patterns.
#![allow(missing_docs)] // the names are those of docs/REFERENCE.md, which says what each does

pub const ID: u32 = 0;
pub const FAIL: u32 = 1;
pub const TEST: u32 = 2;
pub const NOT: u32 = 3;
pub const SEQ: u32 = 4;
pub const CHOICE: u32 = 5;
pub const LEFT: u32 = 6;
pub const REC: u32 = 7;
pub const CALL: u32 = 8;
pub const PATH: u32 = 9;
pub const CONG: u32 = 10;
pub const ALL: u32 = 11;
pub const ONE: u32 = 12;
pub const SOME: u32 = 13;
pub const MATCH: u32 = 14;
pub const BUILD: u32 = 15;
pub const SCOPE: u32 = 16;
pub const WHERE: u32 = 17;
pub const PVAR: u32 = 18;
pub const PCON: u32 = 19;

/// The names of the kinds, in their order.
pub const NAMES: [&str; 20] = [
    "ID", "FAIL", "TEST", "NOT", "SEQ", "CHOICE", "LEFT", "REC", "CALL", "PATH", "CONG", "ALL",
    "ONE", "SOME", "MATCH", "BUILD", "SCOPE", "WHERE", "PVAR", "PCON",
];

/// The word at which the operands of an entry of this kind begin. Word 1 is the argument; a scope's takes words 1 and 2.
pub fn operands_from(kind: u32) -> usize {
    if kind == SCOPE {
        3
    } else {
        2
    }
}

/// The operands of an entry's row, as far as the row has words for them.
pub(crate) fn operands(row: &[u32]) -> &[u32] {
    let from = operands_from(row[0] / 16);
    &row[from..(from + row[0] as usize % 16).min(8)]
}

/// The argument of an entry's row: of a scope all 64 bits of its mask.
pub(crate) fn argument(row: &[u32]) -> u64 {
    if operands_from(row[0] / 16) == 3 {
        u64::from(row[2]) << 32 | u64::from(row[1])
    } else {
        u64::from(row[1])
    }
}

/// A kind's name, or `?` where there is no such kind.
pub fn name(kind: u32) -> &'static str {
    NAMES.get(kind as usize).copied().unwrap_or("?")
}
