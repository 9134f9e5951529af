//! The question of free variables.

use crate::checks::{
    check_table, kind, kind_of, mask_of, operands_of, sort_of, Sort, BAD_START, DONE, WIDTH,
};

/// The free variables of one entry, read from the sets found so far.
///
/// 01: "those of a MATCH or BUILD are its pattern's; SCOPE removes its mask;
/// CALL has those of its REC; every other strategy has its operands'."
fn by_the_rules(table: &[u32], sets: &[u64], entry: usize) -> u64 {
    let row = &table[WIDTH * entry..WIDTH * entry + WIDTH];
    let operands = operands_of(row)
        .iter()
        .fold(0, |set, &operand| set | sets[operand as usize]);
    match row[0] / 16 {
        kind::PVAR => 1 << row[1],
        kind::SCOPE => operands & !mask_of(row),
        _ => operands,
    }
}

/// The free variables of every entry of a good table. A pattern has its own.
///
/// 01: "The smallest sets that fit these rules are meant." Begin with empty sets
/// and apply the rules until nothing grows. The rules only add, so the first
/// fitting sets reached are the smallest.
pub(crate) fn free_sets(table: &[u32]) -> Vec<u64> {
    let entries = table.len() / WIDTH;
    let mut sets = vec![0; entries];
    loop {
        let mut grown = false;
        for place in (0..entries).rev() {
            let set = by_the_rules(table, &sets, place);
            grown |= set != sets[place];
            sets[place] = set;
        }
        if !grown {
            return sets;
        }
    }
}

/// The free variables of a strategy entry: answer, place and mask.
///
/// 01: "The question takes a table and a strategy entry and returns answer,
/// place and mask: 0, 0 and the mask; or 2 (table length only), 3 with its
/// place, or 5, with mask 0." By 02's wish 4 it is 13 to 17 where 3 stood. Wish 9:
/// "Free-variable masks become 64 bits."
pub fn free_variables(table: &[u32], entry: u32) -> (u32, u32, u64) {
    let (answer, place) = check_table(table);
    if answer != DONE {
        return (answer, place, 0);
    }
    let entries = table.len() / WIDTH;
    if entry as usize >= entries || sort_of(kind_of(table, entry)) != Some(Sort::Strategy) {
        return (BAD_START, 0, 0);
    }
    (DONE, 0, free_sets(table)[entry as usize])
}
