//! What is wrong with a bad entry: which word, and what was expected there.
use crate::kind::{operands_from, BUILD, CALL, MATCH, PCON, REC};
use std::fmt;

/// What is wrong with an entry. Of several faults the first in this order is given, and each is looked for in the whole entry
/// before the next.
#[derive(Clone, Copy, Debug, PartialEq, Eq, Hash, PartialOrd, Ord)]
pub enum Fault {
    /// 13: the kind is above 19, or it does not take that many operands.
    Kind,
    /// 14: the argument is out of its range, or not zero where none is named.
    Argument,
    /// 15: an operand is not above its own entry or outside the table; a CALL's is outside the table.
    Operand,
    /// 16: an operand is no strategy, or no pattern, where one is needed; a CALL's is no REC.
    Sort,
    /// 17: an unused word is not zero.
    Word,
}

impl Fault {
    /// The five faults in their order.
    pub const ALL: [Fault; 5] = [
        Fault::Kind,
        Fault::Argument,
        Fault::Operand,
        Fault::Sort,
        Fault::Word,
    ];

    /// The fault's number, 13 to 17.
    pub fn number(self) -> u32 {
        match self {
            Fault::Kind => 13,
            Fault::Argument => 14,
            Fault::Operand => 15,
            Fault::Sort => 16,
            Fault::Word => 17,
        }
    }
}

impl fmt::Display for Fault {
    fn fmt(&self, f: &mut fmt::Formatter<'_>) -> fmt::Result {
        f.write_str(match self {
            Fault::Kind => "unknown kind or wrong number of operands",
            Fault::Argument => "argument out of range",
            Fault::Operand => "operand outside its allowed numbers",
            Fault::Sort => "operand of the wrong sort",
            Fault::Word => "unused word that is not zero",
        })
    }
}

/// A fault in full: the first word of the entry that shows it, what stands there, and what was expected.
///
/// ```
/// use marshtrundle::Table;
/// // A SEQ with the operands 1 and 9 in a table of three entries.
/// let table = Table::from_words([[66, 0, 1, 9, 0, 0, 0, 0], [0; 8], [0; 8]].concat());
/// let answer = table.check().unwrap_err();
/// let shown = table.explain(answer).unwrap();
/// assert_eq!(shown.word, 3);
/// assert_eq!(
///     shown.to_string(),
///     "entry 0: operand outside its allowed numbers: word 3 is 9, expected an entry from 1 to 2"
/// );
/// ```
#[derive(Clone, Debug, PartialEq, Eq)]
pub struct EntryFault {
    /// The entry.
    pub entry: u32,
    /// What is wrong with it.
    pub fault: Fault,
    /// The word of the entry, 0 to 7.
    pub word: usize,
    /// What stands there.
    pub found: u32,
    /// What was expected there.
    pub expected: String,
}

impl fmt::Display for EntryFault {
    fn fmt(&self, f: &mut fmt::Formatter<'_>) -> fmt::Result {
        write!(
            f,
            "entry {}: {}: word {} is {}, expected {}",
            self.entry, self.fault, self.word, self.found, self.expected
        )
    }
}

/// What document 01's table of kinds says of one kind: its name, least and most operands, least and greatest argument.
type Line = (&'static str, u32, u32, u32, u32);

const KINDS: [Line; 20] = [
    ("ID", 0, 0, 0, 0),
    ("FAIL", 0, 0, 0, 0),
    ("TEST", 1, 1, 0, 0),
    ("NOT", 1, 1, 0, 0),
    ("SEQ", 2, 2, 0, 0),
    ("CHOICE", 2, 2, 0, 0),
    ("LEFT", 2, 2, 0, 0),
    ("REC", 1, 1, 0, 0),
    ("CALL", 1, 1, 0, 0),
    ("PATH", 1, 1, 1, 6),
    ("CONG", 0, 6, 0, 65_535),
    ("ALL", 1, 1, 0, 0),
    ("ONE", 1, 1, 0, 0),
    ("SOME", 1, 1, 0, 0),
    ("MATCH", 1, 1, 0, 0),
    ("BUILD", 1, 1, 0, 0),
    ("SCOPE", 1, 1, 0, u32::MAX),
    ("WHERE", 1, 1, 0, 0),
    ("PVAR", 0, 0, 0, 63),
    ("PCON", 0, 6, 0, 65_535),
];

fn span(low: u32, high: u32) -> String {
    if low == high {
        low.to_string()
    } else {
        format!("{low} to {high}")
    }
}

/// The kinds that an operand of this kind may have, and what they are.
fn takes(kind: u32) -> (std::ops::RangeInclusive<u32>, &'static str) {
    match kind {
        CALL => (REC..=REC, "a REC"),
        MATCH | BUILD | PCON => (18..=19, "a pattern"),
        _ => (0..=17, "a strategy"),
    }
}

/// Where in the table's words the fault of this entry shows. None where the words have no such entry or no such fault.
pub(crate) fn explain(words: &[u32], entry: u32, fault: Fault) -> Option<EntryFault> {
    let entries = words.len() / 8;
    let row = words.chunks_exact(8).nth(entry as usize)?;
    let (kind, count) = (row[0] / 16, row[0] % 16);
    let at = |word: usize, expected: String| {
        Some(EntryFault {
            entry,
            fault,
            word,
            found: row[word],
            expected,
        })
    };
    let &(name, least, most, low, high) = match KINDS.get(kind as usize) {
        Some(line) => line,
        None if fault == Fault::Kind => return at(0, "16 × a kind of 0 to 19".to_string()),
        None => return None,
    };
    let from = operands_from(kind);
    let operands = from..(from + count as usize).min(8);
    match fault {
        Fault::Kind if (least..=most).contains(&count) => None,
        Fault::Kind => at(
            0,
            format!(
                "{} for {name}, which takes {} operands",
                span(16 * kind + least, 16 * kind + most),
                span(least, most)
            ),
        ),
        Fault::Argument if (low..=high).contains(&row[1]) => None,
        Fault::Argument => at(1, format!("{} for {name}", span(low, high))),
        Fault::Operand => {
            let lowest = if kind == CALL { 0 } else { entry as usize + 1 };
            let word = operands
                .into_iter()
                .find(|&word| !(lowest..entries).contains(&(row[word] as usize)))?;
            if lowest == entries {
                return at(
                    word,
                    "an entry after this one, and there is none".to_string(),
                );
            }
            at(word, format!("an entry from {lowest} to {}", entries - 1))
        }
        Fault::Sort => {
            let (kinds, what) = takes(kind);
            let word = operands.into_iter().find(|&word| {
                let operand = words.chunks_exact(8).nth(row[word] as usize);
                operand.map_or(false, |operand| !kinds.contains(&(operand[0] / 16)))
            })?;
            at(word, format!("the number of {what} for {name}"))
        }
        Fault::Word => {
            let word = (operands.end..8).find(|&word| row[word] != 0)?;
            at(word, "0".to_string())
        }
    }
}
