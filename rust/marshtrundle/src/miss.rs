//! Where the last match of a failed run gave up: from an entry's number back to the rule's own pattern.
use crate::answer::Answer;
use crate::kind::{self, MATCH};
use crate::table::{Entry, Table};

/// The pattern at which the last match of a failed run gave up, and where it stands.
///
/// A table has equal patterns once, so that several rules may share one. [`Show::pattern`](crate::show::Show::pattern) shows the
/// pattern of an entry.
///
/// ```
/// # fn main() -> Result<(), Box<dyn std::error::Error>> {
/// use marshtrundle::strategy::*;
/// use marshtrundle::{run, Bindings, Entry, Store, TableBuilder, Var};
/// let x = Var::new(0).unwrap();
/// // The rule is for 5(1, x). The term is 5(2, 2).
/// let mut builder = TableBuilder::new();
/// builder.add("drop", rule(con(5, [con(1, []), var(x)]), var(x)));
/// let table = builder.build()?;
/// let mut store = Store::new();
/// let two = store.node(2, &[])?;
/// let pair = store.node(5, &[two, two])?;
/// let end = run(&table, &mut store, &mut Bindings::new(), Entry::FIRST, pair, 100);
/// let miss = table.missed(end.answer).unwrap();
/// let names = marshtrundle::show::Names::default();
/// let show = marshtrundle::show::Show::new(&names);
/// assert_eq!(show.pattern(&table, miss.entry), "1");
/// assert_eq!(show.pattern(&table, miss.rules[0]), "5(1, v0)");
/// assert_eq!(miss.strategies, ["drop"]);
/// # Ok(())
/// # }
/// ```
#[derive(Clone, Debug, PartialEq, Eq)]
pub struct Miss {
    /// The pattern that the term did not fit: a constructor with its operands, or a variable that was bound to another term.
    pub entry: Entry,
    /// The whole patterns in which it stands, one for each MATCH that has it; the pattern itself where it is the whole.
    pub rules: Vec<Entry>,
    /// The names of the table's strategies that have one of these matches.
    pub strategies: Vec<String>,
}

impl Table {
    /// Where the last match of a failed run of this table gave up. None where the answer is another, or no match failed.
    pub fn missed(&self, answer: Answer) -> Option<Miss> {
        let entry = match answer {
            Answer::Failed(Some(entry)) => entry,
            _ => return None,
        };
        let matches: Vec<Entry> = (0..self.entries() as u32)
            .map(Entry::from_number)
            .filter(|&e| self.kind(e) == MATCH && self.reaches(e, entry))
            .collect();
        let mut rules: Vec<Entry> = matches.iter().flat_map(|&e| self.operands(e)).collect();
        rules.sort();
        rules.dedup();
        let strategies = self
            .names()
            .filter(|&(_, start)| matches.iter().any(|&e| self.reaches(start, e)))
            .map(|(name, _)| name.to_owned())
            .collect();
        Some(Miss {
            entry,
            rules,
            strategies,
        })
    }

    fn kind(&self, entry: Entry) -> u32 {
        let word = self.words().get(8 * entry.number() as usize);
        word.map_or(u32::MAX, |word| word / 16)
    }

    fn operands(&self, entry: Entry) -> Vec<Entry> {
        let at = 8 * entry.number() as usize;
        let row = self.words().get(at..at + 8).unwrap_or(&[0; 8]);
        kind::operands(row)
            .iter()
            .map(|&o| Entry::from_number(o))
            .collect()
    }

    /// Whether one entry leads to another through operands.
    fn reaches(&self, from: Entry, to: Entry) -> bool {
        let mut seen = vec![false; self.entries()];
        let mut open = vec![from];
        while let Some(entry) = open.pop() {
            if entry == to {
                return true;
            }
            match seen.get_mut(entry.number() as usize) {
                Some(known) if !*known => *known = true,
                _ => continue,
            }
            open.extend(self.operands(entry));
        }
        false
    }
}
