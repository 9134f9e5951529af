//! Rules as text: a line for each rule, translated into entries of a table, and written back.
//!
//! docs/REFERENCE.md has the grammar of a line. The translator and the writer are the proved library's; this module lends them memory
//! and says their refusals as values, with the line and the field.
//!
//! ```
//! # fn main() -> Result<(), Box<dyn std::error::Error>> {
//! use marshtrundle::{RuleError, Table};
//! let mut table = Table::default();
//! // 5(v0, v1) -> 5(v1, v0)
//! let text = "5\t2\tv0\tv1\t5\t2\tv1\tv0\n";
//! let added = table.add_rules(text.as_bytes())?;
//! assert_eq!(added.len(), 1);
//! assert_eq!(table.entries(), 10);
//! assert_eq!(table.rule_line(added[0])?, text);
//!
//! let refused = table.add_rules(b"v0\tv0\n5\t7\n").unwrap_err();
//! assert_eq!(refused, RuleError::Text { line: 2, field: 2, found: Some("7".to_owned()) });
//! assert_eq!(refused.to_string(), "line 2, field 2: '7' does not stand in a rule here");
//! assert_eq!(table.entries(), 10);
//! # Ok(())
//! # }
//! ```
use crate::answer::Answer;
use crate::archive;
use crate::fault::Fault;
use crate::kind;
use crate::table::{Entry, Table};
use crate::ENTRIES;
use std::error::Error;
use std::fmt;

/// The most bytes of a rule's line that a table can have, its line feed included.
pub const RULE_BYTES: usize = 53_272;

/// Why rules were not translated, or a rule not written. The table is as it was. The number of each is that of document 01 or 02, and
/// [`RuleError::number`] gives it.
#[derive(Clone, Debug, PartialEq, Eq, Hash)]
pub enum RuleError {
    /// 2: the table is no multiple of eight words, or has more than 4,096 entries.
    Sizes,
    /// 13 to 17: this entry of the table is its lowest bad one, and this is its first fault.
    BadEntry(u32, Fault),
    /// 18: the line is no rule's text.
    Text {
        /// The line, from 1.
        line: usize,
        /// Its first bad field, from 1; one past the last where the line is cut short.
        field: usize,
        /// What stands in that field. None where the line is cut short.
        found: Option<String>,
    },
    /// 19: on this line a variable of the right term, or of a term that a condition starts from, is bound by nothing before it.
    NothingBinds(usize),
    /// 20: on this line a variable is above 63.
    NoSuchVariable(usize),
    /// 22: on this line the number of a condition is no REC without free variables in the table.
    NoSuchStrategy(usize),
    /// 23: with the rule on this line the table would have more than 4,096 entries.
    TooManyEntries(usize),
    /// 5: no rule starts at the entry that was to be written. The translator would take no line that gives these entries.
    NoRule,
    /// 26: the buffer is shorter than the rule's line. [`Table::rule_line`] lends one that is long enough.
    ShortBuffer,
}

impl RuleError {
    /// The answer's number.
    pub fn number(&self) -> u32 {
        match self {
            RuleError::Sizes => 2,
            RuleError::NoRule => 5,
            RuleError::BadEntry(_, fault) => fault.number(),
            RuleError::Text { .. } => 18,
            RuleError::NothingBinds(_) => 19,
            RuleError::NoSuchVariable(_) => 20,
            RuleError::NoSuchStrategy(_) => 22,
            RuleError::TooManyEntries(_) => 23,
            RuleError::ShortBuffer => 26,
        }
    }

    /// What to do next, in a sentence or two.
    pub fn advice(&self) -> &'static str {
        match self {
            RuleError::Sizes => "Look at the limits: a table has at most 4,096 entries of eight words.",
            RuleError::BadEntry(..) => "Correct that entry of the table, or let the crate's builders lay it out.",
            RuleError::Text { .. } => {
                "Correct that field. A term is v and a number, or a constructor, its child count and its children; fields are parted by one \
                 tab, and each line ends in a line feed. docs/REFERENCE.md has the grammar."
            }
            RuleError::NothingBinds(_) => {
                "Let the left term or the outcome of a condition before it have that variable: conditions go from left to right."
            }
            RuleError::NoSuchVariable(_) => "Variables are v0 to v63.",
            RuleError::NoSuchStrategy(_) => {
                "A condition names a REC that stands in the table before the rules are added, and that has no free variable: put a scope \
                 around its body."
            }
            RuleError::TooManyEntries(_) => "A table has at most 4,096 entries. Use several tables, one for each pass.",
            RuleError::NoRule => "Only a rule that the translator made, or would make, can be written: give the entry of its scope.",
            RuleError::ShortBuffer => "Lend a longer buffer: no line is longer than 53,272 bytes.",
        }
    }

    /// The answer with its line and field, the text being what was to be translated. Other numbers are no answer of these functions.
    fn told(answer: u32, line: u32, field: usize, text: &[u8]) -> RuleError {
        let at = line as usize;
        match answer {
            2 => RuleError::Sizes,
            5 => RuleError::NoRule,
            18 => RuleError::Text {
                line: at,
                field,
                found: field_of(text, at, field),
            },
            19 => RuleError::NothingBinds(at),
            20 => RuleError::NoSuchVariable(at),
            22 => RuleError::NoSuchStrategy(at),
            23 => RuleError::TooManyEntries(at),
            26 => RuleError::ShortBuffer,
            other => match Answer::told(other, line) {
                Answer::BadEntry(entry, fault) => RuleError::BadEntry(entry, fault),
                _ => panic!("the archive answers {other}, which no rule gets"),
            },
        }
    }
}

/// What stands in a field of a line of a text, both counted from 1.
fn field_of(text: &[u8], line: usize, field: usize) -> Option<String> {
    let line = text
        .split(|&byte| byte == b'\n')
        .nth(line.checked_sub(1)?)?;
    let field = line
        .split(|&byte| byte == b'\t')
        .nth(field.checked_sub(1)?)?;
    Some(String::from_utf8_lossy(field).into_owned())
}

impl fmt::Display for RuleError {
    fn fmt(&self, f: &mut fmt::Formatter<'_>) -> fmt::Result {
        match self {
            RuleError::Sizes => f.write_str("the table's length is bad"),
            RuleError::BadEntry(e, fault) => write!(f, "entry {e} is bad: {fault}"),
            RuleError::Text { line, field, found } => match found.as_deref() {
                None => write!(
                    f,
                    "line {line}, field {field}: the line is cut short: this field or the line feed is missing"
                ),
                Some("") => write!(f, "line {line}, field {field}: the field is empty"),
                Some(found) => write!(
                    f,
                    "line {line}, field {field}: '{}' does not stand in a rule here",
                    found.escape_debug()
                ),
            },
            RuleError::NothingBinds(line) => write!(
                f,
                "line {line}: the rule builds a variable that nothing before it binds"
            ),
            RuleError::NoSuchVariable(line) => write!(f, "line {line}: a variable is above 63"),
            RuleError::NoSuchStrategy(line) => write!(
                f,
                "line {line}: a condition's number is no REC without free variables"
            ),
            RuleError::TooManyEntries(line) => write!(
                f,
                "line {line}: with this rule the table has over 4096 entries"
            ),
            RuleError::NoRule => f.write_str("no rule starts at this entry"),
            RuleError::ShortBuffer => f.write_str("the buffer is shorter than the rule's line"),
        }
    }
}

impl Error for RuleError {}

impl Table {
    /// Adds the rules of a text behind the table's entries, and gives the entry at which each rule starts, in the order of the lines.
    /// Where a line is refused the table stays as it is. A text without a byte has no rule.
    pub fn add_rules(&mut self, text: &[u8]) -> Result<Vec<Entry>, RuleError> {
        let used = self.entries();
        let mut words = self.words().to_vec();
        if words.len() % 8 == 0 && used < ENTRIES {
            words.resize(8 * ENTRIES, 0);
        }
        let [answer, line, field, now] =
            archive::translate_rules(&mut words, used.try_into().unwrap_or(u32::MAX), text);
        if answer != 0 {
            return Err(RuleError::told(
                answer as u32,
                line as u32,
                field as usize,
                text,
            ));
        }
        words.truncate(8 * now as usize);
        // A rule has one scope, and it is its first entry.
        let starts = (used as u32..now as u32)
            .filter(|&entry| words[8 * entry as usize] / 16 == kind::SCOPE)
            .map(Entry::from_number)
            .collect();
        self.replace_words(words);
        Ok(starts)
    }

    /// The rule that starts at an entry, as the line that [`Table::add_rules`] takes it from, its line feed included.
    pub fn rule_line(&self, entry: Entry) -> Result<String, RuleError> {
        let mut line = vec![0; RULE_BYTES];
        let used = self.entries().try_into().unwrap_or(u32::MAX);
        let [answer, place, length] =
            archive::write_rule(self.words(), used, entry.number(), &mut line);
        if answer != 0 {
            return Err(RuleError::told(answer as u32, place as u32, 0, &[]));
        }
        line.truncate(length as usize);
        Ok(line.into_iter().map(char::from).collect())
    }

    /// The lines of all rules in the table, from the lowest entry on. Each rule's line is that of [`Table::rule_line`].
    pub fn rule_lines(&self) -> Result<String, RuleError> {
        let [answer, place] = archive::check_table(self.words());
        if answer != 0 {
            return Err(RuleError::told(answer, place, 0, &[]));
        }
        let mut lines = String::new();
        for (entry, row) in (0..).zip(self.words().chunks_exact(8)) {
            // Every rule begins with its scope.
            if row[0] / 16 != kind::SCOPE {
                continue;
            }
            match self.rule_line(Entry::from_number(entry)) {
                Ok(line) => lines.push_str(&line),
                Err(RuleError::NoRule) => {}
                Err(refused) => return Err(refused),
            }
        }
        Ok(lines)
    }
}
