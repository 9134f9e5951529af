//! 02, wish 5: rules as text, the translator and the writer.
//!
//! A rule is a value of its own here: text becomes a rule, a rule becomes entries,
//! and both ways back. The writer reads a rule from the entries by their kinds
//! alone, makes its entries anew and compares: so nothing but what the translator
//! makes is printed.

use crate::checks::{
    bad_table_length, kind, kind_of, lowest_bad_entry, row_of, BAD_LENGTH, BAD_START, CHILDREN,
    CONSTRUCTOR, DONE, VARIABLES, WIDTH,
};
use crate::free::free_sets;
use crate::job::number;
use std::collections::BTreeSet;

/// 02: "18 with line and first bad field [..] for text outside the grammar".
pub const BAD_RULE: u32 = 18;
/// 02: "19 for a right-hand or starting variable not bound before it".
pub const NOT_BOUND: u32 = 19;
/// 02: "20 for a variable above 31"; wish 9: "Wish 5's limit becomes 63."
pub const BAD_VARIABLE: u32 = 20;
/// 02: "22 for a condition's number that isn't such a REC".
pub const BAD_REC: u32 = 22;
/// 02: "23 where the table would pass its lent length or 4,096 entries".
pub const FULL_TABLE: u32 = 23;
/// 02: "26 for too short a buffer".
pub const SHORT_BUFFER: u32 = 26;

/// One position of a term.
///
/// 02: "a field for constructor and one for child count, both in 01's ranges, or
/// one field such as `v0` for a variable."
#[derive(Clone, Copy, Debug, PartialEq, Eq)]
pub enum Symbol {
    /// A constructor and the number of its children.
    Constructor(u32, u32),
    /// A variable.
    Variable(u32),
}

/// A term: its positions in prefix form.
pub type Term = Vec<Symbol>;

/// A matching condition.
#[derive(Clone, Debug, PartialEq, Eq)]
pub struct Condition {
    /// 02: "the entry number of a REC without free variables in that table".
    pub rec: u32,
    /// 02: "a term to start from".
    pub start: Term,
    /// 02: "a pattern that the outcome must match".
    pub pattern: Term,
}

/// A rule.
#[derive(Clone, Debug, PartialEq, Eq)]
pub struct Rule {
    /// The left term.
    pub left: Term,
    /// The right term.
    pub right: Term,
    /// The conditions in their order.
    pub conditions: Vec<Condition>,
}

/// The variables of a term.
fn variables(term: &[Symbol]) -> BTreeSet<u32> {
    term.iter()
        .filter_map(|symbol| match symbol {
            Symbol::Variable(name) => Some(*name),
            Symbol::Constructor(..) => None,
        })
        .collect()
}

impl Rule {
    /// Every variable of the rule.
    fn variables(&self) -> BTreeSet<u32> {
        let mut all = variables(&self.left);
        all.extend(variables(&self.right));
        for condition in &self.conditions {
            all.extend(variables(&condition.start));
            all.extend(variables(&condition.pattern));
        }
        all
    }

    /// Whether each variable is bound before it is built from, in the order of
    /// the run: the left term binds, then for each condition the starting term
    /// is built and the pattern binds, and the right term is built last.
    fn is_bound(&self) -> bool {
        let mut bound = variables(&self.left);
        for condition in &self.conditions {
            if !variables(&condition.start).is_subset(&bound) {
                return false;
            }
            bound.extend(variables(&condition.pattern));
        }
        variables(&self.right).is_subset(&bound)
    }

    /// What refuses a rule inside the grammar, the room of the table left aside.
    ///
    /// 02: "in order within a line"; each is asked of the whole line before the
    /// next.
    fn refusal(&self, closed_recs: &[bool]) -> Option<u32> {
        if !self.is_bound() {
            return Some(NOT_BOUND);
        }
        let too_high = |&name: &u32| name as usize >= VARIABLES;
        if self.variables().iter().any(too_high) {
            return Some(BAD_VARIABLE);
        }
        let closed = |condition: &Condition| closed_recs.get(condition.rec as usize) == Some(&true);
        if !self.conditions.iter().all(closed) {
            return Some(BAD_REC);
        }
        None
    }
}

/// For each of the entries in use, whether it is a REC without free variables.
fn closed_recs(table: &[u32]) -> Vec<bool> {
    free_sets(table)
        .iter()
        .enumerate()
        .map(|(entry, &set)| set == 0 && kind_of(table, entry as u32) == kind::REC)
        .collect()
}

/// The fields of a line, read one after the other.
struct Fields<'a> {
    fields: Vec<&'a [u8]>,
    read: usize,
}

impl<'a> Fields<'a> {
    /// A line without its line feed. A blank line has one empty field.
    fn new(line: &'a [u8]) -> Fields<'a> {
        Fields {
            fields: line.split(|&byte| byte == b'\t').collect(),
            read: 0,
        }
    }

    /// The next field, or one past the last if the line is cut short.
    fn next(&mut self) -> Result<&'a [u8], u32> {
        let field = self.fields.get(self.read).copied();
        self.read += 1;
        field.ok_or(self.read as u32)
    }

    /// The next field as a number of at most `most`, or the number of the field.
    fn number(&mut self, most: u32) -> Result<u32, u32> {
        let field = self.next()?;
        let value = number(field, u64::from(most)).map_err(|()| self.read as u32)?;
        Ok(value as u32)
    }

    /// The next term. A variable's number is inside the grammar up to
    /// 4,294,967,295.
    fn term(&mut self) -> Result<Term, u32> {
        let mut term = Vec::new();
        let mut wanted = 1u64;
        while wanted > 0 {
            wanted -= 1;
            let field = self.next()?;
            let bad = self.read as u32;
            if let Some(name) = field.strip_prefix(b"v") {
                let name = number(name, u64::from(u32::MAX)).map_err(|()| bad)?;
                term.push(Symbol::Variable(name as u32));
            } else {
                let constructor = number(field, u64::from(CONSTRUCTOR)).map_err(|()| bad)?;
                let count = self.number(CHILDREN)?;
                term.push(Symbol::Constructor(constructor as u32, count));
                wanted += u64::from(count);
            }
        }
        Ok(term)
    }
}

/// Reads a rule from a line, which may or may not have ended with a line feed;
/// `Err` with the first bad field.
///
/// 02: "the left term, the right term, then per matching condition the entry
/// number [..], a term to start from and a pattern". The reading: where the line
/// feed is missing and all fields are good, one past the last is the bad field.
fn read_rule(line: &[u8], ended: bool) -> Result<Rule, u32> {
    let mut fields = Fields::new(line);
    let mut rule = Rule {
        left: fields.term()?,
        right: fields.term()?,
        conditions: Vec::new(),
    };
    while fields.read < fields.fields.len() {
        rule.conditions.push(Condition {
            rec: fields.number(u32::MAX)?,
            start: fields.term()?,
            pattern: fields.term()?,
        });
    }
    if !ended {
        return Err(fields.fields.len() as u32 + 1);
    }
    Ok(rule)
}

/// The number of positions of each subterm of a term, in prefix order.
fn sizes(term: &[Symbol]) -> Vec<u32> {
    let mut sizes = vec![1; term.len()];
    let mut pending: Vec<u32> = Vec::new();
    for (index, symbol) in term.iter().enumerate().rev() {
        if let Symbol::Constructor(_, count) = symbol {
            for _ in 0..*count {
                sizes[index] += pending.pop().expect("a term has all its children");
            }
        }
        pending.push(sizes[index]);
    }
    sizes
}

/// The entries of a rule as they are added, from an entry number on.
struct Entries {
    first: u32,
    rows: Vec<[u32; WIDTH]>,
}

impl Entries {
    /// The number that the next entry takes.
    fn next(&self) -> u32 {
        self.first + self.rows.len() as u32
    }

    /// Adds an entry.
    fn add(&mut self, kind: u32, argument: u64, operands: &[u32]) {
        self.rows.push(row_of(kind, argument, operands));
    }

    /// Adds an entry whose one operand comes next.
    fn over(&mut self, kind: u32, argument: u64) {
        let operand = self.next() + 1;
        self.add(kind, argument, &[operand]);
    }

    /// Adds a SEQ whose first operand comes next and has so many entries; its
    /// second comes after these.
    fn seq(&mut self, first: u32) {
        let operand = self.next() + 1;
        self.add(kind::SEQ, 0, &[operand, operand + first]);
    }

    /// Adds a term's patterns in preorder, an entry for every occurrence.
    fn term(&mut self, term: &[Symbol]) {
        let sizes = sizes(term);
        for (index, symbol) in term.iter().enumerate() {
            match *symbol {
                Symbol::Variable(name) => self.add(kind::PVAR, u64::from(name), &[]),
                Symbol::Constructor(constructor, count) => {
                    let mut operands = Vec::new();
                    let mut child = index + 1;
                    for _ in 0..count {
                        operands.push(self.next() + (child - index) as u32);
                        child += sizes[child] as usize;
                    }
                    self.add(kind::PCON, u64::from(constructor), &operands);
                }
            }
        }
    }
}

/// The entries of a rule whose variables are below 64, numbered from `first`.
///
/// 02: "A rule becomes the scope of its variables, match, build [..], with
/// conditions between match and build, each a WHERE of build, CALL, match;
/// entries are added in preorder, SEQs nested to the right."
fn entries_of(rule: &Rule, first: u32) -> Vec<[u32; WIDTH]> {
    let mut entries = Entries {
        first,
        rows: Vec::new(),
    };
    let mask = rule
        .variables()
        .iter()
        .fold(0u64, |mask, name| mask | 1 << name);
    entries.over(kind::SCOPE, mask);
    entries.seq(1 + rule.left.len() as u32);
    entries.over(kind::MATCH, 0);
    entries.term(&rule.left);
    for condition in &rule.conditions {
        let start = condition.start.len() as u32;
        let pattern = condition.pattern.len() as u32;
        // WHERE, SEQ, BUILD with its term, SEQ, CALL, MATCH with its pattern.
        entries.seq(6 + start + pattern);
        entries.over(kind::WHERE, 0);
        entries.seq(1 + start);
        entries.over(kind::BUILD, 0);
        entries.term(&condition.start);
        entries.seq(1);
        entries.add(kind::CALL, 0, &[condition.rec]);
        entries.over(kind::MATCH, 0);
        entries.term(&condition.pattern);
    }
    entries.over(kind::BUILD, 0);
    entries.term(&rule.right);
    entries.rows
}

/// 02: "returns them with answer, line and field".
#[derive(Clone, Copy, Debug, PartialEq, Eq)]
pub struct Translated {
    /// 0, 2, 13 to 17, 18, 19, 20, 22 or 23.
    pub answer: u32,
    /// The first bad line from 1; the lowest bad entry for 13 to 17; else 0.
    pub line: u32,
    /// The first bad field from 1 for 18, else 0.
    pub field: u32,
    /// The entries in use: with those added, or as given.
    pub entries: u32,
}

/// What refuses a lent table with so many entries in use.
///
/// 02: "2 (lent length, or more in use) and 13 to 17 (entry for line) over the
/// entries in use". They are checked as a table of their own; none is fine.
fn table_refusal(table: &[u32], in_use: u32) -> Option<(u32, u32)> {
    if bad_table_length(table) || in_use as usize > table.len() / WIDTH {
        return Some((BAD_LENGTH, 0));
    }
    lowest_bad_entry(&table[..WIDTH * in_use as usize])
}

/// The lines of a text without their line feeds, and whether each had one.
fn lines(text: &[u8]) -> Vec<(&[u8], bool)> {
    let mut lines: Vec<(&[u8], bool)> = text
        .split(|&byte| byte == b'\n')
        .map(|line| (line, true))
        .collect();
    // What follows the last line feed is a line only where it has bytes.
    if let Some((rest, _)) = lines.pop() {
        if !rest.is_empty() {
            lines.push((rest, false));
        }
    }
    lines
}

/// Adds the rules of a text to the entries in use of a lent table.
///
/// 02: "then the first bad line decides and the table stays as lent".
pub fn translate(table: &mut [u32], in_use: u32, text: &[u8]) -> Translated {
    let refused = |answer, line, field| Translated {
        answer,
        line,
        field,
        entries: in_use,
    };
    if let Some((answer, entry)) = table_refusal(table, in_use) {
        return refused(answer, entry, 0);
    }
    let used = WIDTH * in_use as usize;
    let closed = closed_recs(&table[..used]);
    let mut added: Vec<u32> = Vec::new();
    for (index, (line, ended)) in lines(text).into_iter().enumerate() {
        let number = index as u32 + 1;
        let rule = match read_rule(line, ended) {
            Err(field) => return refused(BAD_RULE, number, field),
            Ok(rule) => rule,
        };
        if let Some(answer) = rule.refusal(&closed) {
            return refused(answer, number, 0);
        }
        let next = in_use + (added.len() / WIDTH) as u32;
        let rows = entries_of(&rule, next).concat();
        // The lent length is at most 4,096 entries, so it is the limit to ask for.
        if used + added.len() + rows.len() > table.len() {
            return refused(FULL_TABLE, number, 0);
        }
        added.extend(rows);
    }
    table[used..used + added.len()].copy_from_slice(&added);
    Translated {
        answer: DONE,
        line: 0,
        field: 0,
        entries: in_use + (added.len() / WIDTH) as u32,
    }
}

/// Reads entries in preorder by their kinds alone.
struct Cursor<'a> {
    rest: &'a [u32],
}

impl<'a> Cursor<'a> {
    /// The next entry's words.
    fn row(&mut self) -> Option<&'a [u32]> {
        if self.rest.is_empty() {
            return None;
        }
        let (row, rest) = self.rest.split_at(WIDTH);
        self.rest = rest;
        Some(row)
    }

    /// The next entry's words where it has this kind.
    fn take(&mut self, kind: u32) -> Option<&'a [u32]> {
        self.row().filter(|row| row[0] / 16 == kind)
    }

    /// The next entry's kind, which stays.
    fn kind(&self) -> Option<u32> {
        self.rest.first().map(|word| word / 16)
    }

    /// The next entries as a term.
    fn term(&mut self) -> Option<Term> {
        let mut term = Vec::new();
        let mut wanted = 1;
        while wanted > 0 {
            wanted -= 1;
            let row = self.row()?;
            match row[0] / 16 {
                kind::PVAR => term.push(Symbol::Variable(row[1])),
                kind::PCON => {
                    term.push(Symbol::Constructor(row[1], row[0] % 16));
                    wanted += row[0] % 16;
                }
                _ => return None,
            }
        }
        Some(term)
    }

    /// The next entries as a condition, without the SEQ that stands before it.
    fn condition(&mut self) -> Option<Condition> {
        self.take(kind::WHERE)?;
        self.take(kind::SEQ)?;
        self.take(kind::BUILD)?;
        let start = self.term()?;
        self.take(kind::SEQ)?;
        let rec = self.take(kind::CALL)?[2];
        self.take(kind::MATCH)?;
        let pattern = self.term()?;
        Some(Condition {
            rec,
            start,
            pattern,
        })
    }

    /// The next entries as a rule.
    fn rule(&mut self) -> Option<Rule> {
        self.take(kind::SCOPE)?;
        self.take(kind::SEQ)?;
        self.take(kind::MATCH)?;
        let left = self.term()?;
        let mut conditions = Vec::new();
        while self.kind() == Some(kind::SEQ) {
            self.take(kind::SEQ)?;
            conditions.push(self.condition()?);
        }
        self.take(kind::BUILD)?;
        let right = self.term()?;
        Some(Rule {
            left,
            right,
            conditions,
        })
    }
}

/// The rule that starts at an entry of a good table.
///
/// 02: "5 for an entry that starts no such rule": no rule that the translator
/// would take has exactly these entries, numbered from there. Its RECs may stand
/// anywhere among the entries in use.
fn rule_at(table: &[u32], entry: u32) -> Option<Rule> {
    let first = WIDTH * entry as usize;
    let mut cursor = Cursor {
        rest: table.get(first..)?,
    };
    let rule = cursor.rule()?;
    if rule.refusal(&closed_recs(table)).is_some() {
        return None;
    }
    let words = entries_of(&rule, entry).concat();
    if table[first..first + words.len()] != words[..] {
        return None;
    }
    Some(rule)
}

/// Appends a term's fields, each with a tab before it.
fn push_term(text: &mut String, term: &[Symbol]) {
    for symbol in term {
        match symbol {
            Symbol::Variable(name) => text.push_str(&format!("\tv{}", name)),
            Symbol::Constructor(constructor, count) => {
                text.push_str(&format!("\t{}\t{}", constructor, count))
            }
        }
    }
}

/// The line of a rule, with its line feed.
pub fn line_of(rule: &Rule) -> String {
    let mut text = String::new();
    push_term(&mut text, &rule.left);
    push_term(&mut text, &rule.right);
    for condition in &rule.conditions {
        text.push_str(&format!("\t{}", condition.rec));
        push_term(&mut text, &condition.start);
        push_term(&mut text, &condition.pattern);
    }
    text.push('\n');
    text.split_off(1)
}

/// What the writer returns.
#[derive(Clone, Copy, Debug, PartialEq, Eq)]
pub struct Written {
    /// 0, 2, 13 to 17, 5 or 26.
    pub answer: u32,
    /// The lowest bad entry for 13 to 17, else 0.
    pub place: u32,
    /// The bytes written; 0 for a refusal.
    pub length: u32,
}

/// Prints the rule that starts at an entry into a buffer.
///
/// 02: "a writer prints any translated rule back to the same bytes"; it "refuses
/// the table likewise, 5 for an entry that starts no such rule, 26 for too short a
/// buffer, writing nothing." The reading: the length is 0 where it is refused.
pub fn write_rule(table: &[u32], in_use: u32, entry: u32, buffer: &mut [u8]) -> Written {
    let refused = |answer, place| Written {
        answer,
        place,
        length: 0,
    };
    if let Some((answer, place)) = table_refusal(table, in_use) {
        return refused(answer, place);
    }
    let rule = match rule_at(&table[..WIDTH * in_use as usize], entry) {
        None => return refused(BAD_START, 0),
        Some(rule) => rule,
    };
    let text = line_of(&rule);
    if buffer.len() < text.len() {
        return refused(SHORT_BUFFER, 0);
    }
    buffer[..text.len()].copy_from_slice(text.as_bytes());
    Written {
        answer: DONE,
        place: 0,
        length: text.len() as u32,
    }
}
