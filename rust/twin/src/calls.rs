//! Cases of the calls that 02 adds, as lines of text.
//!
//! A case: `TAG MARK START SUBJECT UNITS SLICES (SLICE LENGTH FILL).. PATCHES
//! (SLICE WORD VALUE).. LABEL`. The tag says which call is meant. A slice that
//! the line does not list is not lent, which is not the same as an empty one.
//! Every word of a slice begins as its FILL; in the store only the words from
//! word 8 times MARK on, and those before begin as 0. Then each patch sets one
//! word.
//!
//! The slices: 0 table, 1 store, 2 bindings, 3 signature, 4 subjects, 5 results,
//! 6 work list, 7 index, 8 counts (of 64 bits), 9 steps, 10 text and 11 buffer (a
//! byte in each word).
//!
//! The tags and their answers, where WORDS are ` INDEX=VALUE` for each word that
//! is not zero, or one sum where there are more than 512 words:
//!
//! `l`, a run with what is lent: `LABEL ANSWER PLACE SUBJECT MARK UNITS`, the
//! bindings' WORDS, ` :`, the store's WORDS.
//!
//! `m`, many subjects: `LABEL ANSWER PLACE`, the bindings' WORDS, ` :`, the
//! store's WORDS, ` :`, the results' WORDS. SUBJECT is 0.
//!
//! `p`, a stepped run: a start call, then the step calls that the steps list,
//! then steps of 4,294,967,295 visits until the run ends, then one step of one
//! visit more. Where the start is refused, a step of one visit is made where the
//! work list is all zero, and else none. `LABEL`, the start's five numbers, ` /`
//! and five numbers for each step, ` :`, the bindings' WORDS, ` :`, the store's
//! WORDS, ` :`, the work list's WORDS.
//!
//! Where an index is lent to `l` or `m`, ` :` and its WORDS follow.
//!
//! `k`, a counted run: `LABEL ANSWER PLACE SUBJECT MARK UNITS PATTERNS PAIRS`, the
//! bindings' WORDS, ` :`, the store's WORDS, where an index is lent ` :` and its
//! WORDS, ` :`, the counts' WORDS.
//!
//! `r`, the translator: `LABEL ANSWER LINE FIELD ENTRIES`, the table's WORDS. MARK
//! is the number of entries in use; START, SUBJECT and UNITS are 0. `w`, the
//! writer: `LABEL ANSWER PLACE LENGTH`, the buffer's WORDS. START is the entry.

use crate::checks::{UNFINISHED, WIDTH};
use crate::engine::Lent;
use crate::rules::{translate, write_rule};
use crate::steps::{start_run, step_run};
use crate::text::{field, label, show_slice, RunCase};
use std::collections::BTreeMap;
use std::fmt::Write;

/// The longest slice of a case, in words.
pub const CASE_WORDS: usize = 1 << 21;

/// The number of the table among the slices.
pub const TABLE: u32 = 0;
/// The number of the store.
pub const STORE: u32 = 1;
/// The number of the bindings.
pub const BINDINGS: u32 = 2;
/// The number of the signature.
pub const SIGNATURE: u32 = 3;
/// The number of the subjects.
pub const SUBJECTS: u32 = 4;
/// The number of the results.
pub const RESULTS: u32 = 5;
/// The number of the work list.
pub const WORK: u32 = 6;
/// The number of the steps.
pub const STEPS: u32 = 9;
/// The number of the index.
pub const INDEX: u32 = 7;
/// The number of the counts.
pub const COUNTED: u32 = 8;
/// The number of the text.
pub const TEXT: u32 = 10;
/// The number of the buffer.
pub const BUFFER: u32 = 11;

/// Which call a case is for.
#[derive(Clone, Copy, Debug, PartialEq, Eq)]
pub enum Call {
    /// One run.
    Run,
    /// Many subjects.
    Many,
    /// A stepped run.
    Step,
    /// A counted run.
    Count,
    /// The translator of rules.
    Translate,
    /// The writer of a rule.
    Write,
}

/// The calls and their tags.
const TAGS: [(Call, &str); 6] = [
    (Call::Run, "l"),
    (Call::Many, "m"),
    (Call::Step, "p"),
    (Call::Count, "k"),
    (Call::Translate, "r"),
    (Call::Write, "w"),
];

/// One input of a call.
#[derive(Clone, Debug, PartialEq, Eq)]
pub struct CallCase {
    /// The call.
    pub call: Call,
    /// The table, the store, the bindings and the numbers.
    pub run: RunCase,
    /// What is lent besides, by the slices' numbers.
    pub lent: BTreeMap<u32, Vec<u64>>,
}

/// Words as 64 bits.
pub fn wide(words: &[u32]) -> Vec<u64> {
    words.iter().map(|&word| u64::from(word)).collect()
}

/// Words as 32 bits. A case has none that is greater.
fn narrow(words: &[u64]) -> Result<Vec<u32>, String> {
    words
        .iter()
        .map(|&word| u32::try_from(word).map_err(|_| format!("no 32 bits: {}", word)))
        .collect()
}

/// The word that a slice begins with at an index.
fn base(slice: u32, index: usize, fill: u64, mark: u32) -> u64 {
    if slice == STORE && index < WIDTH * mark as usize {
        0
    } else {
        fill
    }
}

/// A fill that leaves few patches: 0, or a word that much of the slice has.
fn fill_of(slice: u32, words: &[u64], mark: u32) -> u64 {
    let patches = |fill: &u64| {
        let differs = |&(index, &word): &(usize, &u64)| word != base(slice, index, *fill, mark);
        words.iter().enumerate().filter(differs).count()
    };
    let middle = words.get(words.len() / 2).copied().unwrap_or(0);
    let last = words.last().copied().unwrap_or(0);
    if patches(&last) == 0 {
        return last;
    }
    let fills = [0, middle, last];
    fills.into_iter().min_by_key(patches).unwrap_or(0)
}

impl CallCase {
    /// All slices of the case by their numbers.
    fn slices(&self) -> BTreeMap<u32, Vec<u64>> {
        let mut all = self.lent.clone();
        all.insert(TABLE, wide(&self.run.table));
        // Rules need no store.
        if !matches!(self.call, Call::Translate | Call::Write) {
            all.insert(STORE, wide(&self.run.store));
            all.insert(BINDINGS, wide(&self.run.bindings));
        }
        all
    }

    /// A lent slice of 32-bit words, if it is lent.
    pub fn words(&self, slice: u32) -> Option<Vec<u32>> {
        let words = self.lent.get(&slice)?;
        Some(narrow(words).expect("the slice has 32-bit words"))
    }

    /// A lent slice of bytes.
    pub fn bytes(&self, slice: u32) -> Vec<u8> {
        let words = self.lent.get(&slice).cloned().unwrap_or_default();
        words.iter().map(|&word| word as u8).collect()
    }

    /// The case as a line, without the line feed.
    pub fn line(&self) -> String {
        let run = &self.run;
        let slices = self.slices();
        let mut heads = String::new();
        let mut patches = String::new();
        let mut count = 0;
        for (&slice, words) in &slices {
            let fill = fill_of(slice, words, run.mark);
            write!(heads, " {} {} {}", slice, words.len(), fill).expect("a string takes all text");
            for (index, &word) in words.iter().enumerate() {
                if word != base(slice, index, fill, run.mark) {
                    count += 1;
                    write!(patches, " {} {} {}", slice, index, word)
                        .expect("a string takes all text");
                }
            }
        }
        let tag = TAGS.iter().find(|(call, _)| *call == self.call);
        format!(
            "{} {} {} {} {} {}{} {}{} {}",
            tag.expect("every call has a tag").1,
            run.mark,
            run.start,
            run.subject,
            run.units,
            slices.len(),
            heads,
            count,
            patches,
            run.label
        )
    }

    /// Reads a case from its line.
    pub fn parse(line: &str) -> Result<CallCase, String> {
        let mut fields = line.split_whitespace();
        let tag = fields.next().ok_or("an empty line")?;
        let call = TAGS.iter().find(|(_, name)| *name == tag);
        let call = call.ok_or_else(|| format!("no such tag: {}", tag))?.0;
        let mark = field(&mut fields)?;
        let start = field(&mut fields)?;
        let subject = field(&mut fields)?;
        let units = field(&mut fields)?;
        let mut slices = BTreeMap::new();
        let count: usize = field(&mut fields)?;
        for _ in 0..count {
            let slice: u32 = field(&mut fields)?;
            let length: usize = field(&mut fields)?;
            let fill: u64 = field(&mut fields)?;
            if length > CASE_WORDS {
                return Err("a slice is too long".to_string());
            }
            let words = (0..length).map(|index| base(slice, index, fill, mark));
            slices.insert(slice, words.collect::<Vec<u64>>());
        }
        let patches: usize = field(&mut fields)?;
        for _ in 0..patches {
            let slice: u32 = field(&mut fields)?;
            let word: usize = field(&mut fields)?;
            let value: u64 = field(&mut fields)?;
            let words = slices.get_mut(&slice).ok_or("no such slice")?;
            *words.get_mut(word).ok_or("no such word")? = value;
        }
        let mut take = |slice: u32| narrow(&slices.remove(&slice).unwrap_or_default());
        Ok(CallCase {
            call,
            run: RunCase {
                table: take(TABLE)?,
                store: take(STORE)?,
                bindings: take(BINDINGS)?,
                mark,
                start,
                subject,
                units,
                label: label(&mut fields)?,
            },
            lent: slices,
        })
    }

    /// Answers the case as a line, without the line feed.
    pub fn answer(self) -> String {
        match self.call {
            Call::Run => self.answer_run(),
            Call::Many => self.answer_many(),
            Call::Step => self.answer_steps(),
            Call::Count => self.answer_count(),
            Call::Translate => self.answer_translate(),
            Call::Write => self.answer_write(),
        }
    }

    /// Answers a run with what is lent.
    fn answer_run(self) -> String {
        let signature = self.words(SIGNATURE);
        let mut index = self.words(INDEX);
        let mut run = self.run;
        let lent = Lent {
            signature: signature.as_deref(),
            index: index.as_deref_mut(),
        };
        let outcome = run.run_lent(lent);
        let mut line = format!("{} {}", run.label, outcome);
        show_slice(&mut line, &run.bindings);
        for words in [Some(run.store), index].iter().flatten() {
            line.push_str(" :");
            show_slice(&mut line, words);
        }
        line
    }

    /// Answers a call with many subjects.
    fn answer_many(self) -> String {
        let signature = self.words(SIGNATURE);
        let subjects = self.words(SUBJECTS).unwrap_or_default();
        let mut results = self.words(RESULTS).unwrap_or_default();
        let mut index = self.words(INDEX);
        let mut run = self.run;
        let lent = Lent {
            signature: signature.as_deref(),
            index: index.as_deref_mut(),
        };
        let (answer, place) = run.run_many(&subjects, &mut results, lent);
        let mut line = format!("{} {} {}", run.label, answer, place);
        show_slice(&mut line, &run.bindings);
        for words in [Some(run.store), Some(results), index].iter().flatten() {
            line.push_str(" :");
            show_slice(&mut line, words);
        }
        line
    }

    /// Answers a counted run.
    fn answer_count(self) -> String {
        let signature = self.words(SIGNATURE);
        let mut index = self.words(INDEX);
        let mut counts = self.lent.get(&COUNTED).cloned().unwrap_or_default();
        let mut run = self.run;
        let lent = Lent {
            signature: signature.as_deref(),
            index: index.as_deref_mut(),
        };
        let end = run.run_counted(lent, &mut counts);
        let mut line = format!(
            "{} {} {} {}",
            run.label, end.outcome, end.patterns, end.pairs
        );
        show_slice(&mut line, &run.bindings);
        for words in [Some(run.store), index].iter().flatten() {
            line.push_str(" :");
            show_slice(&mut line, words);
        }
        line.push_str(" :");
        show_slice(&mut line, &counts);
        line
    }

    /// Answers a stepped run.
    fn answer_steps(self) -> String {
        let signature = self.words(SIGNATURE);
        let mut work = self.words(WORK).unwrap_or_default();
        let zeros = work.iter().all(|&word| word == 0);
        let steps = self.words(STEPS).unwrap_or_default();
        let mut run = self.run;
        let first = start_run(
            &run.table,
            &mut run.store,
            &mut run.bindings,
            run.mark,
            run.start,
            run.subject,
            run.units,
            signature.as_deref(),
            &mut work,
        );
        let mut line = format!("{} {}", run.label, first);
        let mut step = |visits: u32| {
            let end = step_run(
                &run.table,
                &mut run.store,
                &mut run.bindings,
                visits,
                &mut work,
            );
            write!(line, " / {}", end).expect("a string takes all text");
            end.answer
        };
        let mut answer = first.answer;
        let mut rest = steps.into_iter();
        while answer == UNFINISHED {
            answer = step(rest.next().unwrap_or(u32::MAX));
        }
        // One step after the end, or on a work list of zeros.
        if first.answer == UNFINISHED || zeros {
            step(1);
        }
        for words in [&run.bindings, &run.store, &work] {
            line.push_str(" :");
            show_slice(&mut line, words);
        }
        line
    }

    /// Answers the translator.
    fn answer_translate(self) -> String {
        let text = self.bytes(TEXT);
        let mut run = self.run;
        let end = translate(&mut run.table, run.mark, &text);
        let mut line = format!(
            "{} {} {} {} {}",
            run.label, end.answer, end.line, end.field, end.entries
        );
        show_slice(&mut line, &run.table);
        line
    }

    /// Answers the writer.
    fn answer_write(self) -> String {
        let mut buffer = self.bytes(BUFFER);
        let run = self.run;
        let end = write_rule(&run.table, run.mark, run.start, &mut buffer);
        let mut line = format!("{} {} {} {}", run.label, end.answer, end.place, end.length);
        let bytes: Vec<u64> = buffer.iter().map(|&byte| u64::from(byte)).collect();
        show_slice(&mut line, &bytes);
        line
    }
}
