//! Cases as lines of text, so that another program can be fed through a pipe.
//!
//! A run: `TABLE STORE BINDINGS MARK START SUBJECT UNITS FILL HEAD ARGUMENT
//! SECOND PATCHES (SLICE WORD VALUE).. LABEL`. The first three are lengths in
//! words of slices that begin as zeros. FILL 1 sets every store word from word
//! 8 times MARK on to 4,294,967,295. Then each patch sets one word of slice 0
//! (table), 1 (store) or 2 (bindings). HEAD, ARGUMENT and SECOND are always 0.
//!
//! Its answer: `LABEL ANSWER PLACE SUBJECT MARK UNITS`, the bindings words that
//! are not zero as `INDEX=VALUE`, `:`, then the store's words in the same way,
//! or one sum where the store has more than 512 words.
//!
//! A question of free variables: `t LENGTH ENTRY PATCHES (WORD VALUE).. LABEL`,
//! and its answer: `LABEL ANSWER PLACE MASK`.
//!
//! Jobs: `# LENGTH`, a line feed, then exactly so many bytes; answers likewise.

use crate::checks::WIDTH;
use crate::counts::{run_counted, Counted};
use crate::engine::{run, run_lent, Lent, Outcome};
use crate::free::free_variables;
use crate::many::run_many;
use std::fmt::Write;
use std::str::{FromStr, SplitWhitespace};

/// The longest table of a case, in words.
pub const CASE_TABLE_WORDS: usize = 32_776;
/// The longest store of a case, in words.
pub const CASE_STORE_WORDS: usize = 1_048_584;
/// The longest bindings of a case, in words.
pub const CASE_BINDINGS_WORDS: usize = 72;
/// The longest store that an answer shows word by word.
pub const SHOWN_STORE_WORDS: usize = 512;

/// One input of a run.
#[derive(Clone, Debug, PartialEq, Eq)]
pub struct RunCase {
    /// The table's words.
    pub table: Vec<u32>,
    /// The store's words.
    pub store: Vec<u32>,
    /// The bindings' words.
    pub bindings: Vec<u32>,
    /// The mark.
    pub mark: u32,
    /// The start.
    pub start: u32,
    /// The subject.
    pub subject: u32,
    /// The units.
    pub units: u32,
    /// The name of the case.
    pub label: String,
}

impl RunCase {
    /// Makes the run of this input, with what is lent beside it.
    pub fn run_lent(&mut self, lent: Lent) -> Outcome {
        run_lent(
            &self.table,
            &mut self.store,
            &mut self.bindings,
            self.mark,
            self.start,
            self.subject,
            self.units,
            lent,
            &mut (),
        )
    }

    /// Makes the counted run of this input, with what is lent beside it.
    pub fn run_counted(&mut self, lent: Lent, counts: &mut [u64]) -> Counted {
        run_counted(
            &self.table,
            &mut self.store,
            &mut self.bindings,
            self.mark,
            self.start,
            self.subject,
            self.units,
            lent,
            counts,
        )
    }

    /// Makes the call over many subjects, in place of this input's own, with
    /// what is lent beside it.
    pub fn run_many(&mut self, subjects: &[u32], results: &mut [u32], lent: Lent) -> (u32, u32) {
        run_many(
            &self.table,
            &mut self.store,
            &self.bindings,
            self.mark,
            self.start,
            subjects,
            self.units,
            results,
            lent,
        )
    }
}

/// The store that a line's patches are applied to.
fn base_store(length: usize, mark: u32, fill: bool) -> Vec<u32> {
    let mut store = vec![0; length];
    if fill {
        for word in store.iter_mut().skip(WIDTH * mark as usize) {
            *word = u32::MAX;
        }
    }
    store
}

/// Takes the next field of a line as a number.
pub(crate) fn field<T: FromStr>(fields: &mut SplitWhitespace) -> Result<T, String> {
    let text = fields.next().ok_or("the line ends too early")?;
    text.parse().map_err(|_| format!("no number: {}", text))
}

/// Takes the label, which must be the last field.
pub(crate) fn label(fields: &mut SplitWhitespace) -> Result<String, String> {
    let label = fields.next().ok_or("no label")?.to_string();
    match fields.next() {
        None => Ok(label),
        Some(more) => Err(format!("after the label: {}", more)),
    }
}

/// Sets a word of a slice.
fn patch(slice: &mut [u32], word: usize, value: u32) -> Result<(), String> {
    match slice.get_mut(word) {
        None => Err(format!("no word {}", word)),
        Some(place) => {
            *place = value;
            Ok(())
        }
    }
}

/// Appends ` INDEX=VALUE` for each word that is not zero.
fn show_words(line: &mut String, words: &[u32]) {
    for (index, &word) in words.iter().enumerate() {
        if word != 0 {
            write!(line, " {}={}", index, word).expect("a string takes all text");
        }
    }
}

impl RunCase {
    /// The case as a line, without the line feed. FILL is 1 where that makes
    /// fewer patches.
    pub fn line(&self) -> String {
        let mut patches = 0;
        let mut text = String::new();
        let above = (WIDTH * self.mark as usize).min(self.store.len());
        let zeros = self.store[above..].iter().filter(|&&word| word == 0);
        let ones = self.store[above..].iter().filter(|&&word| word == u32::MAX);
        let fill = ones.count() > zeros.count();
        let base = base_store(self.store.len(), self.mark, fill);
        let table = vec![0; self.table.len()];
        let bindings = vec![0; self.bindings.len()];
        let slices = [
            (&self.table, &table),
            (&self.store, &base),
            (&self.bindings, &bindings),
        ];
        for (slice, (words, before)) in slices.iter().enumerate() {
            for (word, &value) in words.iter().enumerate() {
                if value != before[word] {
                    patches += 1;
                    write!(text, " {} {} {}", slice, word, value).expect("a string takes all text");
                }
            }
        }
        format!(
            "{} {} {} {} {} {} {} {} 0 0 0 {}{} {}",
            self.table.len(),
            self.store.len(),
            self.bindings.len(),
            self.mark,
            self.start,
            self.subject,
            self.units,
            u32::from(fill),
            patches,
            text,
            self.label
        )
    }

    /// Reads a case from its line.
    pub fn parse(line: &str) -> Result<RunCase, String> {
        let mut fields = line.split_whitespace();
        let table: usize = field(&mut fields)?;
        let store: usize = field(&mut fields)?;
        let bindings: usize = field(&mut fields)?;
        if table > CASE_TABLE_WORDS || store > CASE_STORE_WORDS || bindings > CASE_BINDINGS_WORDS {
            return Err("a slice is too long".to_string());
        }
        let mark = field(&mut fields)?;
        let start = field(&mut fields)?;
        let subject = field(&mut fields)?;
        let units = field(&mut fields)?;
        let fill: u32 = field(&mut fields)?;
        if fill > 1 {
            return Err("FILL is 0 or 1".to_string());
        }
        for _ in 0..3 {
            if field::<u32>(&mut fields)? != 0 {
                return Err("HEAD, ARGUMENT and SECOND are 0".to_string());
            }
        }
        let mut slices = [
            vec![0; table],
            base_store(store, mark, fill == 1),
            vec![0; bindings],
        ];
        let patches: usize = field(&mut fields)?;
        for _ in 0..patches {
            let slice: usize = field(&mut fields)?;
            let word = field(&mut fields)?;
            let value = field(&mut fields)?;
            let words = slices.get_mut(slice).ok_or("no such slice")?;
            patch(words, word, value)?;
        }
        let [table, store, bindings] = slices;
        Ok(RunCase {
            table,
            store,
            bindings,
            mark,
            start,
            subject,
            units,
            label: label(&mut fields)?,
        })
    }

    /// Runs the case and gives its answer as a line, without the line feed.
    pub fn answer(mut self) -> String {
        let outcome = run(
            &self.table,
            &mut self.store,
            &mut self.bindings,
            self.mark,
            self.start,
            self.subject,
            self.units,
        );
        let mut line = format!(
            "{} {} {} {} {} {}",
            self.label, outcome.answer, outcome.place, outcome.subject, outcome.mark, outcome.units
        );
        show_words(&mut line, &self.bindings);
        line.push_str(" :");
        if self.store.len() <= SHOWN_STORE_WORDS {
            show_words(&mut line, &self.store);
        } else {
            write!(line, " {}", sum(&self.store)).expect("a string takes all text");
        }
        line
    }
}

/// The sum that stands for a long store: h becomes 31 h + w for each word w.
pub fn sum(words: &[u32]) -> u32 {
    words
        .iter()
        .fold(0u32, |h, &word| h.wrapping_mul(31).wrapping_add(word))
}

/// Appends a slice's words as [`show_words`] does, or their sum where there are
/// more than [`SHOWN_STORE_WORDS`]. The sum is taken modulo 2^64.
pub(crate) fn show_slice<N: Copy + Into<u64>>(line: &mut String, words: &[N]) {
    let words = words.iter().map(|&word| word.into());
    if words.len() > SHOWN_STORE_WORDS {
        let sum = words.fold(0u64, |h, word| h.wrapping_mul(31).wrapping_add(word));
        write!(line, " {}", sum).expect("a string takes all text");
        return;
    }
    for (index, word) in words.enumerate() {
        if word != 0 {
            write!(line, " {}={}", index, word).expect("a string takes all text");
        }
    }
}

/// One question of free variables.
#[derive(Clone, Debug, PartialEq, Eq)]
pub struct FreeCase {
    /// The table's words.
    pub table: Vec<u32>,
    /// The entry asked about.
    pub entry: u32,
    /// The name of the case.
    pub label: String,
}

impl FreeCase {
    /// The case as a line, without the line feed.
    pub fn line(&self) -> String {
        let mut patches = 0;
        let mut text = String::new();
        for (word, &value) in self.table.iter().enumerate() {
            if value != 0 {
                patches += 1;
                write!(text, " {} {}", word, value).expect("a string takes all text");
            }
        }
        format!(
            "t {} {} {}{} {}",
            self.table.len(),
            self.entry,
            patches,
            text,
            self.label
        )
    }

    /// Reads a case from its line.
    pub fn parse(line: &str) -> Result<FreeCase, String> {
        let mut fields = line.split_whitespace();
        if fields.next() != Some("t") {
            return Err("the line does not begin with t".to_string());
        }
        let length: usize = field(&mut fields)?;
        if length > CASE_TABLE_WORDS {
            return Err("the table is too long".to_string());
        }
        let entry = field(&mut fields)?;
        let mut table = vec![0; length];
        let patches: usize = field(&mut fields)?;
        for _ in 0..patches {
            let word = field(&mut fields)?;
            let value = field(&mut fields)?;
            patch(&mut table, word, value)?;
        }
        Ok(FreeCase {
            table,
            entry,
            label: label(&mut fields)?,
        })
    }

    /// Answers the question as a line, without the line feed.
    pub fn answer(&self) -> String {
        let (answer, place, mask) = free_variables(&self.table, self.entry);
        format!("{} {} {} {}", self.label, answer, place, mask)
    }
}

/// Appends one text to a stream: `# LENGTH`, a line feed, the bytes.
pub fn push_framed(stream: &mut Vec<u8>, text: &[u8]) {
    stream.extend_from_slice(format!("# {}\n", text.len()).as_bytes());
    stream.extend_from_slice(text);
}

/// Takes the first text from a stream and leaves the rest; `None` at its end.
pub fn take_framed<'a>(stream: &mut &'a [u8]) -> Result<Option<&'a [u8]>, String> {
    if stream.is_empty() {
        return Ok(None);
    }
    let end = stream
        .iter()
        .position(|&byte| byte == b'\n')
        .ok_or("a header without its line feed")?;
    let header = String::from_utf8_lossy(&stream[..end]).into_owned();
    let length: usize = header
        .strip_prefix("# ")
        .and_then(|number| number.parse().ok())
        .ok_or_else(|| format!("no header: {}", header))?;
    let rest = &stream[end + 1..];
    if rest.len() < length {
        return Err("the stream ends too early".to_string());
    }
    let (text, rest) = rest.split_at(length);
    *stream = rest;
    Ok(Some(text))
}
