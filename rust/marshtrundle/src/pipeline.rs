//! Named passes, one after the other, with a report.
//!
//! Each pass runs on what the one before left. A pass that fails found nothing to do: the term is as it was, and the next pass
//! runs. A pass with any other answer ends the pipeline: it was refused or cut off. After each pass that is done, what nothing reaches any more is
//! collected.
//!
//! ```
//! # fn main() -> Result<(), Box<dyn std::error::Error>> {
//! use marshtrundle::pipeline::Pipeline;
//! use marshtrundle::strategy::*;
//! use marshtrundle::{Bindings, Store, VARS};
//! let [x, ..] = VARS;
//! let mut pipeline = Pipeline::new();
//! pipeline.pass("double negation", &innermost(rule(con(1, [con(1, [var(x)])]), var(x))))?;
//! pipeline.pass("nothing to do", &once_td(rule(con(9, []), con(8, []))))?;
//!
//! let mut store = Store::new();
//! let mut term = store.node(2, &[])?;
//! for _ in 0..5 {
//!     term = store.node(1, &[term])?;
//! }
//! store.most_room();
//! let report = pipeline.run(&mut store, &mut Bindings::new(), term);
//! let after = report.end()?;
//! assert_eq!(store.term(after).unwrap().to_string(), "1(2)");
//! assert!(report.passes[0].changed && !report.passes[1].changed);
//! println!("{report}");
//! # Ok(())
//! # }
//! ```
use crate::answer::{Answer, BuildError};
use crate::bindings::Bindings;
use crate::store::{Node, Store};
use crate::strategy::Strategy;
use crate::table::{Entry, Table};
use std::fmt;
use std::time::{Duration, Instant};

/// Passes in their order.
#[derive(Clone, Debug)]
pub struct Pipeline {
    passes: Vec<(String, Table)>,
    units: u32,
}

impl Default for Pipeline {
    fn default() -> Pipeline {
        Pipeline::new()
    }
}

impl Pipeline {
    /// A pipeline without passes. Each pass gets 4,294,967,295 units.
    pub fn new() -> Pipeline {
        Pipeline {
            passes: vec![],
            units: u32::MAX,
        }
    }

    /// The units that each pass gets.
    pub fn units(&mut self, units: u32) -> &mut Pipeline {
        self.units = units;
        self
    }

    /// Adds a pass. Two passes may have one name, and a report has a line for each.
    pub fn pass(&mut self, name: &str, strategy: &Strategy) -> Result<&mut Pipeline, BuildError> {
        self.passes.push((name.to_owned(), Table::of(strategy)?));
        Ok(self)
    }

    /// Runs the passes on the subject. The calling thread needs [`STACK`](crate::STACK) bytes of stack. The store's room is what
    /// the caller made: [`Store::most_room`] makes all there can be.
    pub fn run(&self, store: &mut Store, bindings: &mut Bindings, subject: Node) -> Report {
        let mut report = Report {
            subject,
            passes: vec![],
        };
        for (name, table) in &self.passes {
            let began = Instant::now();
            let before = store.mark();
            let out = crate::run(
                table,
                store,
                bindings,
                Entry::FIRST,
                report.subject,
                self.units,
            );
            let made = store.mark().saturating_sub(before);
            let mut answer = out.answer;
            let changed = answer == Answer::Done && {
                let (old, new) = (store.term(report.subject), store.term(out.subject));
                old != new
            };
            if answer == Answer::Done {
                report.subject = out.subject;
                match store.collect(bindings, out.subject) {
                    Ok(subject) => report.subject = subject,
                    Err(refused) => answer = refused,
                }
            }
            report.passes.push(PassReport {
                name: name.clone(),
                answer,
                changed,
                units: out.units,
                made,
                mark: store.mark(),
                time: began.elapsed(),
            });
            if !answer.is_done_or_failed() {
                break;
            }
        }
        report
    }
}

/// How each pass went, and the subject that the last one left.
#[derive(Clone, Debug)]
#[must_use]
pub struct Report {
    /// The subject after the last pass that was done.
    pub subject: Node,
    /// The passes that ran. One that ended the pipeline is the last.
    pub passes: Vec<PassReport>,
}

/// How one pass went.
#[derive(Clone, Debug)]
pub struct PassReport {
    /// The pass's name.
    pub name: String,
    /// How it ended.
    pub answer: Answer,
    /// Whether the term that it left is another than the term it was given.
    pub changed: bool,
    /// The visits that were counted.
    pub units: u32,
    /// The nodes that it made and left, before the collection.
    pub made: u32,
    /// The nodes in use after the collection.
    pub mark: u32,
    /// The time that the run, the comparison and the collection took.
    pub time: Duration,
}

/// A pass that ended the pipeline: its name and its answer.
#[derive(Clone, Debug, PartialEq, Eq)]
pub struct Stopped {
    /// The pass's name.
    pub pass: String,
    /// How it ended.
    pub answer: Answer,
}

impl fmt::Display for Stopped {
    fn fmt(&self, f: &mut fmt::Formatter<'_>) -> fmt::Result {
        write!(f, "the pass '{}' stopped: {}", self.pass, self.answer)
    }
}

impl std::error::Error for Stopped {}

impl Report {
    /// The subject that the last pass left, and the pass that ended the pipeline otherwise.
    pub fn end(&self) -> Result<Node, Stopped> {
        match self.passes.last() {
            Some(last) if !last.answer.is_done_or_failed() => Err(Stopped {
                pass: last.name.clone(),
                answer: last.answer,
            }),
            _ => Ok(self.subject),
        }
    }
}

/// A table with a line for each pass.
impl fmt::Display for Report {
    fn fmt(&self, f: &mut fmt::Formatter<'_>) -> fmt::Result {
        let width = self.passes.iter().map(|pass| pass.name.chars().count());
        let width = width.chain([4]).max().unwrap_or(4);
        writeln!(
            f,
            "{:width$}  {:>10}  {:>7}  {:>7}  {:>9}  answer",
            "pass", "units", "made", "in use", "ms"
        )?;
        for pass in &self.passes {
            let changed = if pass.answer == Answer::Done && !pass.changed {
                ", nothing changed"
            } else {
                ""
            };
            writeln!(
                f,
                "{:width$}  {:>10}  {:>7}  {:>7}  {:>9.3}  {}{changed}",
                pass.name,
                pass.units,
                pass.made,
                pass.mark,
                pass.time.as_secs_f64() * 1_000.0,
                pass.answer,
            )?;
        }
        Ok(())
    }
}
