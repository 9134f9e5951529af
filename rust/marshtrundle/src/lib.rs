//! Runs System S strategies over a store of terms. The engine is a proved library; this crate is its safe Rust face.
//!
//! # The handler that was judged dead
//!
//! An optimiser inside a linker once pruned programs with an interpreter that had a fault. A branch bound a variable and
//! failed, and the binding stayed. The next handler in a table of handlers was compared with the old one. It did not match,
//! and was judged dead. A billing service stopped at its first tariff change, on a call into a function that the linker had
//! removed.
//!
//! Here is such a pruner. No call names `TARIFF_CHANGE`; only the table of handlers does, and not in its first place. The
//! pruner looks for it there. The first branch binds `handler` to the table's first handler, finds that it is another
//! function, and fails. The binding goes with the branch. So the search goes on with `handler` unbound, and the function is
//! kept.
//!
//! ```
//! use marshtrundle::strategy::*;
//! use marshtrundle::{free_variables, run, Answer, Bindings, Entry, Store, Table, VARS};
//!
//! # fn main() -> Result<(), Box<dyn std::error::Error>> {
//! // A module has a list of functions and a list of handlers. Names are constants.
//! const MODULE: u16 = 1;
//! const FUNCTION: u16 = 2;
//! const HANDLER: u16 = 3;
//! const END: u16 = 4;
//! const CHARGE: u16 = 100;
//! const TARIFF_CHANGE: u16 = 101;
//! const OLD_REPORT: u16 = 102;
//!
//! let [functions, handlers, name, handler, next, more, ..] = VARS;
//!
//! // On the list of handlers: is `name` one of them?
//! let is_named = rec(|look_on| {
//!     left(
//!         seq(
//!             match_(con(HANDLER, [var(handler), var(next)])),
//!             where_(seq(build(var(handler)), match_(var(name)))),
//!         ),
//!         path(2, look_on),
//!     )
//! });
//!
//! // On a function: is it alive?
//! let is_alive = scope(
//!     [name, handler, next, more],
//!     seq(
//!         match_(con(FUNCTION, [var(name), var(more)])),
//!         where_(seq(build(var(handlers)), is_named)),
//!     ),
//! );
//!
//! // On the list of functions: keep what is alive and drop the rest.
//! let prune = rec(|go_on| {
//!     left(
//!         match_(con(END, [])),
//!         left(
//!             seq(is_alive, path(2, go_on.clone())),
//!             seq(rule(con(FUNCTION, [var(name), var(more)]), var(more)), go_on),
//!         ),
//!     )
//! });
//!
//! let pruner = scope(
//!     [functions, handlers],
//!     seq(match_(con(MODULE, [var(functions), var(handlers)])), path(1, prune)),
//! );
//!
//! // The program: three functions, two of them handlers.
//! let mut store = Store::new();
//! let end = store.node(END, &[])?;
//! let mut functions = end;
//! for function in [OLD_REPORT, TARIFF_CHANGE, CHARGE] {
//!     let name = store.node(function, &[])?;
//!     functions = store.node(FUNCTION, &[name, functions])?;
//! }
//! let mut handlers = end;
//! for handler in [TARIFF_CHANGE, CHARGE] {
//!     let name = store.node(handler, &[])?;
//!     handlers = store.node(HANDLER, &[name, handlers])?;
//! }
//! let module = store.node(MODULE, &[functions, handlers])?;
//! store.room(1_000)?;
//!
//! let table = Table::of(&pruner)?;
//! let mut bindings = Bindings::new();
//! let end = run(&table, &mut store, &mut bindings, Entry::FIRST, module, 100_000);
//!
//! assert_eq!(end.answer, Answer::Done);
//! let pruned = store.term(end.subject).ok_or("no term")?;
//! // TARIFF_CHANGE (101) is kept, OLD_REPORT (102) is gone.
//! assert_eq!(pruned.to_string(), "1(2(100, 2(101, 4)), 3(100, 3(101, 4)))");
//! // No binding is left behind, and the pruner has no free variable.
//! assert_eq!(bindings, Bindings::new());
//! assert!(free_variables(&table, Entry::FIRST)?.is_empty());
//! # Ok(())
//! # }
//! ```
//!
//! An interpreter that keeps the binding of the failed branch gives `1(2(100, 4), 3(100, 3(101, 4)))` for the same table.
//! The handler is gone, and the answer is still "done".
//!
//! # What there is
//!
//! - [`strategy`] has a function for each operator, and rules and traversals made of them. Strategies and patterns are values.
//! - [`Table`] is laid out from one strategy, and [`TableBuilder`] makes one of several with names.
//! - [`Store`] holds terms, eight words to a node. [`Store::node`] makes a node, [`Store::room`] makes room for a run,
//!   [`Store::term`] reads a term back, [`Store::collect`] gives room back between runs.
//! - [`Bindings`] says what each of the 64 variables is bound to.
//! - [`run`] runs, [`Table::missed`] says in which rule a failed run stopped matching, [`free_variables`] answers which variables
//!   a strategy leaves free.
//! - [`run_many`] runs one strategy on many subjects in one call, and gives an iterator of their outcomes.
//! - [`pipeline`] runs named passes one after the other, gives room back between them, and reports.
//! - [`job`] reads and writes jobs, each one run as text.
//! - [`show`] shows terms, strategies and tables by names, as text and as graphs, and what differs in two terms.
//! - [`Signature`] declares the child count of each constructor. The builders refuse what does not obey it, and [`run_signed`]
//!   and [`run_many_signed`] refuse a table or a store that does not.
//! - [`Table::add_rules`] translates rules as text, and [`Table::rule_line`] writes a rule back; [`RuleError`] says the line and the field.
//! - [`Stepper`] makes a run in steps, so that a window stays alive during a long pass; its work stands in a [`WorkList`].
//! - [`run_counted`] runs and counts where the units go, in a [`Profile`] that adds up over many runs. [`show::Show::profile`] shows it by rule
//!   names, and [`show::Show::profile_svg`] as a picture.
//! - [`words`] has the library's functions over plain slices of words.
//!
//! # What is promised
//!
//! Every call of every function here, on every input, ends with an answer. Malformed input is refused by number, and nothing
//! is written then. A failed or cut-off run leaves subject, mark and bindings as they were; nodes below the mark never
//! change. This is proved of the library, but for the stack, which is measured. This crate around it is not proved: it is
//! small, safe Rust, and tested.
//!
//! Nothing is kept between calls, and there is no global state. Threads may run at the same time, each on its own store.
//!
//! # The stack
//!
//! Give a thread that calls [`run`], [`run_many`] or [`run_counted`] [`STACK`] bytes of stack: 2 MiB, which is what Rust gives a thread by
//! default. The deepest form, CONG, was measured to take 1.9 MiB at 4,096 levels, a copy of the table among them. A run with counts takes
//! 1.3 MiB whatever its form. A run takes no heap. [`with_stack`] runs a closure on a thread with that much. On a smaller stack a deep run ends the process at the
//! stack's guard page, as any overflow does.
#![deny(unsafe_code)]
#![warn(missing_docs)]

mod advice;
mod answer;
#[allow(unsafe_code)]
mod archive;
mod bindings;
mod fault;
mod indexed;
pub mod job;
pub mod kind;
mod many;
mod miss;
mod names;
mod outcome;
pub mod pipeline;
mod profile;
mod rule_text;
mod rules;
pub mod show;
mod signature;
mod steps;
mod store;
pub mod strategy;
mod table;
mod traversals;

pub use answer::{Answer, BuildError, Outcome};
pub use bindings::{Bindings, Var, VarSet, VARIABLES, VARS};
pub use fault::{EntryFault, Fault};
pub use indexed::{run_indexed, run_many_indexed};
pub use many::{run_many, run_many_signed, Outcomes};
pub use miss::Miss;
pub use profile::{run_counted, run_indexed_counted, Counts, Group, Profile, Row, MOST_COUNT};
pub use rule_text::{RuleError, RULE_BYTES};
pub use signature::Signature;
pub use steps::{Step, Stepper, WorkList, WORK_WORDS};
pub use store::{Node, Store, Term};
pub use strategy::{Pattern, Strategy};
pub use table::{Entry, Table, TableBuilder};

/// The example of the README is tried with the others.
#[cfg(doctest)]
#[doc = include_str!("../README.md")]
mod readme {}

/// The library's functions over plain slices of words, for callers that keep their own tables and stores.
///
/// They take any words of any length, and give the numbers of document 01 back.
///
/// ```
/// use marshtrundle::words;
/// assert_eq!(words::check_table(&[]), [2, 0]);
/// assert_eq!(words::run(&[0; 8], &mut [0; 8], &mut [0; 64], 1, 0, 0, 1), [0, 0, 0, 1, 1]);
/// ```
pub mod words {
    pub use crate::archive::{
        check_store, check_table, collect, free_variables, run, run_counted, run_indexed,
        run_indexed_counted, run_many, run_many_indexed, run_many_signed, run_signed, start,
        start_signed, step, translate_rules, write_rule,
    };
}

/// The stack in bytes that is enough for every run: 2 MiB.
pub const STACK: usize = 2 << 20;

/// The most nodes that a store may have.
pub const NODES: usize = 131_072;

/// The most entries that a table may have.
pub const ENTRIES: usize = 4_096;

/// The most levels that visits may be nested.
pub const NESTING: u32 = 4_096;

/// Runs the strategy at `start` on `subject`, with at most `units` visits.
///
/// Where the answer is [`Answer::Done`], the bindings are the new ones, and the store's mark is the new mark. Otherwise
/// both are as given.
pub fn run(
    table: &Table,
    store: &mut Store,
    bindings: &mut Bindings,
    start: Entry,
    subject: Node,
    units: u32,
) -> Outcome {
    let (words, mark) = store.parts();
    let numbers = archive::run(
        table.words(),
        words,
        bindings.words_mut(),
        *mark,
        start.number(),
        subject.number(),
        units,
    );
    ended(numbers, mark)
}

/// Runs as [`run`] does, with a signature. A CONG or a PCON of the table, used or not, and a node below the mark, reachable or
/// not, that does not obey it is refused: [`Answer::DisobeyingEntry`] or [`Answer::DisobeyingNode`]. Every node below the mark
/// that comes back obeys it too.
///
/// ```
/// # fn main() -> Result<(), Box<dyn std::error::Error>> {
/// use marshtrundle::strategy::*;
/// use marshtrundle::{run_signed, Answer, Bindings, Entry, Signature, Store, Table, VARS};
/// let [f, x, ..] = VARS;
/// let mut store = Store::new();
/// let name = store.node(1, &[])?;
/// let call = store.node(9, &[name, name, name])?;
/// let table = Table::of(&match_(con(9, [var(f), var(x)])))?;
/// let signature = Signature::of(&[(1, 0), (9, 3)])?;
/// let end = run_signed(&table, &mut store, &mut Bindings::new(), &signature, Entry::FIRST, call, 10);
/// assert_eq!(end.answer, Answer::DisobeyingEntry(1));
/// # Ok(())
/// # }
/// ```
pub fn run_signed(
    table: &Table,
    store: &mut Store,
    bindings: &mut Bindings,
    signature: &Signature,
    start: Entry,
    subject: Node,
    units: u32,
) -> Outcome {
    let (words, mark) = store.parts();
    let numbers = archive::run_signed(
        table.words(),
        words,
        bindings.words_mut(),
        *mark,
        start.number(),
        subject.number(),
        units,
        signature.words(),
    );
    ended(numbers, mark)
}

/// A run's five numbers as its outcome. The store gets the mark that comes back.
fn ended(numbers: [u32; 5], mark: &mut u32) -> Outcome {
    let outcome = Outcome::told(numbers);
    *mark = outcome.mark;
    outcome
}

/// The free variables of the strategy at `entry`. The answer where there are none to give: [`Answer::RefusedSizes`],
/// [`Answer::BadEntry`] or [`Answer::BadStart`].
pub fn free_variables(table: &Table, entry: Entry) -> Result<VarSet, Answer> {
    let [answer, place, mask] = archive::free_variables(table.words(), entry.number());
    Answer::checked([answer as u32, place as u32])?;
    Ok(VarSet::from_mask(mask))
}

/// Runs a closure on a thread of its own, with a stack of [`STACK`] bytes. An error means that no thread was to be had.
pub fn with_stack<R: Send>(work: impl FnOnce() -> R + Send) -> std::io::Result<R> {
    std::thread::scope(|scope| {
        let builder = std::thread::Builder::new().stack_size(STACK);
        match builder.spawn_scoped(scope, work)?.join() {
            Ok(result) => Ok(result),
            Err(panic) => std::panic::resume_unwind(panic),
        }
    })
}
