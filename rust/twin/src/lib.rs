//! A second interpreter of System S, written from documents 01 and 02 alone.
//!
//! It exists to be compared with another implementation. So it shares no code
//! with it, and it takes the plainest way: recursive functions over the words.
//! Each piece quotes the sentence of 01 or 02 that it carries out.
//!
//! The files in reading order: `checks` (the table check, the store check, the
//! signature), `refusals` (their order), `free` (free variables), `engine` (the
//! run), `many` (many subjects), `collect` (the collection), `steps` (the
//! stepped run), `counts` (the counted run), `rules` (rules as text), `job` (the
//! job program), then `text` and `calls` (cases as lines), `random`, `generate`
//! and `statistics`.
//!
//! A run may go 4,096 visits deep, and each visit is a call. So runs belong on
//! a thread with a big stack: see [`with_big_stack`].

#![forbid(unsafe_code)]
#![warn(missing_docs)]

pub mod calls;
pub mod checks;
pub mod collect;
pub mod counts;
pub mod engine;
pub mod free;
pub mod generate;
pub mod job;
pub mod many;
pub mod random;
pub mod refusals;
pub mod rules;
pub mod statistics;
pub mod steps;
pub mod text;

pub use checks::{check_store, check_table};
pub use collect::{collect, Collected};
pub use counts::{run_counted, Counted};
pub use engine::{run, run_lent, Lent, Outcome};
pub use free::free_variables;
pub use job::job;
pub use many::run_many;
pub use rules::{translate, write_rule, Translated, Written};
pub use steps::{start_run, step_run};

/// The stack, in bytes, that is ample for 4,096 nested visits in any build.
pub const STACK_BYTES: usize = 256 << 20;

/// Runs `work` on a thread with a stack of [`STACK_BYTES`] and gives its result.
///
/// # Panics
///
/// When the thread cannot be started, or when `work` itself panics.
pub fn with_big_stack<T, F>(work: F) -> T
where
    T: Send + 'static,
    F: FnOnce() -> T + Send + 'static,
{
    std::thread::Builder::new()
        .stack_size(STACK_BYTES)
        .spawn(work)
        .expect("a thread with a big stack")
        .join()
        .expect("the work ends without a panic")
}
