//! The generator of cases. It depends on a seed and a number, and on nothing
//! else.
//!
//! `terms` makes stores, `plans` makes tables that do something on them, `damage`
//! makes them bad, `runs` puts limits around them and damages some, `frees` and
//! `jobs` do the same for the other two questions, `signed` lends a
//! signature, `subjects` makes calls with many subjects, `stepped` makes stepped
//! runs, `rules` makes rules as text and rules to write, `indexed` lends an
//! index, `counted` lends counts.

mod counted;
mod damage;
mod frees;
mod indexed;
mod jobs;
mod plans;
mod rules;
mod runs;
mod signed;
mod stepped;
mod subjects;
mod terms;

use crate::calls::CallCase;

/// The maker of the cases of a kind of call that 02 adds, by the kind's name.
pub fn call_cases(kind: &str) -> Option<fn(u64, u64) -> CallCase> {
    match kind {
        "signed" => Some(signed_case),
        "many" => Some(many_case),
        "stepped" => Some(stepped_case),
        "rules" => Some(rules_case),
        "indexed" => Some(indexed_case),
        "counted" => Some(counted_case),
        _ => None,
    }
}

pub use counted::counted_case;
pub use frees::free_case;
pub use indexed::indexed_case;
pub use jobs::job_text;
pub use rules::rules_case;
pub use runs::run_case;
pub use signed::signed_case;
pub use stepped::stepped_case;
pub use subjects::many_case;
