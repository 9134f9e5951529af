//! The pruner of examples/reachable.rs, beside the pruner of examples/pruner.job.
#[path = "../examples/reachable.rs"]
mod reachable;

use marshtrundle::job::Job;
use marshtrundle::show::{Names, Show};
use marshtrundle::{run, Store, VARS};
use reachable::{pruned, NAMES, PROGRAM};

/// The functions in the longest chain of calls that one run prunes.
const LONGEST: u32 = 509;

/// The functions of a module, as text.
fn functions(module: &str) -> Vec<String> {
    let after = |text: &str| text.split(['(', ',', ')']).next().unwrap_or("").to_owned();
    module.split("FUN(").skip(1).map(after).collect()
}

/// What the pruner that drops what nothing names makes of the same program.
fn by_names_alone(program: &str) -> String {
    let names = Names::read(NAMES).unwrap();
    let job = Job::read(include_bytes!("../../../examples/pruner.job")).unwrap();
    let mut store = Store::new();
    let main = names.read_term(&mut store, "main").unwrap();
    let subject = names.read_term(&mut store, program).unwrap();
    store.most_room();
    let mut bindings = job.bindings.clone();
    bindings.bind(VARS[1], main);
    let end = run(
        &job.table,
        &mut store,
        &mut bindings,
        job.start,
        subject,
        u32::MAX,
    );
    let term = store.term(end.done().unwrap()).unwrap();
    Show::new(&names).in_full().unshared().term(term)
}

#[test]
fn functions_that_only_call_each_other_go() {
    assert_eq!(
        functions(PROGRAM),
        ["main", "even", "parse", "on_tariff", "odd", "rate"]
    );
    assert_eq!(
        functions(&pruned(PROGRAM).unwrap()),
        ["main", "parse", "on_tariff", "rate"]
    );
    // Each of the two is named by the other, so the other pruner keeps both.
    assert_eq!(functions(&by_names_alone(PROGRAM)), functions(PROGRAM));
}

#[test]
fn what_is_reached_stays_as_it_was() {
    let whole = "MODULE(CELL(FUN(main, BOTH(CALLS(parse), CALLS(report))), CELL(FUN(parse, CALLS(main)), END)), \
                 CELL(SLOT(parse, start), END))";
    // report is of another module.
    assert_eq!(pruned(whole).unwrap(), whole);
    let nothing = "MODULE(CELL(FUN(even, CALLS(even)), END), END)";
    assert_eq!(pruned(nothing).unwrap(), "MODULE(END, END)");
}

/// A module in which each function calls the next.
fn chain(length: u32) -> String {
    let mut functions = "END".to_owned();
    for k in (0..length).rev() {
        let name = |k: u32| {
            if k == 0 {
                "main".to_owned()
            } else {
                (1_000 + k).to_string()
            }
        };
        let body = if k + 1 == length {
            "RETURN".to_owned()
        } else {
            format!("CALLS({})", name(k + 1))
        };
        functions = format!("CELL(FUN({}, {body}), {functions})", name(k));
    }
    format!("MODULE({functions}, END)")
}

/// The figure of the page.
#[test]
fn the_longest_chain_of_calls() {
    assert_eq!(
        functions(&pruned(&chain(LONGEST)).unwrap()).len(),
        LONGEST as usize
    );
    assert_eq!(
        pruned(&chain(LONGEST + 1)).unwrap_err().to_string(),
        "a visit is nested too deep"
    );
}

#[test]
fn what_is_no_module_is_an_error() {
    assert_eq!(
        pruned("END").unwrap_err().to_string(),
        "failed: the last match gave up at entry 4"
    );
}
