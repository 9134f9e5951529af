//! Makes one deep run on a thread with a given stack. tools/library_tests.sh finds with it the least stack of each form.
//!
//! Without words it prints the number and the name of each form. With two, a form's number and a stack in bytes, it makes
//! the run on a thread with that stack. Form 0 is a run of one visit.
use marshtrundle::{strategy, Answer, Table};
use std::process::exit;

#[path = "../tests/common/mod.rs"]
mod common;

fn main() {
    let words: Vec<usize> = std::env::args()
        .skip(1)
        .filter_map(|word| word.parse().ok())
        .collect();
    match words[..] {
        [form, stack] => {
            let mut deep = run(form).unwrap_or_else(|| exit(2));
            let wanted = deep.answer;
            let thread = std::thread::Builder::new().stack_size(stack);
            let ended = thread.spawn(move || deep.run().answer == wanted);
            let right = ended.map(|thread| thread.join());
            exit(if matches!(right, Ok(Ok(true))) { 0 } else { 1 });
        }
        [] => {
            for (number, deep) in (0..).map_while(run).enumerate() {
                println!("{number}\t{}", deep.name);
            }
        }
        _ => exit(2),
    }
}

fn run(form: usize) -> Option<common::Deep> {
    if form > 0 {
        return common::too_deep(form - 1);
    }
    let mut small = common::fitting(0)?;
    small.name = "one visit";
    small.table = Table::of(&strategy::id()).ok()?;
    small.answer = Answer::Done;
    Some(small)
}
