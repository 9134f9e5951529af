//! `module [ROUNDS]`: prints the section of the page about a whole module in one
//! call, measured on its own.

#![forbid(unsafe_code)]

use bench::{report, whole_module};

fn main() {
    let rounds = std::env::args().nth(1).map_or(15, |word| {
        word.parse().expect("the word is a number of rounds")
    });
    let measured = twin::with_big_stack(move || whole_module::measure(rounds));
    let mut page = String::new();
    report::whole(&mut page, &measured);
    print!("{}", page);
}
