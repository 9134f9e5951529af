//! `bench FOLDER [ROUNDS]`: writes BENCHMARK.md and benchmark.svg into the
//! folder. Without a folder it prints the page.

#![forbid(unsafe_code)]

use bench::{chart, measure, report};
use std::fs;
use std::path::Path;

fn main() {
    let mut words = std::env::args().skip(1);
    let folder = words.next();
    let rounds = words.next().map_or(15, |word| {
        word.parse().expect("the second word is a number of rounds")
    });
    let all = twin::with_big_stack(move || measure::all(rounds));
    let machine = report::Machine::at_hand();
    let page = report::page(&all, &machine);
    print!("{}", page);
    if let Some(folder) = folder {
        let folder = Path::new(&folder);
        let picture = chart::svg(&all.tasks, &machine.architecture);
        fs::write(folder.join("BENCHMARK.md"), page).expect("the page can be written");
        fs::write(folder.join("benchmark.svg"), picture).expect("the picture can be written");
    }
}
