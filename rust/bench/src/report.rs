//! The page: tables, the machine, and how the figures were taken.

#![forbid(unsafe_code)]

use crate::maude::{self, Maude};
use crate::measure::{All, Measured};
use crate::whole_module::{Whole, ENTRIES, FUNCTIONS, NODES};
use std::env;
use std::fmt::Write;
use std::fs;
use std::process::Command;

/// What is said of the machine.
pub struct Machine {
    /// As `uname -m` prints it.
    pub architecture: String,
    /// The processor's model.
    pub model: String,
    /// Whether the process may use one core alone.
    pub pinned: bool,
}

impl Machine {
    /// The machine at hand.
    pub fn at_hand() -> Machine {
        let architecture = match Command::new("uname").arg("-m").output() {
            Ok(output) => String::from_utf8_lossy(&output.stdout).trim().to_string(),
            Err(_) => env::consts::ARCH.to_string(),
        };
        let cores = field("/proc/self/status", "Cpus_allowed_list");
        Machine {
            architecture,
            model: model(),
            pinned: cores.map_or(false, |cores| cores.parse::<u32>().is_ok()),
        }
    }
}

/// What stands after the colon of the first line with this name.
fn field(file: &str, name: &str) -> Option<String> {
    let text = fs::read_to_string(file).ok()?;
    text.lines().find_map(|line| {
        let (before, after) = line.split_once(':')?;
        if before.trim() == name {
            Some(after.trim().to_string())
        } else {
            None
        }
    })
}

/// The processor by its name, or by its maker's numbers.
fn model() -> String {
    let read = |name| field("/proc/cpuinfo", name);
    if let Some(name) = read("model name") {
        return name;
    }
    match (read("CPU implementer"), read("CPU part")) {
        (Some(maker), Some(part)) => {
            let known = match (maker.as_str(), part.as_str()) {
                ("0x41", "0xd0c") => " (Arm Neoverse N1)",
                ("0x41", "0xd40") => " (Arm Neoverse V1)",
                ("0x41", "0xd49") => " (Arm Neoverse N2)",
                ("0x41", "0xd4f") => " (Arm Neoverse V2)",
                _ => "",
            };
            format!("implementer {}, part {}{}", maker, part, known)
        }
        _ => "of unknown model".to_string(),
    }
}

/// A number with commas between its thousands.
pub fn grouped(number: u64) -> String {
    let digits = number.to_string();
    let mut text = String::new();
    for (place, digit) in digits.chars().enumerate() {
        if place > 0 && (digits.len() - place) % 3 == 0 {
            text.push(',');
        }
        text.push(digit);
    }
    text
}

/// A time in milliseconds.
fn milliseconds(seconds: f64) -> String {
    let spent = 1e3 * seconds;
    if spent >= 100.0 {
        format!("{:.0}", spent)
    } else if spent >= 1.0 {
        format!("{:.2}", spent)
    } else {
        format!("{:.4}", spent)
    }
}

macro_rules! line {
    ($page:expr) => { $page.push('\n') };
    ($page:expr, $($words:tt)*) => { writeln!($page, $($words)*).expect("a string takes all text") };
}

fn growth(page: &mut String, what: &str, rows: &[Measured]) {
    line!(
        page,
        "| {} | visits | proved ms | plain ms | optimised ms | proved, ns a visit | \
         proved/plain | proved/optimised |",
        what
    );
    line!(page, "|---:|---:|---:|---:|---:|---:|---:|---:|");
    for row in rows {
        let name = row.name.parse::<u64>().map_or(row.name.clone(), grouped);
        line!(
            page,
            "| {} | {} | {} | {} | {} | {:.2} | {:.2} | {:.2} |",
            name,
            grouped(row.visits.into()),
            milliseconds(row.best[0]),
            milliseconds(row.best[1]),
            milliseconds(row.best[2]),
            1e9 * row.best[0] / f64::from(row.visits),
            row.ratio(1),
            row.ratio(2)
        );
    }
    line!(page);
}

/// The least ratio and its task.
fn least(tasks: &[Measured], engine: usize) -> (&str, f64) {
    let mut found = ("", f64::INFINITY);
    for task in tasks {
        if task.ratio(engine) < found.1 {
            found = (&task.name, task.ratio(engine));
        }
    }
    found
}

fn mean(tasks: &[Measured], engine: usize) -> f64 {
    tasks.iter().map(|task| task.ratio(engine)).sum::<f64>() / tasks.len() as f64
}

fn ratio_of(tasks: &[Measured], name: &str, engine: usize) -> f64 {
    tasks
        .iter()
        .find(|task| task.name == name)
        .map_or(0.0, |task| task.ratio(engine))
}

/// The tasks in Maude beside the proved engine.
fn beside(page: &mut String, maude: &Maude, tasks: &[Measured]) {
    line!(page, "## Maude");
    line!(page);
    line!(
        page,
        "The same tasks in Maude {}, in the same run of the benchmark, each as often as in our run \
         of it. Ratios are speeds: above 1 the proved engine is the faster one.",
        maude.version
    );
    line!(page);
    line!(
        page,
        "| task | Maude ms | Maude's rewrites | proved ms | proved/Maude |"
    );
    line!(page, "|---|---:|---:|---:|---:|");
    let mut reasons = Vec::new();
    let mut ahead = 0;
    for (row, task) in maude.rows.iter().zip(tasks) {
        match &row.outcome {
            Ok(timed) => {
                let ratio = timed.seconds / task.best[0];
                ahead += usize::from(ratio >= 1.0);
                line!(
                    page,
                    "| {} | {} | {} | {} | {:.2} |",
                    row.name,
                    milliseconds(timed.seconds),
                    grouped(timed.rewrites),
                    milliseconds(task.best[0]),
                    ratio
                );
            }
            Err(reason) => {
                let proved = milliseconds(task.best[0]);
                line!(page, "| {} | - | - | {} | - |", row.name, proved);
                reasons.push((&row.name, reason));
            }
        }
    }
    line!(page);
    for (name, reason) in &reasons {
        line!(page, "No figure for the task {}: {}.", name, reason);
        line!(page);
    }
    let done = maude.rows.len() - reasons.len();
    if done > 0 {
        line!(
            page,
            "The proved engine is at or ahead of Maude on {} of {} tasks.",
            ahead,
            done
        );
        line!(page);
    }
    line!(
        page,
        "Each task is a module of Maude and has a process of its own. It has our start term, handed \
         over as a string and built by equations before the time starts. Maude prints the term and \
         its result, and both are compared with ours as a whole. Its time is the processor time that \
         it prints, the best of {}. It prints whole milliseconds, so one command does a short task more \
         often than our run, and time and rewrites are divided. So its figure is a mean of several, \
         where ours is the best single run. The full-size pruner is no short task.",
        maude::ROUNDS
    );
    line!(page);
    line!(
        page,
        "The tasks are written in Maude's equations, which it applies innermost, not in its strategy \
         language. So it is the same task, not the same visits:"
    );
    line!(page);
    for row in &maude.rows {
        line!(page, "- {}: {}.", row.name, row.about);
    }
    line!(page);
    line!(
        page,
        "What is not compared: Maude's time does not include reading the module. Ours includes the \
         checks and copies of a run. Maude counts rewrites, we count visits. Maude does not go again \
         through what it has reduced; our simplifier does. Maude's memory grows and is swept; our \
         room is fixed, and TEST gives the mark back."
    );
    line!(page);
}

/// The section about a whole module in one call.
pub fn whole(page: &mut String, of: &Whole) {
    let functions = grouped(FUNCTIONS as u64);
    line!(page, "## A whole module in one call");
    line!(page);
    line!(
        page,
        "A module of {} functions, each of some hundred nodes, in a store of {} nodes, of which {} are \
         in use; a table of {} entries. The pass looks for something dead in a function and drops the \
         first that it finds: {} functions are done, the others fail, {} visits in all, {} nodes made. \
         One call has all functions as its subjects; beside it a call for each function. Both leave the \
         same numbers and the same store.",
        functions,
        grouped(NODES as u64),
        grouped(of.mark.into()),
        grouped(ENTRIES as u64),
        of.done,
        grouped(of.visits.into()),
        of.made
    );
    line!(page);
    line!(page, "| what | proved ms |");
    line!(page, "|---|---:|");
    let rows = [
        (format!("one call, {} subjects", functions), of.together),
        (format!("{} calls", functions), of.one_by_one),
        ("the checks of table and store, once".to_string(), of.checks),
        (format!("one call, {} subjects, ID", functions), of.all_idle),
        ("one call, 1 subject, ID".to_string(), of.one_idle),
    ];
    for (what, time) in rows {
        line!(page, "| {} | {} |", what, milliseconds(time));
    }
    line!(page);
    line!(
        page,
        "{} calls take {:.0} times as long as one call. The checks are {:.0} % of the one call. A \
         subject costs {:.0} ns beside its visits, taken from the last two rows; the aim is below 1,000.",
        functions,
        of.ratio(),
        100.0 * of.checks / of.together,
        of.overhead()
    );
    line!(page);
}

/// The page's text.
pub fn page(all: &All, machine: &Machine) -> String {
    let mut page = String::new();
    line!(page, "# Benchmark");
    line!(page);
    line!(
        page,
        "Written by `tools/benchmark.sh`. Three engines run the same words through the same \
         function: table, store, bindings, mark, start, subject and units in, five numbers out."
    );
    line!(page);
    line!(
        page,
        "- **proved**: the archive `libmarshtrundle.a`, by its C function."
    );
    line!(
        page,
        "- **plain**: `rust/twin`, safe Rust, written from document 01 alone for clearness."
    );
    line!(
        page,
        "- **optimised**: `rust/bench/src/optimised.rs`, safe Rust, written by hand for speed."
    );
    line!(page);
    line!(
        page,
        "Before any timing the five numbers, every store word and every binding of the three are \
         compared. They were equal on every task below."
    );
    line!(page);
    line!(page, "## Eight tasks");
    line!(page);
    line!(page, "![Million visits a second](benchmark.svg)");
    line!(page);
    line!(
        page,
        "A visit is what 01 counts as one unit. Ratios are speeds: above 1 the proved engine is \
         the faster one."
    );
    line!(page);
    line!(
        page,
        "| task | visits | ms: proved | plain | optimised | million visits a second: proved | \
         plain | optimised | proved/plain | proved/optimised |"
    );
    line!(page, "|---|---:|---:|---:|---:|---:|---:|---:|---:|---:|");
    for task in &all.tasks {
        line!(
            page,
            "| {} | {} | {} | {} | {} | {:.0} | {:.0} | {:.0} | {:.2} | {:.2} |",
            task.name,
            grouped(task.visits.into()),
            milliseconds(task.best[0]),
            milliseconds(task.best[1]),
            milliseconds(task.best[2]),
            task.rate(0),
            task.rate(1),
            task.rate(2),
            task.ratio(1),
            task.ratio(2)
        );
    }
    line!(page);
    let ahead = all.tasks.iter().filter(|task| task.ratio(1) >= 1.0).count();
    let (name, ratio) = least(&all.tasks, 1);
    let (slowest, lowest) = least(&all.tasks, 2);
    line!(
        page,
        "The proved engine is at or ahead of the plain one on {} of {} tasks; its least ratio is \
         {:.2}, on the task {}. It reaches {:.2} of the optimised one in the mean, where the aim is 1.0; \
         {:.2} at least, on the task {}, where it is 0.8; {:.2} on the pruner and {:.2} on the full-size \
         pruner, where it is 0.9.",
        ahead,
        all.tasks.len(),
        ratio,
        name,
        mean(&all.tasks, 2),
        lowest,
        slowest,
        ratio_of(&all.tasks, "pruner", 2),
        ratio_of(&all.tasks, "full-size pruner", 2)
    );
    line!(page);
    line!(page, "What each task does:");
    line!(page);
    for task in &all.tasks {
        let times = match task.times {
            1 => "once".to_string(),
            several => format!("{} times", several),
        };
        line!(page, "- {}: {}, {} in a run.", task.name, task.about, times);
    }
    line!(page);
    line!(
        page,
        "Each time stands inside a TEST, which gives the mark back. So the checks and the clearing are a \
         small part of a task's time. The nesting stays below 4,096. fib(20) of the document is \
         answered by 8: a sum's steps go down under its s, deeper than 4,096. So fib(15) is taken."
    );
    line!(page);
    if let Some(maude) = &all.maude {
        beside(&mut page, maude, &all.tasks);
    }
    line!(page, "## Alternatives skipped by their head");
    line!(page);
    line!(
        page,
        "Where the first operand of a LEFT begins with a test of constructor and count, the \
         optimised engine compares them before it tries the operand. Here it does and does not."
    );
    line!(page);
    line!(
        page,
        "| task | optimised | optimised, none skipped | proved/optimised, none skipped |"
    );
    line!(page, "|---|---:|---:|---:|");
    for task in &all.tasks {
        line!(
            page,
            "| {} | {:.0} | {:.0} | {:.2} |",
            task.name,
            task.rate(2),
            task.rate_trying(),
            task.trying / task.best[0]
        );
    }
    line!(page);
    line!(page, "## The checks and the clearing alone");
    line!(page);
    line!(
        page,
        "| work | proved ms | plain ms | optimised ms | proved/plain | proved/optimised |"
    );
    line!(page, "|---|---:|---:|---:|---:|---:|");
    for cost in &all.costs {
        line!(
            page,
            "| {} | {} | {} | {} | {:.2} | {:.2} |",
            cost.name,
            milliseconds(cost.best[0]),
            milliseconds(cost.best[1]),
            milliseconds(cost.best[2]),
            cost.best[1] / cost.best[0],
            cost.best[2] / cost.best[0]
        );
    }
    line!(page);
    whole(&mut page, &all.whole);
    line!(page, "## How the time grows");
    line!(page);
    line!(
        page,
        "With the nodes: one traversal of a tree, in a store with just the room for it. Checks and \
         copies are in the time."
    );
    line!(page);
    growth(&mut page, "nodes", &all.growth[0]);
    line!(
        page,
        "With the entries: a tree of 1,023 nodes; at each node as many rules are tried as the table \
         has room for, and none applies."
    );
    line!(page);
    growth(&mut page, "entries", &all.growth[1]);
    line!(
        page,
        "With the units: traversals of 87,381 nodes again and again, until the units end them."
    );
    line!(page);
    growth(&mut page, "units", &all.growth[2]);
    line!(page, "## How it was taken");
    line!(page);
    line!(
        page,
        "- Machine: {}, processor {}.",
        machine.architecture,
        machine.model
    );
    if machine.architecture == "x86_64" {
        line!(
            page,
            "- The archive is the one that `tools/archive.sh` writes, for x86-64."
        );
    } else {
        line!(
            page,
            "- `tools/archive.sh` writes its archive for x86-64. On this machine the very \
             LLVM module of that archive is compiled for {} by the kit's own compiler with the same \
             flags (`tools/native_archive.sh`).",
            machine.architecture
        );
    }
    line!(
        page,
        "- The Rust engines are compiled by cargo's release profile: level 3, one code unit, link \
         time optimisation."
    );
    line!(
        page,
        "- One process{}. The engines take turns; {} rounds; each figure is the best of an engine's \
         rounds. The time is the processor time of the thread. The words of store and bindings are \
         copied afresh before each run, outside the time.",
        if machine.pinned {
            ", kept on one core"
        } else {
            ", not tied to a core"
        },
        all.rounds
    );
    line!(
        page,
        "- Times differ from machine to machine. Every ratio is within this one run."
    );
    if all.maude.is_none() {
        line!(page, "- Maude is not installed here. It was not run.");
    }
    page
}

#[cfg(test)]
mod tests {
    use super::{beside, page, Machine};
    use crate::maude::{Maude, Row, Timed};
    use crate::measure::{All, Measured};
    use crate::whole_module::Whole;

    fn measured(name: &str) -> Measured {
        Measured {
            name: name.to_string(),
            about: String::new(),
            times: 1,
            visits: 1_000,
            best: [0.02, 0.04, 0.01],
            trying: 0.01,
        }
    }

    fn row(name: &str, outcome: Result<Timed, String>) -> Row {
        Row {
            name: name.to_string(),
            about: "an equation",
            outcome,
        }
    }

    #[test]
    fn a_figure_of_maude_and_a_reason() {
        let timed = Timed {
            seconds: 0.05,
            rewrites: 1_234_567,
        };
        let maude = Maude {
            version: "9.9".to_string(),
            rows: vec![row("one", Ok(timed)), row("other", Err("why".to_string()))],
        };
        let mut text = String::new();
        beside(&mut text, &maude, &[measured("one"), measured("other")]);
        for line in [
            "| one | 50.00 | 1,234,567 | 20.00 | 2.50 |",
            "| other | - | - | 20.00 | - |",
            "No figure for the task other: why.",
            "The proved engine is at or ahead of Maude on 1 of 1 tasks.",
            "- other: an equation.",
        ] {
            assert!(text.lines().any(|known| known == line), "{}", line);
        }
    }

    #[test]
    fn without_maude() {
        let mut other = measured("other");
        other.times = 2;
        let all = All {
            tasks: vec![measured("one"), other],
            maude: None,
            costs: Vec::new(),
            whole: Whole {
                mark: 1,
                done: 1,
                visits: 1,
                made: 1,
                together: 1.0,
                one_by_one: 2.0,
                checks: 1.0,
                all_idle: 1.0,
                one_idle: 1.0,
            },
            growth: [Vec::new(), Vec::new(), Vec::new()],
            rounds: 1,
        };
        let machine = Machine {
            architecture: "any".to_string(),
            model: "any".to_string(),
            pinned: false,
        };
        let text = page(&all, &machine);
        assert!(text.contains("- one: , once in a run."));
        assert!(text.contains("- other: , 2 times in a run."));
        assert!(text.contains("- Maude is not installed here. It was not run."));
        assert!(!text.contains("## Maude"));
    }
}
