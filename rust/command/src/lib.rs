//! The command `marshtrundle`: what its subcommands do, over the crate and the archive.
//!
//! [`command`] is the whole: words in, two texts and an exit status out. [`explain`] tells how a run went, as text and as a page.
#![forbid(unsafe_code)]
#![warn(missing_docs)]

pub mod explain;
mod html;
mod options;

use marshtrundle::job::{entry_lines, Job, TextFault};
use marshtrundle::show::{Names, Show};
use marshtrundle::{free_variables, with_stack, Answer, Entry, Outcome, Profile, RuleError, Table};
use options::{Options, Profiled, Subcommand};
use std::io::Read;
use std::path::Path;

/// The exit status of bad usage.
pub const BAD_USAGE: u8 = 64;
/// The exit status where a file cannot be read.
pub const NO_INPUT: u8 = 66;

/// How the command is used.
pub const USAGE: &str = "usage: marshtrundle run FILE [--print] [--difference] [--steps N | --profile [--svg]]
       marshtrundle check FILE
       marshtrundle free FILE
       marshtrundle print FILE [--entries] [--graph term|table]
       marshtrundle explain FILE [--all] [--html]
       marshtrundle rules FILE [--onto JOB | --back]

  run      runs the job and writes its answer; --print writes the new term, --difference what changed in it; --steps runs it N visits at a
           time, and draws on standard error how many of its units are used. The answer is the same; --profile writes where the units
           go, by the names of entries, and with --svg as a picture
  check    says whether a run would refuse the job, and why
  free     says which variables the start leaves free
  print    writes the strategies and the subject; --entries every entry, --graph a graph for Graphviz
  explain  tells which strategy was tried where, what it bound, why it was undone; --all tells the places too where nothing
           was bound or compared, --html writes a page with all of it, folded
  rules    translates rules, a line each, and writes their entries; --onto writes the job JOB with them behind its own entries, whose
           RECs conditions may name; with --back FILE is a job, and the rules in its table are written as lines

  --names FILE  names of constructors, variables and entries; without it JOB.names beside JOB.job is taken, if it is there
  --units N     in place of the job's units
  --depth N     how deep terms and strategies are shown; --length N how long; --full without limits. For explain the length is
                the number of visits that are told

FILE is the text of a job, for rules a text of rules, or - for standard input. The exit status is the answer's number: 0 done, 1 failed, and so on as
docs/REFERENCE.md lists them. 64 is for bad usage and 66 for a file that cannot be read.
";

/// What a call of the command gives: what goes to standard output, what goes to standard error, and the exit status.
#[derive(Clone, Debug, Default, PartialEq, Eq)]
pub struct Said {
    /// For standard output.
    pub output: String,
    /// For standard error.
    pub error: String,
    /// The exit status.
    pub status: u8,
}

/// Why there is nothing to do.
enum Stop {
    Usage(String),
    Unreadable(String),
    Text(TextFault),
}

/// Does what the words after the command's name ask for. `draw` is handed what is shown of a run in steps while it goes on.
pub fn command(words: &[String], draw: &mut dyn FnMut(&str)) -> Said {
    if let [word] = words {
        if word == "--help" || word == "-h" || word == "help" {
            return Said {
                output: USAGE.to_owned(),
                ..Said::default()
            };
        }
    }
    match begin(words, draw) {
        Ok(said) => said,
        Err(Stop::Usage(what)) => Said {
            error: format!("marshtrundle: {what}\n{USAGE}"),
            status: BAD_USAGE,
            ..Said::default()
        },
        Err(Stop::Unreadable(what)) => Said {
            error: format!("marshtrundle: {what}\n"),
            status: NO_INPUT,
            ..Said::default()
        },
        Err(Stop::Text(fault)) => Said {
            output: fault.answer(),
            error: format!(
                "marshtrundle: answer 9: {fault}\nmarshtrundle: correct that line; docs/REFERENCE.md has the lines of a job\n"
            ),
            status: 9,
        },
    }
}

fn begin(words: &[String], draw: &mut dyn FnMut(&str)) -> Result<Said, Stop> {
    let options = Options::of(words).map_err(Stop::Usage)?;
    let text = read(&options.file)?;
    if let Subcommand::Rules { onto, back: false } = &options.subcommand {
        return match onto {
            None => Ok(rules(&text)),
            Some(onto) => Ok(rules_onto(
                Job::read(&read(onto)?).map_err(Stop::Text)?,
                &text,
            )),
        };
    }
    let mut job = Job::read(&text).map_err(Stop::Text)?;
    if let Some(units) = options.units {
        job.units = units;
    }
    let names = names(&options)?;
    let mut show = Show::new(&names);
    if let Some(depth) = options.depth {
        show = show.depth(depth);
    }
    if let Some(length) = options.length {
        show = show.length(length);
    }
    Ok(match options.subcommand {
        Subcommand::Run {
            print,
            difference,
            steps,
            profile: None,
        } => {
            let before = job.clone();
            let end = match steps {
                None => ran(&mut job),
                Some(visits) => ran_in_steps(&mut job, visits, draw),
            };
            told(&before, &job, end, &names, show, print, difference)
        }
        Subcommand::Run {
            print,
            difference,
            steps: _,
            profile: Some(how),
        } => {
            let before = job.clone();
            let (end, profile) = ran_counted(&mut job);
            let mut said = told(&before, &job, end, &names, show, print, difference);
            if !print && !difference {
                said.output = String::new();
            }
            if !end.answer.is_refusal() {
                said.output.push_str(&match how {
                    Profiled::Text => show.profile(&job.table, &profile),
                    Profiled::Picture => {
                        let title = match options.file.as_str() {
                            "-" => "The job",
                            file => file,
                        };
                        show.profile_svg(&[(title, &job.table, &profile)])
                    }
                });
            }
            said
        }
        Subcommand::Check => check(job, &names),
        Subcommand::Free => free(&job, &names),
        Subcommand::Print { entries, graph } => print(&job, show, entries, graph),
        Subcommand::Rules { .. } => rules_back(&job),
        Subcommand::Explain { html, all } => explain::explain(job, &names, &options, html, all),
    })
}

fn read(file: &str) -> Result<Vec<u8>, Stop> {
    let mut text = vec![];
    let read = if file == "-" {
        std::io::stdin().lock().read_to_end(&mut text).map(|_| ())
    } else {
        std::fs::read(file).map(|bytes| text = bytes)
    };
    match read {
        Ok(()) => Ok(text),
        Err(error) => Err(Stop::Unreadable(format!("{file}: {error}"))),
    }
}

/// The names of the file that is asked for, or of the one beside the job.
fn names(options: &Options) -> Result<Names, Stop> {
    let beside = Path::new(&options.file).with_extension("names");
    let path = match &options.names {
        Some(path) => Path::new(path),
        None if options.file != "-" && beside.is_file() => &beside,
        None => return Ok(Names::new()),
    };
    let text = String::from_utf8(read(&path.display().to_string())?)
        .map_err(|_| Stop::Unreadable(format!("{}: it is no text", path.display())))?;
    Names::read(&text).map_err(|fault| Stop::Unreadable(format!("{}: {fault}", path.display())))
}

/// An answer in words, with what is wrong with a bad entry, in which pattern the last match gave up, and what to do next. Nothing for done.
fn in_words(job: &Job, names: &Names, answer: Answer) -> String {
    if answer == Answer::Done {
        return String::new();
    }
    let pattern = |&entry: &Entry| {
        Show::new(names)
            .depth(10)
            .length(30)
            .pattern(&job.table, entry)
    };
    let what = match (job.table.explain(answer), job.table.missed(answer)) {
        (Some(fault), _) => fault.to_string(),
        (None, Some(miss)) => {
            let rules: Vec<String> = miss.rules.iter().map(pattern).collect();
            format!("{answer}, in {}", rules.join(" or "))
        }
        (None, None) => answer.to_string(),
    };
    format!(
        "marshtrundle: answer {}: {what}\nmarshtrundle: {}\n",
        answer.number(),
        answer.advice()
    )
}

/// Runs a job on a thread with enough stack.
fn ran(job: &mut Job) -> Outcome {
    with_stack(|| job.run()).expect("a thread")
}

/// Runs a job on a thread with enough stack, and counts where its units go.
fn ran_counted(job: &mut Job) -> (Outcome, Profile) {
    let mut profile = Profile::of(&job.table);
    let end = with_stack(|| job.run_counted(&mut profile)).expect("a thread");
    (end, profile)
}

/// Runs a job so many visits at a time, and draws a bar after each step that is not the last. Its width is 40.
fn ran_in_steps(job: &mut Job, visits: u32, draw: &mut dyn FnMut(&str)) -> Outcome {
    let units = job.units;
    let mut drawn = false;
    let end = job.run_in_steps(visits, |used| {
        // Unfinished, so that the units are not 0.
        let full = (u64::from(used) * 40 / u64::from(units.max(1))) as usize;
        drawn = true;
        draw(&format!(
            "\r[{}{}] {used} of {units} units",
            "#".repeat(full),
            ".".repeat(40 - full)
        ));
    });
    if drawn {
        draw("\n");
    }
    end
}

/// What is said of a run that was made: the job before it and after it.
fn told(
    before: &Job,
    job: &Job,
    end: Outcome,
    names: &Names,
    show: Show<'_>,
    print: bool,
    difference: bool,
) -> Said {
    let mut said = Said {
        output: job.answer(&end),
        error: in_words(job, names, end.answer),
        status: end.answer.number() as u8,
    };
    if !print && !difference {
        return said;
    }
    said.output = String::new();
    let new = job.store.term(end.subject);
    if let (true, Some(new)) = (print && end.answer == Answer::Done, new) {
        said.output = show.term(new) + "\n";
        let bound = show.bindings(&job.store, &job.bindings);
        if !bound.is_empty() {
            said.output.push_str(&bound);
            said.output.push('\n');
        }
    }
    if let (true, Some(old), Some(new)) = (difference, before.store.term(before.subject), new) {
        said.output.push_str(&show.difference(old, new));
    }
    said
}

/// A run without units: it is refused as any run would be, or else cut off before its first visit.
fn check(mut job: Job, names: &Names) -> Said {
    job.units = 0;
    let end = ran(&mut job);
    if end.answer.is_refusal() {
        return Said {
            error: in_words(&job, names, end.answer),
            status: end.answer.number() as u8,
            ..Said::default()
        };
    }
    Said {
        output: format!(
            "{} entries, {} nodes, room for {} more: nothing is refused\n",
            job.table.entries(),
            job.store.mark(),
            job.store.free()
        ),
        ..Said::default()
    }
}

fn free(job: &Job, names: &Names) -> Said {
    match free_variables(&job.table, job.start) {
        Ok(vars) => Said {
            output: vars
                .iter()
                .map(|var| format!("{}\t{}\n", var.number(), names.variable(var.number())))
                .collect(),
            ..Said::default()
        },
        Err(answer) => Said {
            error: in_words(job, names, answer),
            status: answer.number() as u8,
            ..Said::default()
        },
    }
}

/// The entries of rules, from entry 0 on.
fn rules(text: &[u8]) -> Said {
    let mut table = Table::default();
    match table.add_rules(text) {
        Ok(_) => Said {
            output: entry_lines(&table),
            ..Said::default()
        },
        Err(error) => rules_refused(&error),
    }
}

/// A job with rules behind the entries of its table.
fn rules_onto(mut job: Job, text: &[u8]) -> Said {
    match job.table.add_rules(text) {
        Ok(_) => Said {
            output: job.to_string(),
            ..Said::default()
        },
        Err(error) => rules_refused(&error),
    }
}

/// The lines of the rules in a job's table.
fn rules_back(job: &Job) -> Said {
    match job.table.rule_lines() {
        Ok(output) => Said {
            output,
            ..Said::default()
        },
        Err(error) => rules_refused(&error),
    }
}

/// A refusal in words, with the line and the field, and what to do next.
fn rules_refused(error: &RuleError) -> Said {
    Said {
        error: format!(
            "marshtrundle: answer {}: {error}\nmarshtrundle: {}\n",
            error.number(),
            error.advice()
        ),
        status: error.number() as u8,
        ..Said::default()
    }
}

fn print(job: &Job, show: Show<'_>, entries: bool, graph: Option<options::Graph>) -> Said {
    let subject = job.store.term(job.subject);
    let output = match graph {
        Some(options::Graph::Table) => show.table_graph(&job.table),
        Some(options::Graph::Term) => subject.map_or(String::new(), |term| show.term_graph(term)),
        None if entries => show.entries(&job.table),
        None => {
            let mut text = show.table(&job.table);
            if let Some(term) = subject {
                text.push_str(&format!("subject: {}\n", show.term(term)));
            }
            let bound = show.bindings(&job.store, &job.bindings);
            if !bound.is_empty() {
                text.push_str(&format!("bound: {bound}\n"));
            }
            text
        }
    };
    Said {
        output,
        ..Said::default()
    }
}
