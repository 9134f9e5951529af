//! The program `twin`: makes cases, answers them and counts them.
//!
//! `twin generate KIND SEED COUNT` writes cases.
//! `twin answer KIND` reads cases and writes answers.
//! `twin job` reads one job's text and writes its answer.
//! `twin statistics KIND SEED COUNT` counts what the cases cover.
//!
//! The kinds: `run`, `free`, `jobs`, and for the calls that 02 adds `signed`,
//! `many`, `stepped`, `rules`, `indexed` and `counted`.

#![forbid(unsafe_code)]

use std::io::{self, BufRead, BufWriter, Read, Write};
use std::process::ExitCode;
use twin::calls::CallCase;
use twin::generate::{call_cases, free_case, job_text, run_case};
use twin::text::{push_framed, take_framed, FreeCase, RunCase};

/// How the program is used.
const USAGE: &str = "usage: twin generate KIND SEED COUNT
       twin answer KIND
       twin job
       twin statistics KIND SEED COUNT
where KIND is run, free, jobs, signed, many, stepped, rules, indexed or counted";

/// Writes COUNT cases of a kind.
fn generate(kind: &str, seed: u64, count: u64) -> Result<(), String> {
    let mut output = BufWriter::new(io::stdout());
    for index in 0..count {
        let bytes = match kind {
            "run" => run_case(seed, index).line().into_bytes(),
            "free" => free_case(seed, index).line().into_bytes(),
            "jobs" => {
                let mut framed = Vec::new();
                push_framed(&mut framed, &job_text(seed, index));
                framed
            }
            _ => match call_cases(kind) {
                Some(case) => case(seed, index).line().into_bytes(),
                None => return Err(USAGE.to_string()),
            },
        };
        output.write_all(&bytes).map_err(|e| e.to_string())?;
        if kind != "jobs" {
            output.write_all(b"\n").map_err(|e| e.to_string())?;
        }
    }
    output.flush().map_err(|e| e.to_string())
}

/// Answers a case that is one line.
fn answer_line(kind: &str, line: &str) -> Result<String, String> {
    match kind {
        "run" => Ok(RunCase::parse(line)?.answer()),
        "free" => Ok(FreeCase::parse(line)?.answer()),
        _ if call_cases(kind).is_some() => Ok(CallCase::parse(line)?.answer()),
        _ => Err(USAGE.to_string()),
    }
}

/// Answers all cases on standard input.
fn answer(kind: &str) -> Result<(), String> {
    let mut output = BufWriter::new(io::stdout());
    match kind {
        "jobs" => {
            let bytes = read_all()?;
            let mut stream = &bytes[..];
            while let Some(text) = take_framed(&mut stream)? {
                let mut framed = Vec::new();
                push_framed(&mut framed, &twin::job(text));
                output.write_all(&framed).map_err(|e| e.to_string())?;
            }
        }
        _ => {
            for line in io::stdin().lock().lines() {
                let line = line.map_err(|e| e.to_string())?;
                let answer = answer_line(kind, &line)?;
                writeln!(output, "{}", answer).map_err(|e| e.to_string())?;
            }
        }
    }
    output.flush().map_err(|e| e.to_string())
}

/// All of standard input.
fn read_all() -> Result<Vec<u8>, String> {
    let mut bytes = Vec::new();
    io::stdin()
        .lock()
        .read_to_end(&mut bytes)
        .map_err(|e| e.to_string())?;
    Ok(bytes)
}

/// Answers one job on standard input.
fn one_job() -> Result<(), String> {
    let answer = twin::job(&read_all()?);
    io::stdout().write_all(&answer).map_err(|e| e.to_string())
}

/// Prints what COUNT cases of a kind cover.
fn statistics(kind: &str, seed: u64, count: u64) -> Result<(), String> {
    let report = match kind {
        "run" => twin::statistics::of_runs(seed, count),
        "free" => twin::statistics::of_frees(seed, count),
        "jobs" => twin::statistics::of_jobs(seed, count),
        _ => match call_cases(kind) {
            Some(case) => twin::statistics::of_calls(case, seed, count),
            None => return Err(USAGE.to_string()),
        },
    };
    print!("{}", report);
    Ok(())
}

/// Does what the words of the command line ask for.
fn work(words: &[String]) -> Result<(), String> {
    let number = |text: &str| text.parse::<u64>().map_err(|_| USAGE.to_string());
    let words: Vec<&str> = words.iter().map(|word| word.as_str()).collect();
    match words[..] {
        ["generate", kind, seed, count] => generate(kind, number(seed)?, number(count)?),
        ["answer", kind] => answer(kind),
        ["job"] => one_job(),
        ["statistics", kind, seed, count] => statistics(kind, number(seed)?, number(count)?),
        _ => Err(USAGE.to_string()),
    }
}

fn main() -> ExitCode {
    let words: Vec<String> = std::env::args().skip(1).collect();
    match twin::with_big_stack(move || work(&words)) {
        Ok(()) => ExitCode::SUCCESS,
        Err(message) => {
            eprintln!("{}", message);
            ExitCode::FAILURE
        }
    }
}
