//! The job program: one job's text in, one answer's text out.

use crate::checks::{kind, ran, row_of, BAD_TEXT, VARIABLES, WIDTH};
use crate::engine::{run, Outcome};

/// 01: "for more than 60,000 bytes".
pub const TEXT_BYTES: usize = 60_000;
/// 01: "room (nodes, at most 1,024)"; "`n` lines ([..] at most 1,024)".
pub const NODES: usize = 1_024;
/// 01: "`e` lines ([..] at most 512)".
pub const ENTRIES: usize = 512;
/// 01: "kind 0 to 255".
const KIND: u64 = 255;
/// 01: "a node below 131,072".
const NODE: u64 = 131_071;

/// A job as its text says it, before any check of table or store.
struct Job {
    units: u32,
    start: u32,
    subject: u32,
    room: usize,
    table: Vec<u32>,
    nodes: Vec<u32>,
    bindings: [u32; VARIABLES],
}

/// 01: "A reader that keeps the rest of the job text hands out one line at a
/// time."
struct Reader<'a> {
    rest: &'a [u8],
}

impl<'a> Reader<'a> {
    /// The next line without its line feed; `Err` when the line feed is missing.
    ///
    /// 01: "each line ended by a line feed."
    fn line(&mut self) -> Result<&'a [u8], ()> {
        match self.rest.iter().position(|&byte| byte == b'\n') {
            None => Err(()),
            Some(end) => {
                let line = &self.rest[..end];
                self.rest = &self.rest[end + 1..];
                Ok(line)
            }
        }
    }
}

/// The greatest number of 32 bits.
const ANY: u64 = u32::MAX as u64;

/// 01: "Other numbers go up to 4,294,967,295; all are decimal, without leading
/// zeros."
pub(crate) fn number(field: &[u8], most: u64) -> Result<u64, ()> {
    if field.is_empty() || (field.len() > 1 && field[0] == b'0') {
        return Err(());
    }
    let mut value: u128 = 0;
    for &byte in field {
        if !byte.is_ascii_digit() {
            return Err(());
        }
        value = 10 * value + u128::from(byte - b'0');
        if value > u128::from(most) {
            return Err(());
        }
    }
    Ok(value as u64)
}

/// The fields after a line's first, as numbers: field i is at most `most[i]`.
/// There must be `least` of them or more, and no more than `most` names.
///
/// 01: "fields parted by one tab".
fn numbers(line: &[u8], least: usize, most: &[u64]) -> Result<Vec<u64>, ()> {
    let mut values = Vec::new();
    for (index, field) in line.split(|&byte| byte == b'\t').skip(1).enumerate() {
        let limit = *most.get(index).ok_or(())?;
        values.push(number(field, limit)?);
    }
    if values.len() < least {
        return Err(());
    }
    Ok(values)
}

/// The three groups of lines after line 1, in their order.
#[derive(Clone, Copy, PartialEq, PartialOrd)]
enum Group {
    Entries,
    Nodes,
    Bindings,
}

/// Takes line 1.
///
/// 01: "Line 1 is `job`, units, start, subject, room (nodes, at most 1,024)."
fn first_line(line: &[u8]) -> Result<Job, ()> {
    if line.split(|&byte| byte == b'\t').next() != Some(b"job") {
        return Err(());
    }
    let values = numbers(line, 4, &[ANY, ANY, ANY, NODES as u64])?;
    Ok(Job {
        units: values[0] as u32,
        start: values[1] as u32,
        subject: values[2] as u32,
        room: values[3] as usize,
        table: Vec::new(),
        nodes: Vec::new(),
        bindings: [0; VARIABLES],
    })
}

/// Takes a later line, given the group reached and the least variable that a
/// `b` line may still name.
fn later_line(job: &mut Job, group: &mut Group, least: &mut u64, line: &[u8]) -> Result<(), ()> {
    let name = line.split(|&byte| byte == b'\t').next();
    let own = match name {
        Some(b"e") => Group::Entries,
        Some(b"n") => Group::Nodes,
        Some(b"b") => Group::Bindings,
        _ => return Err(()),
    };
    // 01: "Then, in this order".
    if own < *group {
        return Err(());
    }
    *group = own;
    match own {
        // 01: "`e` lines (kind 0 to 255, argument, up to six operands; at most
        // 512)". 02, wish 9: "In a job a scope's argument may have 64 bits"; no
        // other kind's may.
        Group::Entries => {
            let values = numbers(line, 2, &[KIND, u64::MAX, ANY, ANY, ANY, ANY, ANY, ANY])?;
            let kind = values[0] as u32;
            if job.table.len() == WIDTH * ENTRIES || (values[1] > ANY && kind != kind::SCOPE) {
                return Err(());
            }
            let operands: Vec<u32> = values[2..].iter().map(|&value| value as u32).collect();
            job.table
                .extend_from_slice(&row_of(kind, values[1], &operands));
        }
        // 01: "`n` lines (constructor, up to six children; at most 1,024)".
        Group::Nodes => {
            let values = numbers(line, 1, &[ANY; 7])?;
            if job.nodes.len() == WIDTH * NODES {
                return Err(());
            }
            let mut row = [0; WIDTH];
            row[0] = values[0] as u32;
            row[1] = values.len() as u32 - 1;
            for (word, &child) in row[2..].iter_mut().zip(&values[1..]) {
                *word = child as u32;
            }
            job.nodes.extend_from_slice(&row);
        }
        // 01: "`b` lines (variable below 32, strictly rising, then a node below
        // 131,072)." 02, wish 9: "a `b` line a variable below 64."
        Group::Bindings => {
            let values = numbers(line, 2, &[VARIABLES as u64 - 1, NODE])?;
            if values[0] < *least {
                return Err(());
            }
            *least = values[0] + 1;
            job.bindings[values[0] as usize] = values[1] as u32 + 1;
        }
    }
    Ok(())
}

/// Reads a job's text; `Err` with the first bad line from 1.
///
/// 01: "Answer 9, with place the first bad line from 1, is for text that breaks
/// these rules (empty text: line 1)".
fn read(text: &[u8]) -> Result<Job, u32> {
    let mut reader = Reader { rest: text };
    let mut number: u32 = 1;
    let mut job = reader.line().and_then(first_line).map_err(|()| number)?;
    let mut group = Group::Entries;
    let mut least = 0;
    while !reader.rest.is_empty() {
        number += 1;
        reader
            .line()
            .and_then(|line| later_line(&mut job, &mut group, &mut least, line))
            .map_err(|()| number)?;
    }
    Ok(job)
}

/// Writes one line: a name, then numbers, parted by tabs.
fn write_line(output: &mut Vec<u8>, name: &str, numbers: &[u32]) {
    output.extend_from_slice(name.as_bytes());
    for number in numbers {
        output.push(b'\t');
        output.extend_from_slice(number.to_string().as_bytes());
    }
    output.push(b'\n');
}

/// Writes the `answer` line. 01: "Output: `answer` and the five numbers".
fn write_answer(output: &mut Vec<u8>, outcome: Outcome) {
    let Outcome {
        answer,
        place,
        subject,
        mark,
        units,
    } = outcome;
    write_line(output, "answer", &[answer, place, subject, mark, units]);
}

/// The answer 9 with its place. 01: "its other numbers are 0."
fn bad_text(place: u32) -> Vec<u8> {
    let mut output = Vec::new();
    write_answer(
        &mut output,
        Outcome {
            answer: BAD_TEXT,
            place,
            subject: 0,
            mark: 0,
            units: 0,
        },
    );
    output
}

/// Answers one job's text. It runs, so call it on a big stack.
pub fn job(text: &[u8]) -> Vec<u8> {
    // 01: "with place 0 and before all else, for more than 60,000 bytes".
    if text.len() > TEXT_BYTES {
        return bad_text(0);
    }
    let job = match read(text) {
        Err(place) => return bad_text(place),
        Ok(job) => job,
    };
    // 01: "The mark is the number of `n` lines; where it exceeds the room the
    // answer is 2." The nodes past the room are left out of the store; the run
    // refuses the mark before it looks at a node.
    let mark = (job.nodes.len() / WIDTH) as u32;
    let mut store = vec![0; WIDTH * job.room];
    let words = job.nodes.len().min(store.len());
    store[..words].copy_from_slice(&job.nodes[..words]);
    let mut bindings = job.bindings;
    let outcome = run(
        &job.table,
        &mut store,
        &mut bindings,
        mark,
        job.start,
        job.subject,
        job.units,
    );
    let mut output = Vec::new();
    write_answer(&mut output, outcome);
    // 01: "for 0, 1, 6, 7 and 8 also the `n` lines of the nodes below the
    // returned mark and the `b` lines of the returned bindings." 02 says of 12:
    // "printed in a job like them".
    if ran(outcome.answer) {
        for node in store.chunks(WIDTH).take(outcome.mark as usize) {
            let mut numbers = vec![node[0]];
            numbers.extend_from_slice(&node[2..2 + node[1] as usize]);
            write_line(&mut output, "n", &numbers);
        }
        for (variable, &word) in bindings.iter().enumerate() {
            if word != 0 {
                write_line(&mut output, "b", &[variable as u32, word - 1]);
            }
        }
    }
    output
}
