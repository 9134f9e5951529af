//! A job: one run as text, read and written.
//!
//! docs/REFERENCE.md has the lines. The text is the proved job program's, without its limits of 60,000 bytes, 512 entries and 1,024
//! nodes: a job here may fill a table and a store.
//!
//! ```
//! use marshtrundle::job::Job;
//! let text = "job\t10\t0\t2\t4\ne\t12\t0\t1\ne\t0\t0\nn\t1\nn\t2\nn\t5\t0\t1\n";
//! let mut job = Job::read(text.as_bytes()).unwrap();
//! assert_eq!(job.to_string(), text);
//! let end = job.run();
//! assert_eq!(job.answer(&end), "answer\t0\t0\t3\t4\t2\nn\t1\nn\t2\nn\t5\t0\t1\nn\t5\t0\t1\n");
//!
//! let fault = Job::read(b"job\t10\t0\t2\t4\ne\t12 0\n").unwrap_err();
//! assert_eq!(fault.to_string(), "line 2: '12 0' is no number: fields are parted by one tab, and there is a space");
//! ```
use crate::answer::Outcome;
use crate::bindings::{Bindings, Var, VARIABLES};
use crate::kind;
use crate::profile::Profile;
use crate::steps::{Stepper, WorkList};
use crate::store::{Node, Store};
use crate::table::{Entry, Table};
use crate::NODES;
use std::fmt;

/// One run: what it takes.
#[derive(Clone, Debug, PartialEq, Eq)]
pub struct Job {
    /// The most visits.
    pub units: u32,
    /// The entry to start at.
    pub start: Entry,
    /// The term.
    pub subject: Node,
    /// The strategies.
    pub table: Table,
    /// The nodes, and room behind them.
    pub store: Store,
    /// What is bound.
    pub bindings: Bindings,
}

/// What is wrong with the text of a job (answer 9), and on which line.
#[derive(Clone, Debug, PartialEq, Eq)]
pub struct TextFault {
    /// The first bad line, from 1.
    pub line: usize,
    /// What is wrong with it.
    pub what: String,
}

impl TextFault {
    /// The answer's line in an answer text: number 9, the line, and zeros.
    pub fn answer(&self) -> String {
        format!("answer\t9\t{}\t0\t0\t0\n", self.line)
    }
}

impl fmt::Display for TextFault {
    fn fmt(&self, f: &mut fmt::Formatter<'_>) -> fmt::Result {
        write!(f, "line {}: {}", self.line, self.what)
    }
}

impl std::error::Error for TextFault {}

impl Job {
    /// The job of a text.
    pub fn read(text: &[u8]) -> Result<Job, TextFault> {
        let mut reader = Reader::default();
        let mut line = 1;
        let mut rest = text;
        while line == 1 || !rest.is_empty() {
            let wrong = |what| TextFault { line, what };
            let end = rest.iter().position(|&byte| byte == b'\n');
            let end = end.ok_or_else(|| {
                wrong(if rest.is_empty() {
                    "there is no line".to_owned()
                } else {
                    "the line does not end in a line feed".to_owned()
                })
            })?;
            reader.line(line, &rest[..end]).map_err(wrong)?;
            rest = &rest[end + 1..];
            line += 1;
        }
        Ok(reader.job())
    }

    /// Runs the job. The store and the bindings are then what the run left. The calling thread needs
    /// [`STACK`](crate::STACK) bytes of stack.
    pub fn run(&mut self) -> Outcome {
        crate::run(
            &self.table,
            &mut self.store,
            &mut self.bindings,
            self.start,
            self.subject,
            self.units,
        )
    }

    /// Runs the job so many visits at a time, at least one. `between` is told the visits made so far before each step but the first. The
    /// outcome, the store and the bindings are those of [`run`](Job::run).
    pub fn run_in_steps(&mut self, visits: u32, between: impl FnMut(u32)) -> Outcome {
        let mark = self.store.mark();
        let mut work = WorkList::new();
        let began = Stepper::start(
            &self.table,
            &mut self.store,
            &mut self.bindings,
            &mut work,
            self.start,
            self.subject,
            self.units,
        );
        match began {
            Ok(run) => run.finish(visits, between),
            Err(answer) => Outcome {
                answer,
                subject: self.subject,
                mark,
                units: 0,
            },
        }
    }

    /// Runs the job and counts its visits in a profile of its table. The outcome, the store and the bindings are those of [`run`](Job::run).
    /// The calling thread needs [`STACK`](crate::STACK) bytes of stack.
    pub fn run_counted(&mut self, profile: &mut Profile) -> Outcome {
        crate::run_counted(
            &self.table,
            &mut self.store,
            &mut self.bindings,
            None,
            profile,
            self.start,
            self.subject,
            self.units,
        )
    }

    /// The text of the answer, once the job has run: the five numbers, and where something was run the nodes and the bindings.
    pub fn answer(&self, end: &Outcome) -> String {
        let numbers = [
            end.answer.number(),
            end.answer.place(),
            end.subject.number(),
            end.mark,
            end.units,
        ];
        let mut text = line_of("answer", numbers.map(u64::from));
        if !end.answer.is_refusal() {
            self.write_store(&mut text);
        }
        text
    }

    fn write_store(&self, text: &mut String) {
        let rows = self.store.words().chunks_exact(8);
        for row in rows.take(self.store.mark() as usize) {
            let children = &row[2..2 + (row[1] as usize).min(6)];
            text.push_str(&line_of(
                "n",
                [row[0]].iter().chain(children).map(|&word| word.into()),
            ));
        }
        for (var, node) in self.bindings.iter() {
            text.push_str(&line_of("b", [var.number(), node.number()].map(u64::from)));
        }
    }
}

/// The entries of a table as `e` lines.
pub fn entry_lines(table: &Table) -> String {
    let mut text = String::new();
    for row in table.words().chunks_exact(8) {
        let numbers = [u64::from(row[0] / 16), kind::argument(row)];
        let operands = kind::operands(row).iter().map(|&operand| operand.into());
        text.push_str(&line_of("e", numbers.into_iter().chain(operands)));
    }
    text
}

/// The job's text. What is read from it is the job, where the table and the store have their form.
impl fmt::Display for Job {
    fn fmt(&self, f: &mut fmt::Formatter<'_>) -> fmt::Result {
        let head = [
            self.units,
            self.start.number(),
            self.subject.number(),
            self.store.capacity() as u32,
        ];
        let mut text = line_of("job", head.map(u64::from));
        text.push_str(&entry_lines(&self.table));
        self.write_store(&mut text);
        f.write_str(&text)
    }
}

/// A line: a name, then numbers, parted by tabs.
fn line_of(name: &str, numbers: impl IntoIterator<Item = u64>) -> String {
    let mut line = name.to_owned();
    for number in numbers {
        line.push('\t');
        line.push_str(&number.to_string());
    }
    line.push('\n');
    line
}

/// What the lines so far have said.
#[derive(Default)]
struct Reader {
    head: [u32; 4],
    table: Vec<u32>,
    nodes: Vec<u32>,
    bindings: Bindings,
    group: usize,
    next_variable: u32,
}

/// The lines after the first, in their order.
const GROUPS: [&str; 3] = ["e", "n", "b"];

impl Reader {
    fn line(&mut self, line: usize, bytes: &[u8]) -> Result<(), String> {
        let text = std::str::from_utf8(bytes).map_err(|_| "it is no text".to_owned())?;
        if text.ends_with('\r') {
            return Err(
                "it ends in a carriage return; a line ends in a line feed alone".to_owned(),
            );
        }
        let mut fields = text.split('\t');
        let name = fields.next().unwrap_or_default();
        let fields: Vec<&str> = fields.collect();
        if line == 1 {
            if name != "job" {
                return Err(format!(
                    "it begins with '{name}', and the first line with 'job'"
                ));
            }
            let any = u64::from(u32::MAX);
            let head = numbers(&fields, 4, &[any, any, any, NODES as u64])?;
            for (word, number) in self.head.iter_mut().zip(head) {
                *word = number as u32;
            }
            return Ok(());
        }
        let group = GROUPS.iter().position(|&group| group == name);
        let group =
            group.ok_or_else(|| format!("it begins with '{name}', and not with e, n or b"))?;
        if group < self.group {
            return Err(format!("'{name}' stands after '{}'", GROUPS[self.group]));
        }
        self.group = group;
        let any = u64::from(u32::MAX);
        match group {
            0 => {
                let scope = fields.first() == Some(&"16");
                let most = if scope { u64::MAX } else { any };
                let numbers = numbers(&fields, 2, &[255, most, any, any, any, any, any, any])?;
                let kind = numbers[0] as u32;
                let mut row = [0; 8];
                row[0] = 16 * kind + (numbers.len() as u32 - 2);
                row[1] = numbers[1] as u32;
                if scope {
                    row[2] = (numbers[1] >> 32) as u32;
                }
                // A scope with six operands is no good one; the sixth has no word.
                let words = row[kind::operands_from(kind)..].iter_mut();
                for (word, &operand) in words.zip(&numbers[2..]) {
                    *word = operand as u32;
                }
                self.table.extend(row);
            }
            1 => {
                let numbers = numbers(&fields, 1, &[any; 7])?;
                let mut row = [0; 8];
                row[0] = numbers[0] as u32;
                row[1] = numbers.len() as u32 - 1;
                for (word, &child) in row[2..].iter_mut().zip(&numbers[1..]) {
                    *word = child as u32;
                }
                self.nodes.extend(row);
            }
            _ => {
                let numbers = numbers(&fields, 2, &[VARIABLES as u64 - 1, NODES as u64 - 1])?;
                let (variable, node) = (numbers[0] as u32, numbers[1] as u32);
                if variable < self.next_variable {
                    return Err(format!("variable {variable} does not rise"));
                }
                self.next_variable = variable + 1;
                if let Some(var) = Var::new(variable) {
                    self.bindings.bind(var, Node::from_number(node));
                }
            }
        }
        Ok(())
    }

    fn job(self) -> Job {
        let [units, start, subject, room] = self.head;
        let mark = (self.nodes.len() / 8) as u32;
        let mut words = self.nodes;
        words.resize(8 * room as usize, 0);
        Job {
            units,
            start: Entry::from_number(start),
            subject: Node::from_number(subject),
            table: Table::from_words(self.table),
            store: Store::from_words(words, mark),
            bindings: self.bindings,
        }
    }
}

/// The numbers of a line: at least so many, and each at most what its place allows.
fn numbers(fields: &[&str], least: usize, most: &[u64]) -> Result<Vec<u64>, String> {
    let numbers = fields
        .iter()
        .map(|field| number(field))
        .collect::<Result<Vec<u64>, String>>()?;
    if numbers.len() < least || numbers.len() > most.len() {
        let wanted = if least == most.len() {
            least.to_string()
        } else {
            format!("{least} to {}", most.len())
        };
        return Err(format!(
            "it has {} numbers, expected {wanted}",
            numbers.len()
        ));
    }
    match numbers
        .iter()
        .zip(most)
        .find(|(number, most)| number > most)
    {
        Some((number, most)) => Err(format!("{number} is above {most}")),
        None => Ok(numbers),
    }
}

fn number(field: &str) -> Result<u64, String> {
    if field.is_empty() {
        return Err("a field is empty: fields are parted by one tab".to_owned());
    }
    if field.contains(' ') {
        return Err(format!(
            "'{field}' is no number: fields are parted by one tab, and there is a space"
        ));
    }
    if !field.bytes().all(|byte| byte.is_ascii_digit()) {
        return Err(format!("'{field}' is no number"));
    }
    if field.len() > 1 && field.starts_with('0') {
        return Err(format!("'{field}' has a leading zero"));
    }
    let number = field.parse();
    number.map_err(|_| format!("{field} is above {}", u64::MAX))
}
