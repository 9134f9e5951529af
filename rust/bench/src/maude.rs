//! The eight tasks in Maude, where it is installed.
//!
//! For each task a module is written and given to the program `maude`. The
//! start term goes into it as a string, one sign for each node in post-order, and
//! the first command builds the term by equations. Each further command does the
//! task so many times and prints its processor time, the term and the result. Both
//! are compared with ours as a whole.
//!
//! A constructor 5 is `q5` in the start term and `c5` in a result. There are no
//! equations for a `q`. The equations for `work` copy a term from the one to the
//! other, as ALL does, and Maude reduces each `c` once its children are reduced.

#![forbid(unsafe_code)]

use crate::engines::ENGINES;
use crate::tasks::{Task, ONCE};
use crate::terms::WIDTH;
use std::env;
use std::fs::{self, File};
use std::io;
use std::path::Path;
use std::process::{self, Command, Stdio};
use std::thread::sleep;
use std::time::{Duration, Instant};

/// How often each task is timed; the best counts.
pub const ROUNDS: usize = 3;
/// How long one run of Maude may take.
const PATIENCE: Duration = Duration::from_secs(60);

/// What Maude says of a task.
pub struct Timed {
    /// The best processor time for the task, done as often as by us, in seconds.
    pub seconds: f64,
    /// The rewrites for that.
    pub rewrites: u64,
}

/// A task with Maude's time for it, or why there is none.
pub struct Row {
    /// The task's name.
    pub name: String,
    /// What its equations do.
    pub about: &'static str,
    /// The time, or the reason.
    pub outcome: Result<Timed, String>,
}

/// All that Maude did.
pub struct Maude {
    /// As `maude --version` prints it.
    pub version: String,
    /// The tasks.
    pub rows: Vec<Row>,
}

/// A constructor and the number of its children.
type Head = (u32, usize);

/// How a task is written for Maude.
struct Program {
    /// What its equations do, in a sentence.
    about: &'static str,
    /// How many times more often than by us the work is done in one command.
    /// Maude prints whole milliseconds, and what it leaves out should not count.
    more: usize,
    /// Whether the result is the start term itself, or made of parts of it.
    keeps: bool,
    /// Heads that are not in the start term.
    heads: &'static [Head],
    /// Which heads are copied by an equation that is not among the lines.
    copies: fn(Head) -> bool,
    /// Lines of the module.
    lines: &'static str,
}

/// The program of a task, if one is written.
fn program(name: &str) -> Option<Program> {
    let found = match name {
        "traversal" => Program {
            about: "one equation for each constructor copies a node",
            more: 4,
            keeps: false,
            heads: &[],
            copies: |_| true,
            lines: "",
        },
        "rule bottom up" => Program {
            about:
                "a copy as in the traversal; the swap is an equation of its own, for each inner \
                    node whose children are done (one equation for copy and swap would be \
                    quicker, but would not be a rule after the children)",
            more: 8,
            keeps: false,
            heads: &[],
            copies: |head| head != (5, 2),
            lines: "
  op rule : Term -> Term .
  eq work(q5(X1, X2)) = rule(c5(work(X1), work(X2))) .
  eq rule(c5(X1, X2)) = c5(X2, X1) .
",
        },
        "failing search" => Program {
            about: "a function that answers true or false",
            more: 8,
            keeps: true,
            heads: &[(77, 0)],
            copies: |_| false,
            lines: "
  op found : Term -> Bool .
  eq work(X1) = if found(X1) then none else X1 fi .
  eq found(q77) = true .
  eq found(q5(X1, X2)) = if found(X1) then true else found(X2) fi .
  eq found(X1) = false [owise] .
",
        },
        "deep comparisons" => Program {
            about: "an equation with the same variable twice on its left side",
            more: 8,
            keeps: true,
            heads: &[],
            copies: |_| false,
            lines: "
  eq work(q6(X1, X1)) = q6(X1, X1) .
  eq work(X1) = none [owise] .
",
        },
        "pruner" => Program {
            about: "a copy as in the traversal; the rules are equations for the copied nodes",
            more: 10,
            keeps: false,
            heads: &[],
            copies: |_| true,
            lines: "
  eq c9(c11(X1), X2) = X2 .
  eq c12(c20, X1) = X1 .
  eq c13(c14, X1) = X1 .
  eq c15(X1, X1) = X1 .
",
        },
        "Fibonacci" => Program {
            about: "a copy as in the traversal; the five equations are for the copied nodes",
            more: 32,
            keeps: false,
            heads: &[(32, 2)],
            copies: |_| true,
            lines: "
  eq c33(c30) = c30 .
  eq c33(c31(c30)) = c31(c30) .
  eq c33(c31(c31(X1))) = c32(c33(X1), c33(c31(X1))) .
  eq c32(X1, c30) = X1 .
  eq c32(X1, c31(X2)) = c31(c32(X1, X2)) .
",
        },
        "innermost simplifier" => Program {
            about:
                "a copy as in the traversal; the eighteen rules are equations for the copied nodes",
            more: 64,
            keeps: false,
            heads: &[],
            copies: |_| true,
            lines: "
  eq c42(c40, X1) = X1 .
  eq c42(X1, c40) = X1 .
  eq c42(c41, X1) = c41 .
  eq c42(X1, c41) = c41 .
  eq c42(X1, X1) = X1 .
  eq c43(c41, X1) = X1 .
  eq c43(X1, c41) = X1 .
  eq c43(c40, X1) = c40 .
  eq c43(X1, c40) = c40 .
  eq c43(X1, X1) = X1 .
  eq c44(c40) = c41 .
  eq c44(c41) = c40 .
  eq c44(c44(X1)) = X1 .
  eq c44(c42(X1, X2)) = c43(c44(X1), c44(X2)) .
  eq c44(c43(X1, X2)) = c42(c44(X1), c44(X2)) .
  eq c45(c40, X1, X2) = X1 .
  eq c45(c41, X1, X2) = X2 .
  eq c45(X1, X2, X2) = X2 .
",
        },
        "full-size pruner" => Program {
            about: "a function looks a name up in the tree and answers its body or none; another \
                    goes through the whole tree and makes the definition live",
            more: 1,
            keeps: true,
            heads: &[(63, 2), (64, 0)],
            copies: |_| false,
            lines: "
  ops seek mark reach : Term Term -> Term .
  ops elsewhere follow : Term Term Term -> Term .
  op drop : Term -> Term .
  op join : Term Term -> Term .
  eq work(q60(X1, X2)) = q60(drop(reach(X2, X1)), X2) .
  eq reach(q65(X1, X2), X3) = reach(X2, reach(X1, X3)) .
  eq reach(q66(X1), X2) = follow(seek(X1, X2), X1, X2) .
  eq reach(q67, X1) = X1 .
  eq follow(none, X1, X2) = X2 .
  eq follow(X3, X1, X2) = reach(X3, mark(X1, X2)) [owise] .
  eq seek(X1, q61(X2, X3)) = elsewhere(seek(X1, X2), X1, X3) .
  eq seek(X1, q62(X1, X2)) = X2 .
  eq seek(X1, X2) = none [owise] .
  eq elsewhere(none, X1, X2) = seek(X1, X2) .
  eq elsewhere(X3, X1, X2) = X3 [owise] .
  eq mark(X1, q61(X2, X3)) = q61(mark(X1, X2), mark(X1, X3)) .
  eq mark(X1, q62(X1, X2)) = q63(X1, X2) .
  eq mark(X1, X2) = X2 [owise] .
  eq drop(q61(X1, X2)) = join(drop(X1), drop(X2)) .
  eq drop(q62(X1, X2)) = q64 .
  eq drop(q63(X1, X2)) = q62(X1, X2) .
  eq join(q64, X1) = X1 .
  eq join(X1, q64) = X1 .
  eq join(X1, X2) = q61(X1, X2) [owise] .
",
        },
        _ => return None,
    };
    Some(found)
}

// ---- terms as text

/// A node's constructor and the numbers of its children.
fn parts(store: &[u32], node: u32) -> (u32, &[u32]) {
    let words = &store[WIDTH * node as usize..][..WIDTH];
    (words[0], &words[2..2 + words[1] as usize])
}

/// The heads of a term in post-order.
fn post_order(store: &[u32], node: u32, heads: &mut Vec<Head>) {
    let (constructor, children) = parts(store, node);
    for child in children {
        post_order(store, *child, heads);
    }
    heads.push((constructor, children.len()));
}

/// A term as Maude prints it.
fn print(store: &[u32], node: u32, letter: char, text: &mut String) {
    let (constructor, children) = parts(store, node);
    text.push_str(&format!("{}{}", letter, constructor));
    for (place, child) in children.iter().enumerate() {
        text.push_str(if place == 0 { "(" } else { ", " });
        print(store, *child, letter, text);
    }
    if !children.is_empty() {
        text.push(')');
    }
}

/// A head over so many operands, each the one that is given for its place.
fn over<F: Fn(usize) -> String>(letter: char, head: Head, operand: F) -> String {
    let name = format!("{}{}", letter, head.0);
    if head.1 == 0 {
        return name;
    }
    let operands: Vec<String> = (1..=head.1).map(operand).collect();
    format!("{}({})", name, operands.join(", "))
}

/// The characters of signs.
fn characters() -> impl Iterator<Item = char> {
    ('!'..='~').filter(|sign| !"\"\\".contains(*sign))
}

/// So many signs, each for a head: all of one character where there are as many, or
/// else all of two. None where those are too few.
fn signs(count: usize) -> Option<Vec<String>> {
    let mut signs: Vec<String> = characters().map(String::from).collect();
    if signs.len() < count {
        let with = |first: &str, next: char| format!("{}{}", first, next);
        let pairs = signs
            .iter()
            .flat_map(|first| characters().map(move |next| with(first, next)));
        signs = pairs.collect();
    }
    if signs.len() < count {
        return None;
    }
    signs.truncate(count);
    Some(signs)
}

// ---- the module

/// What is the same in each module but for the characters of a sign.
const COMMON: &str = "
  op none : -> Term .
  op empty : -> Stack .
  op push : Term Stack -> Stack .
  op step : String Stack -> Stack .
  op read : Nat String Stack -> Stack .
  op text : -> String .
  op begin : -> State .
  op built : Stack -> State [frozen] .
  op state : Term Term -> State [frozen] .
  op work : Term -> Term .
  op loop : Nat Term Term -> Term .
  eq read(N, S, K) = if N == length(S) then K else read(N + LENGTH, S, step(substr(S, N, LENGTH), K)) fi .
  eq built(push(X1, empty)) = state(X1, none) .
  eq loop(0, X1, X2) = X2 .
  eq loop(s(N), X1, X2) = loop(N, X1, work(X1)) .
  rl begin => built(read(0, text, empty)) .
";

/// The module of a term and a program, and its commands.
fn module(
    store: &[u32],
    subject: u32,
    program: &Program,
    times: usize,
    rounds: usize,
) -> Result<String, String> {
    let mut order = Vec::new();
    post_order(store, subject, &mut order);
    let mut heads = order.clone();
    heads.sort_unstable();
    heads.dedup();
    let signs = match signs(heads.len()) {
        Some(signs) => signs,
        None => return Err("its term has more heads than there are signs for".to_string()),
    };
    let mut text = String::from("mod TASK is\n  protecting STRING .\n  sorts Term Stack State .\n");
    text.push_str("  vars X1 X2 X3 X4 X5 X6 : Term .\n");
    text.push_str("  var K : Stack .\n  var S : String .\n  var N : Nat .\n");
    text.push_str(&COMMON.replace("LENGTH", &signs[0].len().to_string()));
    for head in heads.iter().chain(program.heads) {
        let sorts = "Term ".repeat(head.1);
        for letter in ['q', 'c'] {
            text.push_str(&format!("  op {}{} : {}-> Term .\n", letter, head.0, sorts));
        }
    }
    let variable = |place| format!("X{}", place);
    for (&head, sign) in heads.iter().zip(&signs) {
        // The last child is on top of the stack.
        let stack = (1..=head.1).fold("K".to_string(), |rest, place| {
            format!("push(X{}, {})", place, rest)
        });
        let built = over('q', head, variable);
        text.push_str(&format!(
            "  eq step(\"{}\", {}) = push({}, K) .\n",
            sign, stack, built
        ));
        if (program.copies)(head) {
            let copied = over('c', head, |place| format!("work(X{})", place));
            text.push_str(&format!("  eq work({}) = {} .\n", built, copied));
        }
    }
    text.push_str(program.lines);
    text.push_str(&format!(
        "  rl state(X1, X2) => state(X1, loop({}, X1, none)) .\n",
        times * program.more
    ));
    text.push_str("  eq text = \"");
    for head in &order {
        let place = heads.binary_search(head).expect("each head is among them");
        text.push_str(&signs[place]);
    }
    text.push_str("\" .\nendm\nrewrite [1] begin .\n");
    text.push_str(&"continue 1 .\n".repeat(rounds));
    text.push_str("quit .\n");
    Ok(text)
}

// ---- what Maude prints

/// The rewrites and the milliseconds of a line like
/// `rewrites: 242 in 3ms cpu (4ms real) (80666 rewrites/second)`.
fn spent(line: &str) -> Option<(u64, u64)> {
    let (rewrites, rest) = line.strip_prefix("rewrites: ")?.split_once(" in ")?;
    let (time, _) = rest.split_once("ms cpu")?;
    Some((rewrites.parse().ok()?, time.parse().ok()?))
}

/// The rewrites, the milliseconds and the state of each command.
fn commands(output: &str) -> Vec<(u64, u64, &str)> {
    let mut all = Vec::new();
    let mut numbers = None;
    for line in output.lines() {
        if let Some(found) = spent(line) {
            numbers = Some(found);
        } else if let Some(state) = line.strip_prefix("result State: ") {
            if let Some((rewrites, time)) = numbers.take() {
                all.push((rewrites, time, state));
            }
        }
    }
    all
}

/// The best time of an output, if its states are those that are expected.
fn judged(
    output: &str,
    term: &str,
    result: &str,
    rounds: usize,
    more: usize,
) -> Result<Timed, String> {
    let all = commands(output);
    if all.len() != 1 + rounds {
        return Err(format!(
            "Maude answered {} commands of {}",
            all.len(),
            1 + rounds
        ));
    }
    if all[0].2 != format!("state({}, none)", term) {
        return Err("Maude's start term differs from ours".to_string());
    }
    let expected = format!("state({}, {})", term, result);
    if all[1..].iter().any(|command| command.2 != expected) {
        return Err("Maude's result differs from ours".to_string());
    }
    let best = all[1..].iter().map(|command| command.1).min();
    Ok(Timed {
        seconds: 1e-3 * best.unwrap_or(0) as f64 / more as f64,
        rewrites: all[1].0 / more as u64,
    })
}

// ---- the runs

/// Whether there is a program `maude`.
fn installed() -> bool {
    env::var_os("PATH").map_or(false, |folders| {
        env::split_paths(&folders).any(|folder| folder.join("maude").is_file())
    })
}

/// What a process of Maude leaves.
struct Left {
    /// What it printed.
    printed: String,
    /// How it ended, if not well.
    ended: Option<String>,
    /// The first line of its complaints.
    complaint: Option<String>,
}

/// Gives a file to Maude and waits for what it leaves.
fn given(folder: &Path, text: &str) -> io::Result<Left> {
    fs::create_dir_all(folder)?;
    let file = folder.join("task.maude");
    fs::write(&file, text)?;
    let mut child = Command::new("maude")
        .args(["-no-banner", "-no-advise", "-no-wrap", "-no-ansi-color"])
        .arg(&file)
        .stdin(Stdio::null())
        .stdout(File::create(folder.join("printed"))?)
        .stderr(File::create(folder.join("complaints"))?)
        .spawn()?;
    let begin = Instant::now();
    let ended = loop {
        if let Some(status) = child.try_wait()? {
            break if status.success() {
                None
            } else {
                Some(format!("Maude ended with {}", status))
            };
        }
        if begin.elapsed() > PATIENCE {
            child.kill()?;
            child.wait()?;
            let seconds = PATIENCE.as_secs();
            break Some(format!("Maude had not ended after {} s", seconds));
        }
        sleep(Duration::from_millis(10));
    };
    let read = |name| -> io::Result<String> {
        let bytes = fs::read(folder.join(name))?;
        Ok(String::from_utf8_lossy(&bytes).into_owned())
    };
    // The page names no folder of the machine.
    let complaints = read("complaints")?.replace(&format!("{}/", folder.display()), "");
    Ok(Left {
        printed: read("printed")?,
        ended,
        complaint: complaints.lines().next().map(str::to_string),
    })
}

/// A term and our result of a task, as Maude should print them.
fn expected(task: &Task, keeps: bool) -> (String, String) {
    let mut term = String::new();
    print(&task.store, task.subject, 'q', &mut term);
    let mut store = task.store.clone();
    let numbers = (ENGINES[0].run)(
        &task.table,
        &mut store,
        &mut [0; 64],
        task.mark,
        ONCE,
        task.subject,
        task.units,
    );
    assert_eq!(numbers[0], task.answer, "{}", task.name);
    let mut result = String::new();
    let letter = if keeps { 'q' } else { 'c' };
    print(&store, numbers[2], letter, &mut result);
    (term, result)
}

/// A task in Maude.
fn timed(task: &Task, program: &Program, folder: &Path) -> Result<Timed, String> {
    let text = module(&task.store, task.subject, program, task.times, ROUNDS)?;
    let left =
        given(folder, &text).map_err(|error| format!("Maude could not be run: {}", error))?;
    let (term, result) = expected(task, program.keeps);
    let judged = match left.ended {
        Some(reason) => Err(reason),
        None => judged(&left.printed, &term, &result, ROUNDS, program.more),
    };
    judged.map_err(|reason| match left.complaint {
        Some(complaint) => format!("{}; it says: {}", reason, complaint),
        None => reason,
    })
}

/// The tasks in Maude, one process after the other, where there is a Maude.
pub fn beside(tasks: &[Task]) -> Option<Maude> {
    if !installed() {
        return None;
    }
    let version = match Command::new("maude").arg("--version").output() {
        Ok(output) => String::from_utf8_lossy(&output.stdout).trim().to_string(),
        Err(_) => "of unknown version".to_string(),
    };
    let folder = env::temp_dir().join(format!("marshtrundle-maude-{}", process::id()));
    let row = |task: &Task| match program(&task.name) {
        Some(program) => Row {
            name: task.name.clone(),
            about: program.about,
            outcome: timed(task, &program, &folder),
        },
        None => Row {
            name: task.name.clone(),
            about: "not written",
            outcome: Err("it is not written for Maude".to_string()),
        },
    };
    let rows = tasks.iter().map(row).collect();
    // A folder that stays behind does no harm.
    let _ = fs::remove_dir_all(&folder);
    Some(Maude { version, rows })
}

#[cfg(test)]
mod tests {
    use super::{characters, judged, module, print, program, signs, spent, Program};
    use crate::tasks::eight;
    use crate::terms::Terms;

    /// A program that copies.
    fn copying() -> Program {
        program("traversal").expect("it is written")
    }

    #[test]
    fn each_task_has_a_program() {
        for task in eight() {
            assert!(program(&task.name).is_some(), "{}", task.name);
        }
    }

    #[test]
    fn a_line_of_figures_is_read() {
        let line = "rewrites: 2097170 in 152ms cpu (153ms real) (13797171 rewrites/second)";
        assert_eq!(spent(line), Some((2_097_170, 152)));
        let line = "rewrites: 2 in 0ms cpu (0ms real) (~ rewrites/second)";
        assert_eq!(spent(line), Some((2, 0)));
        for line in [
            "",
            "rewrites: 2",
            "rewrites: x in 0ms cpu",
            "result State: none",
        ] {
            assert_eq!(spent(line), None, "{}", line);
        }
    }

    #[test]
    fn the_characters_are_plain() {
        assert_eq!(characters().count(), 92);
        assert!(characters().all(|sign| sign.is_ascii_graphic()));
    }

    #[test]
    fn a_small_module() {
        let mut terms = Terms::new();
        let subject = terms.balanced(5, 3);
        let store = terms.store(5);
        let mut term = String::new();
        print(&store, subject, 'q', &mut term);
        assert_eq!(term, "q5(q5(q0, q1), q3)");
        let text = module(&store, subject, &copying(), 2, 3).expect("there are few heads");
        for line in [
            "  op q3 : -> Term .",
            "  op c5 : Term Term -> Term .",
            "  eq step(\"!\", K) = push(q0, K) .",
            "  eq step(\"%\", push(X2, push(X1, K))) = push(q5(X1, X2), K) .",
            "  eq work(q3) = c3 .",
            "  eq work(q5(X1, X2)) = c5(work(X1), work(X2)) .",
            "  rl state(X1, X2) => state(X1, loop(8, X1, none)) .",
            "  eq text = \"!#%$%\" .",
        ] {
            let count = text.lines().filter(|known| *known == line).count();
            assert_eq!(count, 1, "{} in {}", line, text);
        }
        let end = "rewrite [1] begin .\ncontinue 1 .\ncontinue 1 .\ncontinue 1 .\nquit .\n";
        assert!(text.ends_with(end));
    }

    /// The module of a term with so many heads.
    fn with_heads(count: u32) -> Result<String, String> {
        let mut terms = Terms::new();
        let mut term = terms.node(0, &[]);
        for constructor in 1..count {
            term = terms.node(constructor, &[term]);
        }
        let store = terms.store(count as usize);
        module(&store, term, &copying(), 1, 1)
    }

    #[test]
    fn a_sign_has_as_many_characters_as_are_needed() {
        let text = with_heads(92).expect("there are as many characters");
        assert!(text.contains("read(N + 1, S, step(substr(S, N, 1), K))"));
        assert!(text.contains("  eq step(\"~\", push(X1, K)) = push(q91(X1), K) .\n"));
        let text = with_heads(93).expect("there are as many pairs of characters");
        assert!(text.contains("read(N + 2, S, step(substr(S, N, 2), K))"));
        assert!(text.contains("  eq step(\"!!\", K) = push(q0, K) .\n"));
        assert!(text.contains("  eq step(\"#!\", push(X1, K)) = push(q92(X1), K) .\n"));
        assert!(text.contains("  eq text = \"!!!#!$"));
    }

    #[test]
    fn too_many_heads_are_refused() {
        let most = 92 * 92;
        let mut all = signs(most).expect("there are as many pairs of characters");
        all.sort();
        all.dedup();
        assert_eq!(all.len(), most);
        assert!(signs(most + 1).is_none());
        assert!(with_heads(most as u32 + 1).is_err());
    }

    /// An output of two rounds with this result.
    fn output(result: &str) -> String {
        format!(
            "==========\nrewrite [1] in TASK : begin .\n\
             rewrites: 9 in 1ms cpu (1ms real) (9000 rewrites/second)\n\
             result State: state(q1, none)\n\
             rewrites: 40 in 12ms cpu (13ms real) (3333 rewrites/second)\n\
             result State: state(q1, c1)\n\
             rewrites: 40 in 8ms cpu (9ms real) (5000 rewrites/second)\n\
             result State: state(q1, {})\nBye.\n",
            result
        )
    }

    #[test]
    fn the_best_time_counts() {
        let timed = judged(&output("c1"), "q1", "c1", 2, 4).expect("all is as expected");
        assert!((timed.seconds - 0.002).abs() < 1e-9);
        assert_eq!(timed.rewrites, 10);
    }

    #[test]
    fn what_differs_is_found() {
        let reason = |output: &str, term: &str, rounds| {
            let judged = judged(output, term, "c1", rounds, 4);
            judged.err().expect("it differs")
        };
        let good = output("c1");
        assert!(reason(&output("c2"), "q1", 2).contains("result differs"));
        assert!(reason(&good, "q2", 2).contains("start term differs"));
        assert!(reason(&good, "q1", 3).contains("3 commands of 4"));
        assert!(reason("", "q1", 2).contains("0 commands of 3"));
    }
}
