//! The command as a program: its outputs, its exit status, and what it says of bad words, bad files and every answer.
use std::io::Write;
use std::path::PathBuf;
use std::process::{Command, Output, Stdio};

fn root() -> PathBuf {
    PathBuf::from(env!("CARGO_MANIFEST_DIR")).join("../..")
}

/// Runs the program with these words, from the repository's root. MARSHTRUNDLE_RUNNER has the words of an emulator, if there is one.
fn program(words: &[&str], input: &[u8]) -> Output {
    let runner = std::env::var("MARSHTRUNDLE_RUNNER").unwrap_or_default();
    let mut whole: Vec<&str> = runner.split_whitespace().collect();
    whole.push(env!("CARGO_BIN_EXE_marshtrundle"));
    whole.extend(words);
    let mut child = Command::new(whole[0])
        .args(&whole[1..])
        .current_dir(root())
        .stdin(Stdio::piped())
        .stdout(Stdio::piped())
        .stderr(Stdio::piped())
        .spawn()
        .expect("the program starts");
    // A program that ends before it reads has closed its input.
    let _ = child.stdin.take().expect("an input").write_all(input);
    child.wait_with_output().expect("the program ends")
}

struct Told {
    status: i32,
    output: String,
    error: String,
}

fn told(words: &[&str], input: &str) -> Told {
    let ran = program(words, input.as_bytes());
    Told {
        status: ran.status.code().expect("a status"),
        output: String::from_utf8(ran.stdout).expect("text"),
        error: String::from_utf8(ran.stderr).expect("text"),
    }
}

/// Fields parted by spaces here, by tabs in the job.
fn job(lines: &[&str]) -> String {
    lines
        .iter()
        .map(|line| line.replace(' ', "\t") + "\n")
        .collect()
}

#[test]
fn every_example_is_answered_as_it_is_stored() {
    let mut jobs = 0;
    for file in std::fs::read_dir(root().join("examples")).unwrap() {
        let path = file.unwrap().path();
        if path.extension().map_or(true, |end| end != "job") {
            continue;
        }
        let stored = std::fs::read_to_string(path.with_extension("answer")).unwrap();
        let ran = told(&["run", path.to_str().unwrap()], "");
        assert_eq!(ran.output, stored, "{}", path.display());
        let answer = stored.split('\t').nth(1).unwrap();
        assert_eq!(ran.status.to_string(), answer, "{}", path.display());
        assert_eq!(ran.error.is_empty(), ran.status == 0, "{}", path.display());
        jobs += 1;
    }
    assert!(jobs >= 6, "{jobs} jobs");
}

/// A job for each answer: its status, and words of what is said of it.
#[test]
fn each_answer_has_its_status_and_its_words() {
    let id = "e 0 0";
    for (lines, status, says) in [
        (&["job 9 0 0 1", id, "n 1"][..], 0, ""),
        (&["job 9 0 0 1", "e 1 0", "n 1"], 1, "answer 1: failed"),
        (
            &["job 9 0 0 1", id, "n 1", "n 1"],
            2,
            "answer 2: a length or the mark is bad",
        ),
        (&["job 9 0 0 1", id, "n 1 0"], 4, "answer 4: node 0 is bad"),
        (
            &["job 9 0 1 1", id, "n 1"],
            5,
            "answer 5: the start, the subject or a binding is bad",
        ),
        (
            &["job 0 0 0 1", id, "n 1"],
            6,
            "answer 6: all units are used",
        ),
        (
            &["job 9 0 0 1", "e 15 0 1", "e 19 5", "n 1"],
            7,
            "answer 7: the store has no room",
        ),
        (
            &["job 9999 0 0 1", "e 7 0 1", "e 8 0 0", "n 1"],
            8,
            "answer 8: a visit is nested too deep",
        ),
        (
            &["job 9 0 0 1", "e 15 0 1", "e 18 7", "n 1"],
            12,
            "answer 12: variable 7 is built and unbound",
        ),
        (
            &["job 9 0 0 1", "e 0"],
            9,
            "answer 9: line 2: it has 1 numbers, expected 2 to 8",
        ),
        (
            &["job 9 0 0 1", "e 15 0 1", "e 18 7", "n 1"],
            12,
            "answer 12: variable 7 is built and unbound",
        ),
        (
            &["job 9 0 0 1", "e 20 0", "n 1"],
            13,
            "entry 0: unknown kind or wrong number of operands: word 0 is 320",
        ),
        (
            &["job 9 0 0 1", "e 0 7", "n 1"],
            14,
            "word 1 is 7, expected 0 for ID",
        ),
        (
            &["job 9 0 0 1", "e 11 0 1", "n 1"],
            15,
            "word 2 is 1, expected an entry after this one",
        ),
        (
            &["job 9 0 0 1", "e 11 0 1", "e 18 0", "n 1"],
            16,
            "expected the number of a strategy for ALL",
        ),
    ] {
        let text = job(lines);
        let ran = told(&["run", "-"], &text);
        assert_eq!(ran.status, status, "{lines:?}: {}", ran.error);
        assert!(ran.error.contains(says), "{lines:?}: {}", ran.error);
        assert!(
            ran.output.starts_with(&format!("answer\t{status}\t")),
            "{}",
            ran.output
        );
        // What to do next is a second line.
        assert_eq!(
            ran.error.lines().count(),
            if status == 0 { 0 } else { 2 },
            "{}",
            ran.error
        );
        assert!(
            ran.error.lines().skip(1).all(|line| line.len() > 60),
            "{}",
            ran.error
        );
    }
}

#[test]
fn bad_usage_is_64_and_says_what_is_wrong() {
    for (words, says) in [
        (&[][..], "no subcommand"),
        (&["rum"], "'rum' is no subcommand"),
        (&["run"], "no FILE"),
        (&["run", "a", "b"], "'b' is one word too many"),
        (&["run", "a", "--html"], "'run' has no option --html"),
        (&["print", "a", "--graph"], "--graph needs a value"),
        (
            &["print", "a", "--graph", "tree"],
            "--graph is 'term' or 'table', not 'tree'",
        ),
        (
            &["run", "a", "--units", "many"],
            "--units is a number, and 'many' is none",
        ),
        (
            &["run", "a", "--units", "4294967296"],
            "--units is a number",
        ),
    ] {
        let ran = told(words, "");
        assert_eq!(ran.status, 64, "{words:?}");
        assert!(ran.error.contains(says), "{words:?}: {}", ran.error);
        assert!(
            ran.error.contains("usage: marshtrundle run FILE"),
            "{}",
            ran.error
        );
    }
    let ran = told(&["--help"], "");
    assert_eq!((ran.status, ran.error.as_str()), (0, ""));
    assert!(ran.output.starts_with("usage: "));
}

#[test]
fn files_that_cannot_be_read_are_66() {
    let ran = told(&["run", "examples/nothing.job"], "");
    assert_eq!(ran.status, 66);
    assert!(
        ran.error
            .starts_with("marshtrundle: examples/nothing.job: "),
        "{}",
        ran.error
    );
    let ran = told(
        &["print", "examples/swap.job", "--names", "examples/swap.job"],
        "",
    );
    assert_eq!(ran.status, 66);
    assert!(
        ran.error.contains("examples/swap.job: line 1: "),
        "{}",
        ran.error
    );
}

#[test]
fn check_says_what_a_run_would_refuse() {
    let ran = told(&["check", "examples/pruner.job"], "");
    assert_eq!(ran.status, 0);
    assert_eq!(
        ran.output,
        "47 entries, 35 nodes, room for 29 more: nothing is refused\n"
    );
    let ran = told(&["check", "-"], &job(&["job 9 5 0 1", "e 0 0", "n 1"]));
    assert_eq!(ran.status, 5);
    assert!(
        ran.output.is_empty() && ran.error.contains("answer 5"),
        "{}",
        ran.error
    );
}

#[test]
fn free_names_the_variables() {
    let ran = told(&["free", "examples/pruner.job"], "");
    assert_eq!((ran.status, ran.output.as_str()), (0, "1\tm\n"));
    let ran = told(&["free", "examples/swap.job"], "");
    assert_eq!((ran.status, ran.output.as_str()), (0, ""));
    let ran = told(
        &["free", "-"],
        &job(&["job 9 1 0 1", "e 14 0 1", "e 18 0", "n 1"]),
    );
    assert_eq!(ran.status, 5);
}

#[test]
fn print_shows_strategies_and_terms_within_limits() {
    let ran = told(&["print", "examples/pruner.job"], "");
    assert!(
        ran.output
            .starts_with("prune = rec prune((round ; prune) <+ id)\nround = {p: "),
        "{}",
        ran.output
    );
    assert!(
        ran.output
            .contains("\nsubject: MODULE(CELL(FUN(main, CALLS(parse)), "),
        "{}",
        ran.output
    );
    assert!(
        ran.output.ends_with("\nbound: m = main\n"),
        "{}",
        ran.output
    );
    let ran = told(&["print", "examples/pruner.job", "--depth", "2"], "");
    assert!(
        ran.output
            .contains("\nsubject: MODULE(CELL(.., ..), CELL(.., ..))\n"),
        "{}",
        ran.output
    );
    let ran = told(&["print", "examples/pruner.job", "--entries"], "");
    assert_eq!(ran.output.lines().count(), 47);
    assert_eq!(ran.output.lines().nth(16), Some("16\tNOT\t18\tnot(named)"));
    let ran = told(&["print", "examples/pruner.job", "--graph", "term"], "");
    // The three calls and the names that they share are one box each: 35 nodes.
    assert_eq!(
        ran.output
            .lines()
            .filter(|line| !line.contains("->") && line.contains("[label="))
            .count(),
        35
    );
    let ran = told(&["print", "examples/pruner.job", "--graph", "table"], "");
    assert!(
        ran.output
            .contains("n12 [label=\"12 drop SCOPE f, body, rest, h, e\"];"),
        "{}",
        ran.output
    );
    // A tower of 23 levels was 25 MB once.
    let mut tower = vec![
        "job 9 0 23 24".to_owned(),
        "e 0 0".to_owned(),
        "n 1".to_owned(),
    ];
    tower.extend((0..23).map(|k| format!("n 5 {k} {k}")));
    let lines: Vec<&str> = tower.iter().map(String::as_str).collect();
    let ran = told(&["print", "-", "--full"], &job(&lines));
    assert!(ran.output.len() < 500, "{} bytes", ran.output.len());
}

#[test]
fn run_shows_the_new_term_and_what_changed() {
    let ran = told(&["run", "examples/swap.job", "--print"], "");
    assert_eq!((ran.status, ran.output.as_str()), (0, "PAIR(2, 1)\n"));
    let ran = told(&["run", "examples/swap.job", "--difference"], "");
    assert_eq!(ran.output, "at 1: 1, then 2\nat 2: 2, then 1\n");
    let ran = told(
        &["run", "examples/pruner.job", "--print", "--difference"],
        "",
    );
    assert!(
        ran.output.contains("\nm = main\nat 1.2.2.2.2.2: "),
        "{}",
        ran.output
    );
    let ran = told(&["run", "examples/swap.job", "--print", "--units", "9"], "");
    assert_eq!((ran.status, ran.output.as_str()), (6, ""));
}

/// Where the last match gave up, by names.
#[test]
fn a_failed_run_names_the_pattern() {
    let ran = told(&["run", "examples/diagnosis/failed.job"], "");
    let first = ran.error.lines().next();
    let wanted =
        "marshtrundle: answer 1: failed: the last match gave up at entry 8, in NOT(NOT(x))";
    assert_eq!((ran.status, first), (1, Some(wanted)));
}

/// A store and a table of full size.
#[test]
fn a_job_of_full_size_is_run() {
    let mut text = job(&["job 4294967295 0 131071 131072", "e 2 0 1"]);
    text.push_str(&"e\t0\t0\n".repeat(4_095));
    text.push_str(&"n\t1\n".repeat(131_072));
    let ran = told(&["run", "-"], &text);
    assert_eq!(ran.status, 0, "{}", ran.error);
    assert!(ran.output.starts_with("answer\t0\t0\t131071\t131072\t2\n"));
    assert_eq!(ran.output.lines().count(), 131_073);
}

/// The customer's handler table: slot 1 binds h and e, fails, and both are unbound again when slot 2 is looked at.
#[test]
fn explain_tells_the_handler_that_only_a_table_names() {
    let ran = told(&["explain", "examples/pruner.job"], "");
    assert_eq!(ran.status, 0, "{}", ran.error);
    assert!(
        ran.output.starts_with("answer 0: done, 4335 visits\n"),
        "{}",
        ran.output
    );
    let lines: Vec<&str> = ran.output.lines().map(str::trim).collect();
    let drop = lines
        .iter()
        .position(|line| line.starts_with("drop on CELL(FUN(on_tariff, "))
        .unwrap();
    let story = [
        "?SLOT(h, e) on SLOT(on_start, start) succeeded: h = on_start, e = start",
        "!h on SLOT(on_start, start) gave on_start",
        "?f on on_start failed: f is on_tariff, on_start found",
        "undone: h = on_start, e = start",
        "seek on CELL(SLOT(on_tariff, tariff), END) succeeded",
        "seek on SLOT(on_tariff, tariff) succeeded",
        "names on SLOT(on_tariff, tariff) succeeded",
        "?SLOT(h, e) on SLOT(on_tariff, tariff) succeeded: h = on_tariff, e = tariff",
        "!h on SLOT(on_tariff, tariff) gave on_tariff",
        "?f on on_tariff succeeded",
    ];
    let from = lines[drop..]
        .iter()
        .position(|&line| line == story[0])
        .unwrap();
    assert_eq!(lines[drop + from..drop + from + story.len()], story);
    assert!(
        lines[drop].ends_with(" failed"),
        "the function is kept: {}",
        lines[drop]
    );
    // Places where nothing was bound are told when all is asked for.
    let dull = "?CALLS(f) on RETURN failed: CALLS wanted, RETURN found";
    assert!(!lines.contains(&dull));
    let all = told(&["explain", "examples/pruner.job", "--all"], "");
    assert!(all.output.lines().any(|line| line.trim() == dull));
}

#[test]
fn explain_writes_a_page() {
    let ran = told(&["explain", "examples/pruner.job", "--html"], "");
    assert_eq!(ran.status, 0);
    assert!(ran.output.starts_with("<!DOCTYPE html>"));
    assert!(ran.output.ends_with("</html>\n"));
    let (open, closed) = (
        ran.output.matches("<details").count(),
        ran.output.matches("</details>").count(),
    );
    assert!(open > 1_000 && open == closed, "{open} {closed}");
    assert!(ran
        .output
        .contains("<p class=\"undone\">undone: h = on_start, e = start</p>"));
    assert!(ran.output.contains("drop &lt;+ CELL(id, walk)"));
    assert!(!ran.output.contains("http"), "nothing is fetched");
}

/// Why a strategy failed, one case for each reason.
#[test]
fn explain_gives_reasons() {
    let pair = ["n 1", "n 2", "n 5 0 1"];
    for (entries, status, reason) in [
        (
            &["e 14 0 1", "e 19 7 2", "e 18 0"][..],
            1,
            "?7(v0) on 5(1, 2) failed: 7 wanted, 5 found",
        ),
        (
            &["e 14 0 1", "e 19 5 2", "e 18 0"],
            1,
            "?5(v0) on 5(1, 2) failed: 5 of 1 wanted, of 2 found",
        ),
        (
            &["e 14 0 1", "e 19 5 2 2", "e 18 0"],
            1,
            "?5(v0, v0) on 5(1, 2) failed: v0 is 1, 2 found",
        ),
        (
            &["e 14 0 1", "e 19 5 2 3", "e 18 0", "e 19 9"],
            1,
            "?5(v0, 9) on 5(1, 2) failed: 9 wanted, 2 found",
        ),
        (
            &["e 10 5 1", "e 0 0"],
            1,
            "5(id) on 5(1, 2) failed: 5 of 1 wanted, of 2 found",
        ),
        (
            &["e 9 3 1", "e 0 0"],
            1,
            "3(id) on 5(1, 2) failed: there is no child 3",
        ),
        (
            &["e 9 1 1", "e 12 0 2", "e 0 0"],
            1,
            "one(id) on 1 failed: there are no children",
        ),
    ] {
        let mut lines = vec!["job 99 0 2 9"];
        lines.extend(entries);
        lines.extend(pair);
        let ran = told(&["explain", "-"], &job(&lines));
        assert_eq!(ran.status, status, "{}", ran.error);
        assert!(
            ran.output.lines().any(|line| line.trim() == reason),
            "{reason}\n{}",
            ran.output
        );
    }
    let ran = told(
        &["explain", "-"],
        &job(&[
            "job 99 0 2 9",
            "e 15 0 1",
            "e 18 3",
            pair[0],
            pair[1],
            pair[2],
        ]),
    );
    assert_eq!(ran.status, 12);
    assert!(
        ran.output.contains("!v3 on 5(1, 2) ") && ran.output.contains(": v3 is not bound"),
        "{}",
        ran.output
    );
    let ran = told(&["explain", "-"], &job(&["job 99 0 0 1", "e 20 0", "n 1"]));
    assert_eq!((ran.status, ran.output.as_str()), (13, ""));
}

#[test]
fn explain_tells_where_a_limit_was_met() {
    let ran = told(
        &["explain", "-"],
        &job(&[
            "job 99999 0 0 1",
            "e 7 0 1",
            "e 4 0 2 3",
            "e 0 0",
            "e 8 0 0",
            "n 1",
        ]),
    );
    assert_eq!(ran.status, 8);
    for says in [
        "answer 8: a visit is nested too deep",
        "4096 levels were under way. Most often:\n  1366 times rec s0(id ; s0)\n",
        "The last levels:\n",
    ] {
        assert!(ran.output.contains(says), "{says}\n{}", ran.output);
    }
    let short = told(&["explain", "examples/pruner.job", "--length", "10"], "");
    assert!(
        short
            .output
            .contains("The first 10 visits of strategies are told"),
        "{}",
        short.output
    );
}

/// A REC that gives the first child of a pair, a constructor 5: entries 0 to 6 of a job.
const FIRST: [&str; 10] = [
    "job 99 7 2 9",
    "e 7 0 1",
    "e 16 3 2",
    "e 4 0 3 4",
    "e 14 0 5",
    "e 15 0 6",
    "e 19 5 6 6",
    "e 18 0",
    "n 1",
    "n 5 0 0",
];

#[test]
fn rules_become_entries() {
    let ran = told(&["rules", "-"], &job(&["5 2 v0 v1 5 2 v1 v0"]));
    let entries = [
        "e 16 3 1",
        "e 4 0 2 6",
        "e 14 0 3",
        "e 19 5 4 5",
        "e 18 0",
        "e 18 1",
        "e 15 0 7",
        "e 19 5 8 9",
        "e 18 1",
        "e 18 0",
    ];
    assert_eq!(ran.output, job(&entries));
    assert_eq!((ran.status, ran.error.as_str()), (0, ""));
    let ran = told(&["rules", "-"], "");
    assert_eq!((ran.status, ran.output.as_str()), (0, ""));
}

#[test]
fn rules_go_onto_a_job_and_back() {
    let folder = std::env::temp_dir().join(format!("marshtrundle-rules-{}", std::process::id()));
    std::fs::create_dir_all(&folder).unwrap();
    let base = folder.join("base.job");
    let mut lines = FIRST.to_vec();
    lines.push("n 9 1");
    std::fs::write(&base, job(&lines)).unwrap();
    let base = base.to_str().unwrap();
    // 9(p) -> 4(x) where <first> p gives x
    let rule = job(&["9 1 v7 4 1 v40 0 v7 v40"]);
    let ran = told(&["rules", "-", "--onto", base], &rule);
    assert_eq!((ran.status, ran.error.as_str()), (0, ""));
    let whole = folder.join("whole.job");
    std::fs::write(&whole, &ran.output).unwrap();
    let whole = whole.to_str().unwrap();
    let ran = told(&["run", whole, "--print"], "");
    assert_eq!((ran.status, ran.output.as_str()), (0, "4(1)\n"));
    let ran = told(&["rules", whole, "--back"], "");
    assert_eq!((ran.status, ran.output), (0, rule));
    let ran = told(&["rules", "-", "--onto", base], &job(&["v0 v0 1 v0 v0"]));
    assert_eq!((ran.status, ran.output.as_str()), (22, ""));
    std::fs::remove_dir_all(folder).unwrap();
}

#[test]
fn a_refused_rule_is_said_with_its_line_and_field() {
    for (text, status, says) in [
        (
            "v0\tv0\n5\t7\n",
            18,
            "answer 18: line 2, field 2: '7' does not stand in a rule here",
        ),
        (
            "v0\tv0",
            18,
            "answer 18: line 1, field 3: the line is cut short",
        ),
        (
            "v0\tv0\n\n",
            18,
            "answer 18: line 2, field 1: the field is empty",
        ),
        (
            "v0\tv1\n",
            19,
            "answer 19: line 1: the rule builds a variable that nothing before it binds",
        ),
        (
            "v64\tv64\n",
            20,
            "answer 20: line 1: a variable is above 63",
        ),
        (
            "v0\tv0\t0\tv0\tv0\n",
            22,
            "answer 22: line 1: a condition's number is no REC without free variables",
        ),
    ] {
        let ran = told(&["rules", "-"], text);
        assert_eq!((ran.status, ran.output.as_str()), (status, ""));
        assert!(ran.error.contains(says), "{}", ran.error);
        assert_eq!(ran.error.lines().count(), 2, "{}", ran.error);
    }
    let ran = told(&["rules", "-"], &"v0\tv0\n".repeat(683));
    assert_eq!(ran.status, 23);
    assert!(ran.error.contains("answer 23: line 683: "), "{}", ran.error);
    let ran = told(&["rules", "-", "--back"], &job(&["job 1 0 0 1", "e 20 0"]));
    assert_eq!(ran.status, 13);
    for words in [
        &["rules"][..],
        &["rules", "-", "--onto"],
        &["rules", "-", "--onto", "-"],
        &["rules", "-", "--back", "--onto", "x"],
        &["rules", "-", "--units", "9"],
        &["run", "-", "--back"],
    ] {
        assert_eq!(told(words, "").status, 64, "{words:?}");
    }
}

/// In steps of any size: the same answer, the same status, and a bar on standard error.
#[test]
fn a_job_is_run_in_steps() {
    for file in std::fs::read_dir(root().join("examples")).unwrap() {
        let path = file.unwrap().path();
        if path.extension().map_or(true, |end| end != "job") {
            continue;
        }
        let name = path.to_str().unwrap();
        let whole = told(&["run", name], "");
        for visits in ["1", "7", "1000", "4294967295"] {
            let ran = told(&["run", name, "--steps", visits], "");
            assert_eq!(
                (&ran.output, ran.status),
                (&whole.output, whole.status),
                "{name}"
            );
            assert!(ran.error.ends_with(&whole.error), "{name}");
        }
    }
    let loop_ = job(&["job 10 0 0 1", "e 7 0 1", "e 8 0 0", "n 1"]);
    let ran = told(&["run", "-", "--steps", "4"], &loop_);
    assert_eq!(ran.status, 6);
    let bars: Vec<&str> = ran.error.lines().next().unwrap().split('\r').collect();
    assert_eq!(
        bars,
        [
            "",
            "[################........................] 4 of 10 units",
            "[################################........] 8 of 10 units",
        ]
    );
    assert!(ran.error.contains("answer 6"));
    // A run that ends in its first step draws nothing, and neither does a refusal.
    assert_eq!(
        told(&["run", "examples/swap.job", "--steps", "10"], "").error,
        ""
    );
    let refused = job(&["job 10 0 0 1", "e 20 0", "n 1"]);
    let ran = told(&["run", "-", "--steps", "1"], &refused);
    assert_eq!(ran.status, 13);
    assert!(ran.error.starts_with("marshtrundle: answer 13"));
    for words in [
        &["run", "-", "--steps", "0"][..],
        &["run", "-", "--steps"],
        &["check", "-", "--steps", "1"],
    ] {
        assert_eq!(told(words, &loop_).status, 64);
    }
}

/// With counts: the status and the words of the answer are the same, and the profile stands in place of the answer.
#[test]
fn a_job_is_profiled() {
    let mut cut_off = 0;
    for file in std::fs::read_dir(root().join("examples")).unwrap() {
        let path = file.unwrap().path();
        if path.extension().map_or(true, |end| end != "job") {
            continue;
        }
        let name = path.to_str().unwrap();
        let plain = told(&["run", name], "");
        let ran = told(&["run", name, "--profile"], "");
        assert_eq!(
            (ran.status, &ran.error),
            (plain.status, &plain.error),
            "{name}"
        );
        // The units are those of the answer, and the visits of the rows add up to them.
        let units = plain.output.lines().next().unwrap().rsplit('\t').next();
        let head = ran.output.lines().next().unwrap();
        assert_eq!(head.split(' ').nth(2), units, "{name}");
        let mut visits = 0;
        for row in ran.output.lines().skip(2) {
            let number = row
                .split(" %")
                .next()
                .unwrap()
                .split_whitespace()
                .rev()
                .nth(1);
            visits += number.unwrap().parse::<u64>().unwrap();
            cut_off += usize::from(row.split(" %").nth(1).unwrap().ends_with(" 1"));
        }
        assert_eq!(Some(visits.to_string().as_str()), units, "{name}");
    }
    assert!(cut_off > 0, "a visit in flight");
    let ran = told(&["run", "examples/swap.job", "--profile"], "");
    let wanted = "\
1 run, 10 units
name            visits    share       tried   succeeded      failed  in flight
swap                 4   40.0 %           1           1           0          0
(patterns)           6   60.0 %
(pairs)              0    0.0 %
";
    assert_eq!(ran.output, wanted);
    let cut = told(
        &["run", "examples/swap.job", "--profile", "--units", "3"],
        "",
    );
    assert_eq!(cut.status, 6);
    assert!(cut.output.starts_with("1 run, 3 units\n"));
    assert!(cut.output.contains(
        "swap                 3  100.0 %           1           0           0          1\n"
    ));
    let printed = told(&["run", "examples/swap.job", "--profile", "--print"], "");
    let term = told(&["run", "examples/swap.job", "--print"], "").output;
    assert_eq!(printed.output, term + wanted);
}

#[test]
fn a_profile_is_drawn() {
    let ran = told(&["run", "examples/swap.job", "--profile", "--svg"], "");
    assert_eq!((ran.status, ran.error.as_str()), (0, ""));
    assert!(ran.output.starts_with("<svg ") && ran.output.ends_with("</svg>\n"));
    assert!(ran
        .output
        .contains(">examples/swap.job: 1 run, 10 units</text>"));
    assert!(ran.output.contains(">6 (60.0 %)</text>"));
    let read = told(
        &["run", "-", "--profile", "--svg"],
        &job(&["job 9 0 0 1", "e 0 0", "n 1"]),
    );
    assert!(read.output.contains(">The job: 1 run, 1 unit</text>"));
    // Nothing is counted of a job that is refused.
    let refused = job(&["job 9 0 5 1", "e 0 0", "n 1"]);
    let ran = told(&["run", "-", "--profile"], &refused);
    assert_eq!((ran.status, ran.output.as_str()), (5, ""));
    assert!(ran.error.contains("answer 5"));
    for words in [
        &["run", "-", "--svg"][..],
        &["run", "-", "--profile", "--steps", "3"],
        &["run", "-", "--profile", "--svg", "--print"],
        &["run", "-", "--svg", "--profile", "--difference"],
        &["check", "-", "--profile"],
        &["explain", "-", "--svg"],
    ] {
        assert_eq!(told(words, "").status, 64, "{words:?}");
    }
}
