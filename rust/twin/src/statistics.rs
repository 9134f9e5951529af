//! What the generated cases cover, counted.

use crate::calls::{Call, CallCase, COUNTED, INDEX, RESULTS, SIGNATURE, SUBJECTS};
use crate::checks::{kind, ran, BAD_TEXT, DONE, FAILED, NO_ROOM, UNBOUND, UNFINISHED};
use crate::engine::{run_lent, run_watched, Lent, Watcher};
use crate::free::free_variables;
use crate::generate::{free_case, job_text, run_case};
use crate::job::job;
use crate::refusals::COUNTS;
use std::collections::BTreeMap;
use std::fmt::Write;

/// What a watcher counts over many runs.
#[derive(Default)]
struct Counts {
    visits: [u64; 20],
    runs_with: [u64; 20],
    seen: [bool; 20],
    pairs: u64,
    equal_same: u64,
    equal_other: u64,
    different: u64,
    nodes: u64,
    caught: u64,
    caught_nodes: u64,
    caught_bindings: u64,
    caught_both: u64,
    deepest: u32,
    misses: u64,
    last_miss_kind: u32,
    misses_in_run: u64,
}

impl Watcher for Counts {
    fn visited(&mut self, kind: u32, nesting: u32) {
        self.visits[kind as usize] += 1;
        self.seen[kind as usize] = true;
        self.deepest = self.deepest.max(nesting);
    }

    fn compared(&mut self, nesting: u32) {
        self.pairs += 1;
        self.deepest = self.deepest.max(nesting);
    }

    fn judged(&mut self, left: u32, right: u32, equal: bool) {
        match (equal, left == right) {
            (true, true) => self.equal_same += 1,
            (true, false) => self.equal_other += 1,
            (false, _) => self.different += 1,
        }
    }

    fn missed(&mut self, _pattern: u32, kind: u32) {
        self.misses += 1;
        self.misses_in_run += 1;
        self.last_miss_kind = kind;
    }

    fn made(&mut self, _mark: u32) {
        self.nodes += 1;
    }

    fn caught(&mut self, nodes: u32, bindings: bool) {
        self.caught += 1;
        self.caught_nodes += u64::from(nodes > 0);
        self.caught_bindings += u64::from(bindings);
        self.caught_both += u64::from(nodes > 0 && bindings);
    }
}

/// The name of the span of sizes that a number falls in.
fn span(number: u32) -> &'static str {
    match number {
        0 => "0",
        1 => "1",
        2..=3 => "2-3",
        4..=7 => "4-7",
        8..=15 => "8-15",
        16..=31 => "16-31",
        32..=127 => "32-127",
        128..=1_023 => "128-1023",
        1_024..=4_095 => "1024-4095",
        _ => "4096 and more",
    }
}

/// The spans in their order.
const SPANS: [&str; 10] = [
    "0",
    "1",
    "2-3",
    "4-7",
    "8-15",
    "16-31",
    "32-127",
    "128-1023",
    "1024-4095",
    "4096 and more",
];

/// Writes one line of a report. A string takes all text, so it cannot fail.
fn say(report: &mut String, line: std::fmt::Arguments) {
    report.write_fmt(line).expect("a string takes all text");
    report.push('\n');
}

/// How often each answer was given.
type Answers = BTreeMap<u32, u64>;

/// Writes a line for each answer that was given, with its share.
fn say_answers(text: &mut String, answers: &Answers, count: u64) {
    for (answer, number) in answers {
        let share = 100.0 * *number as f64 / count.max(1) as f64;
        say(
            text,
            format_args!("answer {}: {} ({:.1} %)", answer, number, share),
        );
    }
}

/// Writes a line for each span of sizes, and in it the number for each answer
/// of a run that began.
fn say_spans(text: &mut String, spans: &BTreeMap<&str, Answers>) {
    let all: Vec<u32> = (0..100).filter(|&answer| ran(answer)).collect();
    say(
        text,
        format_args!("units used: runs with answers {:?}", all),
    );
    for name in SPANS {
        if let Some(row) = spans.get(name) {
            let numbers: Vec<String> = all
                .iter()
                .map(|answer| row.get(answer).unwrap_or(&0).to_string())
                .collect();
            say(text, format_args!("  {}: {}", name, numbers.join(" ")));
        }
    }
}

/// Counts over so many generated runs. Call it on a big stack.
pub fn of_runs(seed: u64, count: u64) -> String {
    let mut answers = Answers::new();
    let mut used: BTreeMap<&str, Answers> = BTreeMap::new();
    let mut built: BTreeMap<&str, u64> = BTreeMap::new();
    let mut counts = Counts::default();
    let mut small = 0u64;
    let mut large = 0u64;
    let mut garbage = 0u64;
    let mut prebound = 0u64;
    let mut bindings_changed = 0u64;
    let mut bindings_done = 0u64;
    let mut deepest_exact = 0u64;
    let mut exact_units = Answers::new();
    let mut unbound_made = 0u64;
    let mut unbound_low = 0u64;
    let mut failed_after = [0u64; 4];
    let mut exact_room = 0u64;
    for index in 0..count {
        let mut case = run_case(seed, index);
        small += u64::from(case.store.len() <= 512);
        large += u64::from(case.table.len() > 320);
        let first = (8 * u64::from(case.mark)).min(case.store.len() as u64) as usize;
        garbage += u64::from(case.store[first..].iter().any(|&word| word != 0));
        prebound += u64::from(case.bindings.iter().any(|&word| word != 0));
        let before = case.bindings.clone();
        counts.seen = [false; 20];
        counts.deepest = 0;
        counts.misses_in_run = 0;
        let made = counts.nodes;
        let outcome = run_watched(
            &case.table,
            &mut case.store,
            &mut case.bindings,
            case.mark,
            case.start,
            case.subject,
            case.units,
            &mut counts,
        );
        for (kind, seen) in counts.seen.iter().enumerate() {
            counts.runs_with[kind] += u64::from(*seen);
        }
        let answer = outcome.answer;
        *answers.entry(answer).or_default() += 1;
        if ran(answer) {
            let row = used.entry(span(outcome.units)).or_default();
            *row.entry(answer).or_default() += 1;
            let exact = u64::from(outcome.units == case.units);
            *exact_units.entry(answer).or_default() += exact;
        }
        if answer == UNBOUND {
            unbound_made += u64::from(counts.nodes > made);
            unbound_low += u64::from(outcome.place == 0);
        }
        if answer == FAILED {
            failed_after[match (counts.misses_in_run, counts.last_miss_kind) {
                (0, _) => 0,
                (_, kind::PCON) => 1,
                _ => 2,
            }] += 1;
            failed_after[3] += u64::from(counts.misses_in_run > 1);
        }
        if answer == DONE {
            *built.entry(span(outcome.mark - case.mark)).or_default() += 1;
            bindings_changed += u64::from(before != case.bindings);
            bindings_done += u64::from(case.bindings.iter().any(|&word| word != 0));
            exact_room += u64::from(
                outcome.mark > case.mark && outcome.mark as usize == case.store.len() / 8,
            );
        }
        if answer < 2 {
            deepest_exact += u64::from(counts.deepest >= 4_090);
        }
    }

    let mut report = String::new();
    let text = &mut report;
    say(text, format_args!("runs {}, seed {}", count, seed));
    say_answers(text, &answers, count);
    say_spans(text, &used);
    let exact = |answer: u32| exact_units.get(&answer).unwrap_or(&0);
    say(
        text,
        format_args!(
            "all given units used: done {}, failed {}, room {}, unbound {}",
            exact(DONE),
            exact(FAILED),
            exact(NO_ROOM),
            exact(UNBOUND)
        ),
    );
    say(
        text,
        format_args!(
            "unbound variables met by BUILD: after nodes were made {}, variable 0 {}",
            unbound_made, unbound_low
        ),
    );
    say(text, format_args!("done runs by new nodes kept"));
    for name in SPANS {
        if let Some(number) = built.get(name) {
            say(text, format_args!("  {}: {}", name, number));
        }
    }
    say(
        text,
        format_args!("done runs that fill the store exactly: {}", exact_room),
    );
    say(
        text,
        format_args!(
            "done runs that change the bindings: {}, that end with some: {}",
            bindings_changed, bindings_done
        ),
    );
    say(
        text,
        format_args!("done or failed at a nesting from 4090: {}", deepest_exact),
    );
    say(text, format_args!("kind: visits, runs that visit it"));
    for (kind, name) in kind::NAMES.iter().enumerate() {
        say(
            text,
            format_args!(
                "  {}: {}, {}",
                name, counts.visits[kind], counts.runs_with[kind]
            ),
        );
    }
    say(text, format_args!("pairs compared: {}", counts.pairs));
    say(
        text,
        format_args!(
            "bound variables met: equal by the same node {}, equal by another node {}, different {}",
            counts.equal_same, counts.equal_other, counts.different
        ),
    );
    say(
        text,
        format_args!(
            "matches that failed: {}; failed runs by their place: none {}, a PCON {}, a PVAR {}; after more than one {}",
            counts.misses, failed_after[0], failed_after[1], failed_after[2], failed_after[3]
        ),
    );
    say(text, format_args!("nodes made: {}", counts.nodes));
    say(
        text,
        format_args!(
            "failures caught: {}, dropping nodes {}, dropping bindings {}, both {}",
            counts.caught, counts.caught_nodes, counts.caught_bindings, counts.caught_both
        ),
    );
    say(
        text,
        format_args!(
            "stores of 64 nodes or fewer: {}; tables over 40 entries: {}; garbage above the mark: {}; bindings given: {}",
            small, large, garbage, prebound
        ),
    );
    report
}

/// Counts over so many questions of free variables.
pub fn of_frees(seed: u64, count: u64) -> String {
    let mut answers = Answers::new();
    let mut sizes: BTreeMap<u32, u64> = BTreeMap::new();
    let mut halves = [0u64; 2];
    for index in 0..count {
        let case = free_case(seed, index);
        let (answer, _, mask) = free_variables(&case.table, case.entry);
        *answers.entry(answer).or_default() += 1;
        if answer == DONE {
            *sizes.entry(mask.count_ones()).or_default() += 1;
            halves[0] += u64::from(mask as u32 != 0);
            halves[1] += u64::from(mask >> 32 != 0);
        }
    }
    let mut report = String::new();
    let text = &mut report;
    say(text, format_args!("questions {}, seed {}", count, seed));
    say_answers(text, &answers, count);
    say(
        text,
        format_args!(
            "masks with a variable below 32: {}, from 32 on: {}",
            halves[0], halves[1]
        ),
    );
    say(text, format_args!("free variables: number of questions"));
    for (size, number) in sizes {
        say(text, format_args!("  {}: {}", size, number));
    }
    report
}

/// Counts over so many job texts. Call it on a big stack.
pub fn of_jobs(seed: u64, count: u64) -> String {
    let mut answers = Answers::new();
    let mut places: BTreeMap<&str, u64> = BTreeMap::new();
    for index in 0..count {
        let text = job(&job_text(seed, index));
        let line = String::from_utf8_lossy(&text).into_owned();
        let numbers: Vec<u32> = line
            .lines()
            .next()
            .unwrap_or("")
            .split('\t')
            .skip(1)
            .map(|field| field.parse().expect("an answer is a line of numbers"))
            .collect();
        *answers.entry(numbers[0]).or_default() += 1;
        if numbers[0] == BAD_TEXT {
            *places.entry(span(numbers[1])).or_default() += 1;
        }
    }
    let mut report = String::new();
    let text = &mut report;
    say(text, format_args!("jobs {}, seed {}", count, seed));
    say_answers(text, &answers, count);
    say(text, format_args!("answer 9 by its place"));
    for name in SPANS {
        if let Some(number) = places.get(name) {
            say(text, format_args!("  {}: {}", name, number));
        }
    }
    report
}

/// The numbers at the beginning of an answer's line, after its label.
fn numbers_of(line: &str) -> Vec<u64> {
    line.split(' ')
        .skip(1)
        .map_while(|field| field.parse().ok())
        .collect()
}

/// Counts over so many cases of a call. Call it on a big stack.
pub fn of_calls(make: fn(u64, u64) -> CallCase, seed: u64, count: u64) -> String {
    let mut answers = Answers::new();
    let mut empty = 0u64;
    let mut made = 0u64;
    let mut subjects: BTreeMap<&str, u64> = BTreeMap::new();
    let mut each = Answers::new();
    let mut shares = Shares::default();
    let mut tallies = Tallies::default();
    let mut writer = Answers::new();
    let mut added: BTreeMap<&str, u64> = BTreeMap::new();
    let mut steps = Steps::default();
    for index in 0..count {
        let case = make(seed, index);
        count_subjects(&case, &mut subjects, &mut each);
        count_shares(&case, &mut shares);
        count_tallies(&case, &mut tallies);
        let (call, mark) = (case.call, case.run.mark);
        empty += u64::from(case.lent.values().any(|words| words.is_empty()));
        let line = case.answer();
        count_steps(call, &line, &mut steps);
        let numbers = numbers_of(&line);
        if call == Call::Write {
            *writer.entry(numbers[0] as u32).or_default() += 1;
            continue;
        }
        *answers.entry(numbers[0] as u32).or_default() += 1;
        if numbers[0] == 0 && call == Call::Translate {
            let entries = numbers[3] as u32 - mark;
            *added.entry(span(entries)).or_default() += 1;
        }
        if numbers[0] == 0 && matches!(call, Call::Run | Call::Count) {
            made += u64::from(numbers[3] > u64::from(mark));
        }
    }
    let mut report = String::new();
    let text = &mut report;
    say(text, format_args!("calls {}, seed {}", count, seed));
    say_answers(text, &answers, count);
    say(
        text,
        format_args!(
            "done with nodes made: {}; an empty list lent: {}",
            made, empty
        ),
    );
    if !steps.last.is_empty() {
        say(text, format_args!("stepped runs by their steps"));
        for name in SPANS {
            if let Some(number) = steps.sizes.get(name) {
                say(text, format_args!("  {}: {}", name, number));
            }
        }
        say(text, format_args!("their last answers"));
        say_answers(text, &steps.last, steps.last.values().sum());
        say(
            text,
            format_args!(
                "steps of no visits {}; a step that ends after the last unit {}; a step on zeros {}",
                steps.idle, steps.edge, steps.zeros
            ),
        );
    }
    if shares.runs > 0 {
        say_shares(text, &shares);
    }
    if tallies.runs > 0 {
        say_tallies(text, &tallies);
    }
    if !writer.is_empty() {
        say(text, format_args!("translations by the entries added"));
        for name in SPANS {
            if let Some(number) = added.get(name) {
                say(text, format_args!("  {}: {}", name, number));
            }
        }
        say(text, format_args!("the writer's answers"));
        say_answers(text, &writer, writer.values().sum());
    }
    if !subjects.is_empty() {
        say(text, format_args!("accepted calls by their subjects"));
        for name in SPANS {
            if let Some(number) = subjects.get(name) {
                say(text, format_args!("  {}: {}", name, number));
            }
        }
        say(text, format_args!("the subjects' own answers"));
        say_answers(text, &each, each.values().sum());
    }
    report
}

/// What the answers of stepped runs show.
#[derive(Default)]
struct Steps {
    sizes: BTreeMap<&'static str, u64>,
    last: Answers,
    idle: u64,
    edge: u64,
    zeros: u64,
}

/// Counts the steps of a stepped run from its answer's line.
fn count_steps(call: Call, line: &str, steps: &mut Steps) {
    if call != Call::Step {
        return;
    }
    let fives: Vec<Vec<u64>> = line
        .split(" :")
        .next()
        .unwrap_or("")
        .split(" /")
        .map(numbers_of)
        .collect();
    steps.zeros += u64::from(fives.last().map_or(false, |five| five[0] == 27));
    if fives[0][0] != u64::from(UNFINISHED) {
        return;
    }
    let ends = &fives[1..fives.len() - 1];
    *steps.sizes.entry(span(ends.len() as u32)).or_default() += 1;
    let last = &ends[ends.len() - 1];
    *steps.last.entry(last[0] as u32).or_default() += 1;
    for (before, after) in fives.iter().zip(ends) {
        if after[0] == u64::from(UNFINISHED) {
            steps.idle += u64::from(before[4] == after[4]);
        }
    }
    // The run was set aside after its last visit, before 6 was found.
    let before = &fives[fives.len() - 3];
    steps.edge += u64::from(last[0] == 6 && before[4] == last[4]);
}

/// What counted runs that were not refused have added up to.
#[derive(Default)]
struct Tallies {
    runs: u64,
    /// Visits as a strategy, successes, failures and visits in flight.
    entries: [u64; COUNTS],
    patterns: u64,
    pairs: u64,
    /// Runs with two or more visits of one entry in flight.
    several: u64,
    /// Runs with nothing but counts lent, with a signature, with an index, with
    /// both.
    lent: [u64; 4],
    /// Runs whose counts were not all zero before.
    added: u64,
}

/// Counts what a counted run adds.
fn count_tallies(case: &CallCase, tallies: &mut Tallies) {
    if case.call != Call::Count {
        return;
    }
    let signature = case.words(SIGNATURE);
    let mut index = case.words(INDEX);
    let kind = usize::from(signature.is_some()) + 2 * usize::from(index.is_some());
    let before = &case.lent[&COUNTED];
    let mut after = before.clone();
    let mut run = case.run.clone();
    let lent = Lent {
        signature: signature.as_deref(),
        index: index.as_deref_mut(),
    };
    let end = run.run_counted(lent, &mut after);
    if !ran(end.outcome.answer) {
        return;
    }
    tallies.runs += 1;
    tallies.lent[kind] += 1;
    tallies.added += u64::from(before.iter().any(|&word| word > 0));
    tallies.patterns += u64::from(end.patterns);
    tallies.pairs += u64::from(end.pairs);
    let mut several = false;
    for (old, new) in before.chunks(COUNTS).zip(after.chunks(COUNTS)) {
        for (sum, (old, new)) in tallies.entries.iter_mut().zip(old.iter().zip(new)) {
            *sum += new - old;
        }
        several |= new[3] - old[3] > 1;
    }
    tallies.several += u64::from(several);
}

/// Writes what counted runs have added up to.
fn say_tallies(text: &mut String, tallies: &Tallies) {
    let [plain, signed, indexed, both] = tallies.lent;
    say(
        text,
        format_args!(
            "counted runs {}: plain {}, with a signature {}, with an index {}, with both {}; counts not zero before {}",
            tallies.runs, plain, signed, indexed, both, tallies.added
        ),
    );
    let [visits, successes, failures, flying] = tallies.entries;
    say(
        text,
        format_args!(
            "  visits as a strategy {}, successes {}, failures {}, in flight {}; patterns {}, pairs {}; runs with several visits of one entry in flight {}",
            visits, successes, failures, flying, tallies.patterns, tallies.pairs, tallies.several
        ),
    );
}

/// What a watcher counts over runs with an index.
#[derive(Default)]
struct Shares {
    /// The mark at the beginning of the run.
    given: u32,
    runs: u64,
    made: u64,
    found_given: u64,
    found_made: u64,
    /// Runs that differ from the plain store's: a lower mark, or no 7.
    lower: u64,
    no_room_before: u64,
    /// Nodes that were given back, in runs that made nodes again after it.
    given_back: u64,
}

impl Watcher for Shares {
    fn made(&mut self, _mark: u32) {
        self.made += 1;
    }

    fn found(&mut self, node: u32) {
        if node < self.given {
            self.found_given += 1;
        } else {
            self.found_made += 1;
        }
    }

    fn caught(&mut self, nodes: u32, _bindings: bool) {
        self.given_back += u64::from(nodes);
    }
}

/// Counts what an index does in a run, beside a run in the plain store.
fn count_shares(case: &CallCase, shares: &mut Shares) {
    let mut index = match (case.call, case.words(INDEX)) {
        (Call::Run, Some(index)) => index,
        _ => return,
    };
    let mut answers = Vec::new();
    shares.given = case.run.mark;
    let signature = case.words(SIGNATURE);
    for shared in [true, false] {
        let mut run = case.run.clone();
        let lent = Lent {
            signature: signature.as_deref(),
            index: if shared { Some(&mut index) } else { None },
        };
        let mut plain = Shares::default();
        answers.push(run_lent(
            &run.table,
            &mut run.store,
            &mut run.bindings,
            run.mark,
            run.start,
            run.subject,
            run.units,
            lent,
            if shared { &mut *shares } else { &mut plain },
        ));
    }
    if ran(answers[0].answer) {
        shares.runs += 1;
        shares.lower += u64::from(answers[0].mark < answers[1].mark);
        let other = answers[1].answer == NO_ROOM && answers[0].answer != NO_ROOM;
        shares.no_room_before += u64::from(other);
    }
}

/// Writes what an index did.
fn say_shares(text: &mut String, shares: &Shares) {
    say(
        text,
        format_args!(
            "runs with an index {}: nodes made {}, found among the given {}, found among the made {}, given back {}",
            shares.runs, shares.made, shares.found_given, shares.found_made, shares.given_back
        ),
    );
    say(
        text,
        format_args!(
            "  a lower mark than the plain store's {}, no 7 where it has 7 {}",
            shares.lower, shares.no_room_before
        ),
    );
}

/// Counts the subjects of an accepted call with many, and their answers.
fn count_subjects(case: &CallCase, sizes: &mut BTreeMap<&str, u64>, each: &mut Answers) {
    if case.call != Call::Many {
        return;
    }
    let mut run = case.run.clone();
    let subjects = case.words(SUBJECTS).unwrap_or_default();
    let mut results = case.words(RESULTS).unwrap_or_default();
    let signature = case.words(SIGNATURE);
    let mut index = case.words(INDEX);
    let lent = Lent {
        signature: signature.as_deref(),
        index: index.as_deref_mut(),
    };
    let (answer, _) = run.run_many(&subjects, &mut results, lent);
    if answer == DONE {
        *sizes.entry(span(subjects.len() as u32)).or_default() += 1;
        for five in results.chunks(5) {
            *each.entry(five[0]).or_default() += 1;
        }
    }
}
