//! `differ FIRST LAST COUNT`: the generated cases of rust/twin, COUNT runs and
//! COUNT questions of free variables for each seed from FIRST to LAST. Each run
//! goes through the proved engine, the plain one and the optimised one, and the
//! five numbers, every word of the store and every word of the bindings are
//! compared; so are the two checks of its words. What is handed to a run and what
//! it leaves is collected by the proved function and by the plain one, and the
//! four numbers and every word of store, bindings and work list are compared. COUNT
//! runs with a signature, a tenth of COUNT runs in steps, COUNT calls with many subjects,
//! some with a signature, refused ones too, COUNT calls with an index, COUNT counted runs
//! and the questions go through the proved function and the plain one; a counted run is compared
//! with the proved run of the same input too. So do COUNT texts of rules and rules to write: the numbers, every
//! word of the table and every byte of the buffer are compared. It ends with 1 where two of them differ, and with 2 where the words
//! leave nothing to compare.

#![forbid(unsafe_code)]

use bench::engines::ENGINES;
use bench::foreign;
use std::process::ExitCode;
use twin::calls::{
    Call, CallCase, BUFFER, COUNTED, INDEX, RESULTS, SIGNATURE, STEPS, SUBJECTS, TEXT, WORK,
};
use twin::generate::{
    counted_case, free_case, indexed_case, many_case, rules_case, run_case, signed_case,
    stepped_case,
};
use twin::text::{FreeCase, RunCase};

/// Whether the three engines agree on a case.
fn run_agrees(case: &RunCase) -> bool {
    let mut answers = ENGINES.iter().map(|engine| {
        let mut store = case.store.clone();
        let mut bindings = case.bindings.clone();
        let checks = (
            (engine.check_table)(&case.table),
            (engine.check_store)(&store, case.mark),
        );
        let numbers = (engine.run)(
            &case.table,
            &mut store,
            &mut bindings,
            case.mark,
            case.start,
            case.subject,
            case.units,
        );
        (checks, numbers, store, bindings)
    });
    let proved = answers.next().expect("three engines");
    answers.all(|other| other == proved)
}

/// A work list for a store: as long as its nodes, a word shorter or some longer,
/// and full of rubbish or not.
fn work_list(store: &[u32], index: u64) -> Vec<u32> {
    let nodes = store.len() / 8;
    let words = match index % 8 {
        0 => nodes.saturating_sub(1),
        1 => nodes + 5,
        _ => nodes,
    };
    vec![[0, 1, u32::MAX][index as usize % 3]; words]
}

/// Whether the proved function and the plain one agree on a collection.
fn collection_agrees(case: &RunCase, index: u64) -> bool {
    let lent = (
        case.store.clone(),
        case.bindings.clone(),
        work_list(&case.store, index),
    );
    let mut proved = lent.clone();
    let (store, bindings, work) = (&mut proved.0, &mut proved.1, &mut proved.2);
    let numbers = foreign::collect(store, bindings, work, case.mark, case.subject);
    let mut plain = lent;
    let (store, bindings, work) = (&mut plain.0, &mut plain.1, &mut plain.2);
    let end = twin::collect(store, bindings, case.mark, case.subject, work);
    numbers == [end.answer, end.place, end.subject, end.mark] && proved == plain
}

/// The case as the plain engine leaves it, with the new subject and mark.
fn after_run(case: &RunCase) -> RunCase {
    let mut after = case.clone();
    let end = twin::run(
        &case.table,
        &mut after.store,
        &mut after.bindings,
        case.mark,
        case.start,
        case.subject,
        case.units,
    );
    after.subject = end.subject;
    after.mark = end.mark;
    after
}

/// Whether the proved function and the plain one agree on a run with a signature.
fn signed_agrees(case: &CallCase) -> bool {
    let signature = case.words(SIGNATURE).expect("a signature is lent");
    let run = &case.run;
    let mut proved = (run.store.clone(), run.bindings.clone());
    let mut plain = proved.clone();
    let numbers = foreign::run_signed(
        &run.table,
        &mut proved.0,
        &mut proved.1,
        run.mark,
        run.start,
        run.subject,
        run.units,
        &signature,
    );
    let end = twin::run_lent(
        &run.table,
        &mut plain.0,
        &mut plain.1,
        run.mark,
        run.start,
        run.subject,
        run.units,
        twin::Lent {
            signature: Some(&signature),
            ..twin::Lent::default()
        },
        &mut (),
    );
    numbers == [end.answer, end.place, end.subject, end.mark, end.units] && proved == plain
}

/// Whether the proved function and the plain one agree on a call with many
/// subjects: answer and place, every word of the results and of the store.
fn many_agrees(case: &CallCase) -> bool {
    let signature = case.words(SIGNATURE);
    let subjects = case.words(SUBJECTS).expect("subjects are lent");
    let results = case.words(RESULTS).expect("results are lent");
    let run = &case.run;
    let mut proved = (run.store.clone(), results.clone());
    let numbers = match &signature {
        Some(signature) => foreign::run_many_signed(
            &run.table,
            &mut proved.0,
            &run.bindings,
            run.mark,
            run.start,
            &subjects,
            run.units,
            &mut proved.1,
            signature,
        ),
        None => foreign::run_many(
            &run.table,
            &mut proved.0,
            &run.bindings,
            run.mark,
            run.start,
            &subjects,
            run.units,
            &mut proved.1,
        ),
    };
    let mut plain = (run.store.clone(), results);
    let (answer, place) = twin::run_many(
        &run.table,
        &mut plain.0,
        &run.bindings,
        run.mark,
        run.start,
        &subjects,
        run.units,
        &mut plain.1,
        twin::Lent {
            signature: signature.as_deref(),
            ..twin::Lent::default()
        },
    );
    numbers == [answer, place] && proved == plain
}

/// The numbers of an outcome.
fn five(end: twin::Outcome) -> [u32; 5] {
    [end.answer, end.place, end.subject, end.mark, end.units]
}

/// Whether the proved functions and the plain ones agree on a run in steps: the
/// five numbers of the start and of each step, and every word of store, bindings
/// and work list where the run has ended or is refused. After the last step
/// comes one more, on a work list of zeros.
fn steps_agree(case: &CallCase) -> bool {
    let signature = case.words(SIGNATURE);
    let work = case.words(WORK).expect("a work list is lent");
    let run = &case.run;
    let mut proved = (run.store.clone(), run.bindings.clone(), work.clone());
    let mut plain = proved.clone();
    let (mark, start, subject, units) = (run.mark, run.start, run.subject, run.units);
    let first = match &signature {
        Some(signature) => foreign::start_signed(
            &run.table,
            &proved.0,
            &proved.1,
            &mut proved.2,
            mark,
            start,
            subject,
            units,
            signature,
        ),
        None => foreign::start(
            &run.table,
            &proved.0,
            &proved.1,
            &mut proved.2,
            mark,
            start,
            subject,
            units,
        ),
    };
    let lent = signature.as_deref();
    let (store, bindings, list) = (&mut plain.0, &mut plain.1, &mut plain.2);
    let other = twin::start_run(
        &run.table, store, bindings, mark, start, subject, units, lent, list,
    );
    let mut agree = first == five(other);
    let mut steps = case
        .words(STEPS)
        .expect("steps are lent")
        .into_iter()
        .chain([u32::MAX; 2]);
    let mut answer = first[0];
    while agree && answer == UNFINISHED {
        let visits = steps
            .next()
            .expect("two steps of the greatest number end a run");
        answer = step_both(&run.table, &mut proved, &mut plain, visits, &mut agree);
    }
    if agree && work.len() >= foreign::WORK_WORDS && proved.2.iter().all(|&word| word == 0) {
        agree = proved == plain;
        step_both(&run.table, &mut proved, &mut plain, 1, &mut agree);
    }
    agree && proved == plain
}

/// The answer of a run that is set aside.
const UNFINISHED: u32 = 25;

/// Store, bindings and work list.
type Memory = (Vec<u32>, Vec<u32>, Vec<u32>);

/// A step of both; the proved answer.
fn step_both(
    table: &[u32],
    proved: &mut Memory,
    plain: &mut Memory,
    visits: u32,
    agree: &mut bool,
) -> u32 {
    let numbers = foreign::step(table, &mut proved.0, &mut proved.1, &mut proved.2, visits);
    let end = twin::step_run(table, &mut plain.0, &mut plain.1, visits, &mut plain.2);
    *agree &= numbers == five(end);
    numbers[0]
}

/// Whether the proved function and the plain one agree on a call with an index:
/// the numbers, every word of the store, of the bindings or the results and of the
/// index.
fn indexed_agrees(case: &CallCase) -> bool {
    let signature = case.words(SIGNATURE);
    let run = &case.run;
    let index = case.words(INDEX).expect("an index is lent");
    let words = run.store.len();
    let mut lent = run.store.clone();
    lent.extend(&index);
    let mut plain = (run.store.clone(), index);
    if case.call == Call::Many {
        let subjects = case.words(SUBJECTS).expect("subjects are lent");
        let mut results = case.words(RESULTS).expect("results are lent");
        let mut others = results.clone();
        let numbers = foreign::run_many_indexed(
            &run.table,
            &mut lent,
            words as u32,
            &run.bindings,
            run.mark,
            run.start,
            &subjects,
            run.units,
            &mut results,
            signature.as_deref(),
        );
        let (answer, place) = twin::run_many(
            &run.table,
            &mut plain.0,
            &run.bindings,
            run.mark,
            run.start,
            &subjects,
            run.units,
            &mut others,
            twin::Lent {
                signature: signature.as_deref(),
                index: Some(&mut plain.1),
            },
        );
        return numbers == [answer, place]
            && results == others
            && lent[..words] == plain.0
            && lent[words..] == plain.1;
    }
    let mut bindings = run.bindings.clone();
    let mut others = bindings.clone();
    let numbers = foreign::run_indexed(
        &run.table,
        &mut lent,
        words as u32,
        &mut bindings,
        run.mark,
        run.start,
        run.subject,
        run.units,
        signature.as_deref(),
    );
    let end = twin::run_lent(
        &run.table,
        &mut plain.0,
        &mut others,
        run.mark,
        run.start,
        run.subject,
        run.units,
        twin::Lent {
            signature: signature.as_deref(),
            index: Some(&mut plain.1),
        },
        &mut (),
    );
    numbers == [end.answer, end.place, end.subject, end.mark, end.units]
        && bindings == others
        && lent[..words] == plain.0
        && lent[words..] == plain.1
}

/// Store and index as one slice, bindings and counts.
#[derive(Clone, PartialEq)]
struct Counting {
    lent: Vec<u32>,
    bindings: Vec<u32>,
    counts: Vec<u64>,
}

/// Whether the proved function and the plain one agree on a counted run: the seven
/// numbers and every word of store, bindings, counts and index. Where the input is
/// not refused, or is refused by something else than its counts, the proved run
/// without counts agrees with it too.
fn counted_agrees(case: &CallCase) -> bool {
    let run = &case.run;
    let signature = case.words(SIGNATURE);
    let index = case.words(INDEX);
    let words = run.store.len();
    let mut proved = Counting {
        lent: [&run.store[..], index.as_deref().unwrap_or(&[])].concat(),
        bindings: run.bindings.clone(),
        counts: case.lent[&COUNTED].clone(),
    };
    let mut plain = proved.clone();
    let numbers = proved_counts(case, &mut proved);
    let (store, rest) = plain.lent.split_at_mut(words);
    let end = twin::run_counted(
        &run.table,
        store,
        &mut plain.bindings,
        run.mark,
        run.start,
        run.subject,
        run.units,
        twin::Lent {
            signature: signature.as_deref(),
            index: index.is_some().then_some(rest),
        },
        &mut plain.counts,
    );
    let [answer, place, subject, mark, units] = five(end.outcome);
    numbers == [answer, place, subject, mark, units, end.patterns, end.pairs]
        && proved == plain
        && uncounted_agrees(case, numbers, &proved)
}

/// The proved counted run.
fn proved_counts(case: &CallCase, memory: &mut Counting) -> [u32; 7] {
    let run = &case.run;
    let signature = case.words(SIGNATURE);
    let (bindings, counts) = (&mut memory.bindings, &mut memory.counts);
    match case.words(INDEX) {
        Some(_) => foreign::run_indexed_counted(
            &run.table,
            &mut memory.lent,
            run.store.len() as u32,
            bindings,
            run.mark,
            run.start,
            run.subject,
            run.units,
            counts,
            signature.as_deref(),
        ),
        None => foreign::run_counted(
            &run.table,
            &mut memory.lent,
            bindings,
            run.mark,
            run.start,
            run.subject,
            run.units,
            counts,
            signature.as_deref(),
        ),
    }
}

/// Whether the proved run of the same input, without counts, gives the same five
/// numbers and leaves the same words. Where the counts alone refuse the input there
/// is nothing to compare.
fn uncounted_agrees(case: &CallCase, numbers: [u32; 7], left: &Counting) -> bool {
    let run = &case.run;
    let four_each = case.lent[&COUNTED].len() == 4 * (run.table.len() / 8);
    if numbers[0] == FULL_COUNT || !four_each {
        return true;
    }
    let index = case.words(INDEX);
    let mut lent = [&run.store[..], index.as_deref().unwrap_or(&[])].concat();
    let mut bindings = run.bindings.clone();
    let (mark, start, subject, units) = (run.mark, run.start, run.subject, run.units);
    let words = run.store.len() as u32;
    let (table, own) = (&run.table, &mut bindings);
    let given = match (&index, case.words(SIGNATURE)) {
        (Some(_), signature) => foreign::run_indexed(
            table,
            &mut lent,
            words,
            own,
            mark,
            start,
            subject,
            units,
            signature.as_deref(),
        ),
        (None, Some(signature)) => foreign::run_signed(
            table, &mut lent, own, mark, start, subject, units, &signature,
        ),
        (None, None) => foreign::run(table, &mut lent, own, mark, start, subject, units),
    };
    numbers[..5] == given && left.lent == lent && left.bindings == bindings
}

/// The answer where a count is too high.
const FULL_COUNT: u32 = 24;

/// Whether the proved function and the plain one agree on a text of rules: the
/// four numbers and every word of the table.
fn translation_agrees(case: &CallCase) -> bool {
    let text = case.bytes(TEXT);
    let used = case.run.mark;
    let mut proved = case.run.table.clone();
    let numbers = foreign::translate_rules(&mut proved, used, &text);
    let mut plain = case.run.table.clone();
    let end = twin::translate(&mut plain, used, &text);
    numbers == [end.answer, end.line, end.field, end.entries].map(u64::from) && proved == plain
}

/// Whether they agree on a rule to write: the three numbers and every byte of the
/// buffer.
fn writing_agrees(case: &CallCase) -> bool {
    let run = &case.run;
    let mut proved = case.bytes(BUFFER);
    let numbers = foreign::write_rule(&run.table, run.mark, run.start, &mut proved);
    let mut plain = case.bytes(BUFFER);
    let end = twin::write_rule(&run.table, run.mark, run.start, &mut plain);
    numbers == [end.answer, end.place, end.length].map(u64::from) && proved == plain
}

/// Whether the proved functions and the plain ones agree on a case of rules.
fn rules_agree(case: &CallCase) -> bool {
    match case.call {
        Call::Translate => translation_agrees(case),
        _ => writing_agrees(case),
    }
}

/// Whether the proved function and the plain one agree on a question.
fn question_agrees(case: &FreeCase) -> bool {
    let (answer, place, mask) = twin::free_variables(&case.table, case.entry);
    foreign::free_variables(&case.table, case.entry) == [answer.into(), place.into(), mask]
}

/// Compares all; gives the number of cases that differ.
fn compare(first: u64, last: u64, count: u64) -> u64 {
    let mut differ = 0;
    for seed in first..=last {
        for index in 0..count {
            let case = run_case(seed, index);
            if !run_agrees(&case) {
                println!("run {} of seed {} differs", index, seed);
                differ += 1;
            }
            for given in [&case, &after_run(&case)] {
                if !collection_agrees(given, index) {
                    println!("a collection of run {} of seed {} differs", index, seed);
                    differ += 1;
                }
            }
            if !signed_agrees(&signed_case(seed, index)) {
                println!("signed run {} of seed {} differs", index, seed);
                differ += 1;
            }
            if !many_agrees(&many_case(seed, index)) {
                println!("call {} with many subjects of seed {} differs", index, seed);
                differ += 1;
            }
            // A work list is long, so that one case in ten is a run in steps.
            if index % 10 == 0 && !steps_agree(&stepped_case(seed, index)) {
                println!("run in steps {} of seed {} differs", index, seed);
                differ += 1;
            }
            if !indexed_agrees(&indexed_case(seed, index)) {
                println!("call {} with an index of seed {} differs", index, seed);
                differ += 1;
            }
            if !counted_agrees(&counted_case(seed, index)) {
                println!("counted run {} of seed {} differs", index, seed);
                differ += 1;
            }
            if !rules_agree(&rules_case(seed, index)) {
                println!("rules {} of seed {} differ", index, seed);
                differ += 1;
            }
            if !question_agrees(&free_case(seed, index)) {
                println!("question {} of seed {} differs", index, seed);
                differ += 1;
            }
        }
    }
    differ
}

fn main() -> ExitCode {
    let words: Result<Vec<u64>, _> = std::env::args().skip(1).map(|word| word.parse()).collect();
    let (first, last, count) = match words.as_deref() {
        Ok(&[first, last, count]) if first <= last && count > 0 => (first, last, count),
        _ => {
            eprintln!("usage: differ FIRST LAST COUNT, with FIRST at most LAST and COUNT above 0");
            return ExitCode::from(2);
        }
    };
    let differ = twin::with_big_stack(move || compare(first, last, count));
    let each = (last - first + 1) * count;
    println!(
        "{} runs, {} signed runs, {} calls with many subjects, {} runs in steps, {} calls with an index, {} counted runs, {} collections, {} texts of rules or rules to write and {} questions compared, {} differ",
        each,
        each,
        each,
        (last - first + 1) * count.div_ceil(10),
        each,
        each,
        2 * each,
        each,
        each,
        differ
    );
    ExitCode::from(u8::from(differ > 0))
}
