//! Laws that 01 states of every run, tried on generated cases, and the text
//! formats there and back.

use twin::checks::ran;
use twin::generate::{free_case, job_text, run_case};
use twin::text::{push_framed, sum, take_framed, FreeCase, RunCase};
use twin::{run, with_big_stack, Outcome};

/// Runs a case with other units; the outcome and what is left.
fn run_it(case: &RunCase, units: u32) -> (Outcome, Vec<u32>, Vec<u32>) {
    let mut store = case.store.clone();
    let mut bindings = case.bindings.clone();
    let outcome = run(
        &case.table,
        &mut store,
        &mut bindings,
        case.mark,
        case.start,
        case.subject,
        units,
    );
    (outcome, store, bindings)
}

#[test]
fn what_comes_back() {
    with_big_stack(|| {
        for index in 0..1_500 {
            let case = run_case(11, index);
            let (outcome, store, bindings) = run_it(&case, case.units);
            let given = (outcome.subject, outcome.mark) == (case.subject, case.mark);
            if outcome.answer != 0 {
                assert!(given, "{}", case.label);
                assert_eq!(bindings, case.bindings, "{}", case.label);
            }
            if !ran(outcome.answer) {
                assert_eq!(outcome.units, 0, "{}", case.label);
                assert_eq!(store, case.store, "{}", case.label);
                continue;
            }
            match outcome.answer {
                12 => assert!(outcome.place < 64, "{}", case.label),
                // 02, wish 10: a pattern entry, or 4,096.
                1 if outcome.place < 4_096 => {
                    let kind = case.table[8 * outcome.place as usize] / 16;
                    assert!(kind == 18 || kind == 19, "{}", case.label);
                }
                1 => assert_eq!(outcome.place, 4_096, "{}", case.label),
                _ => assert_eq!(outcome.place, 0, "{}", case.label),
            }
            assert!(outcome.units <= case.units, "{}", case.label);
            let below = 8 * case.mark as usize;
            assert_eq!(store[..below], case.store[..below], "{}", case.label);
            let above = 8 * outcome.mark as usize;
            assert!(store[above..].iter().all(|&word| word == 0));
            assert_eq!(twin::check_store(&store, outcome.mark), (0, 0));
        }
    });
}

#[test]
fn each_fault_of_an_entry_comes_up() {
    // 02, wish 4: "3 is no longer given".
    with_big_stack(|| {
        let mut runs = [0; 100];
        let mut frees = [0; 100];
        for index in 0..3_000 {
            let case = run_case(16, index);
            let (outcome, _, _) = run_it(&case, case.units.min(9));
            runs[outcome.answer as usize] += 1;
            let case = free_case(16, index);
            let (answer, _, _) = twin::free_variables(&case.table, case.entry);
            frees[answer as usize] += 1;
        }
        assert_eq!((runs[3], frees[3]), (0, 0));
        for fault in 13..=17 {
            assert!(runs[fault] > 20, "{} {}", fault, runs[fault]);
            assert!(frees[fault] > 10, "{} {}", fault, frees[fault]);
        }
    });
}

#[test]
fn units_decide_as_they_should() {
    with_big_stack(|| {
        for index in 0..1_500 {
            let case = run_case(12, index);
            let (outcome, store, bindings) = run_it(&case, case.units);
            let used = outcome.units;
            match outcome.answer {
                0 | 1 | 7 | 12 => {
                    // The same with the units that it used; one less is 6.
                    let again = run_it(&case, used);
                    assert_eq!(again, (outcome, store, bindings), "{}", case.label);
                    if used > 0 {
                        let (less, _, _) = run_it(&case, used - 1);
                        assert_eq!((less.answer, less.units), (6, used - 1));
                    }
                }
                8 => {
                    // The units are looked at first.
                    let (same, _, _) = run_it(&case, used);
                    assert_eq!((same.answer, same.units), (6, used), "{}", case.label);
                    let (more, _, _) = run_it(&case, used + 1);
                    assert_eq!((more.answer, more.units), (8, used), "{}", case.label);
                }
                6 => assert_eq!(used, case.units, "{}", case.label),
                _ => {}
            }
        }
    });
}

#[test]
fn garbage_above_the_mark_changes_nothing() {
    with_big_stack(|| {
        for index in 0..800 {
            let case = run_case(13, index);
            let (outcome, store, bindings) = run_it(&case, case.units);
            if !ran(outcome.answer) {
                continue;
            }
            let mut soiled = case.clone();
            for word in &mut soiled.store[8 * case.mark as usize..] {
                *word ^= 0x5555_1234;
            }
            let other = run_it(&soiled, case.units);
            assert_eq!(other, (outcome, store, bindings), "{}", case.label);
        }
    });
}

#[test]
fn lines_there_and_back() {
    with_big_stack(|| {
        for index in 0..600 {
            let case = run_case(14, index);
            assert_eq!(RunCase::parse(&case.line()), Ok(case));
            let case = free_case(14, index);
            assert_eq!(FreeCase::parse(&case.line()), Ok(case));
        }
    });
}

#[test]
fn the_same_seed_gives_the_same_cases() {
    with_big_stack(|| {
        for index in 0..200 {
            assert_eq!(run_case(3, index), run_case(3, index));
            assert_eq!(free_case(3, index), free_case(3, index));
            assert_eq!(job_text(3, index), job_text(3, index));
        }
        assert_ne!(run_case(3, 1), run_case(4, 1));
    });
}

#[test]
fn a_run_line_and_its_answer() {
    // WHERE(MATCH x) on 1(), with garbage above the mark.
    let line = "24 16 64 1 0 0 9 1 0 0 0 7 0 0 273 0 2 1 0 8 225 0 10 2 0 16 288 1 0 1 1 9 4 r7";
    let case = RunCase::parse(line).unwrap();
    assert_eq!(case.store[8], u32::MAX);
    assert_eq!(case.store[9], 4);
    assert_eq!(case.answer(), "r7 0 0 0 1 3 0=1 : 0=1");
    // A refusal shows the words as they were.
    let line = "8 8 1 0 0 0 9 1 0 0 0 0 r8";
    let words: Vec<String> = (0..8).map(|w| format!(" {}=4294967295", w)).collect();
    let expected = format!("r8 2 0 0 0 0 :{}", words.concat());
    assert_eq!(RunCase::parse(line).unwrap().answer(), expected);
    // A long store is shown by its sum.
    let line = "8 520 64 1 0 0 9 0 0 0 0 1 1 0 2 r9";
    let mut words = vec![0; 520];
    words[0] = 2;
    let expected = format!("r9 0 0 0 1 1 : {}", sum(&words));
    assert_eq!(RunCase::parse(line).unwrap().answer(), expected);
    assert_eq!(sum(&[1, 2, u32::MAX]), 31 * 31 + 62 - 1);
    // Lines that say nothing sound.
    for line in ["", "8", "8 8 64 1 0 0 9 0 0 0 0 1 3 0 0 r1", "x"] {
        assert!(RunCase::parse(line).is_err());
    }
}

#[test]
fn a_free_line_and_its_answer() {
    let line = "t 16 0 4 0 225 2 1 8 288 9 5 f1";
    assert_eq!(FreeCase::parse(line).unwrap().answer(), "f1 0 0 32");
    let line = "t 16 0 4 0 225 2 1 8 288 9 63 f1";
    let answer = FreeCase::parse(line).unwrap().answer();
    assert_eq!(answer, "f1 0 0 9223372036854775808");
    assert_eq!(FreeCase::parse("t 0 0 0 f2").unwrap().answer(), "f2 2 0 0");
}

#[test]
fn framed_texts() {
    let mut stream = Vec::new();
    for text in [&b"job"[..], b"", b"# 3\nx\n"] {
        push_framed(&mut stream, text);
    }
    let mut rest = &stream[..];
    assert_eq!(take_framed(&mut rest), Ok(Some(&b"job"[..])));
    assert_eq!(take_framed(&mut rest), Ok(Some(&b""[..])));
    assert_eq!(take_framed(&mut rest), Ok(Some(&b"# 3\nx\n"[..])));
    assert_eq!(take_framed(&mut rest), Ok(None));
    assert!(take_framed(&mut &b"# 5\nabc"[..]).is_err());
    assert!(take_framed(&mut &b"5\nabc"[..]).is_err());
}

/// A term as a value: its constructor and its children's values, numbered.
fn value_of(store: &[u32], mark: u32, values: &mut Vec<Vec<u32>>) -> Vec<usize> {
    let mut numbers: Vec<usize> = Vec::new();
    for row in store.chunks(8).take(mark as usize) {
        let mut value = vec![row[0]];
        for &child in &row[2..2 + row[1] as usize] {
            value.push(numbers[child as usize] as u32);
        }
        let found = values.iter().position(|other| *other == value);
        numbers.push(found.unwrap_or_else(|| {
            values.push(value);
            values.len() - 1
        }));
    }
    numbers
}

/// The table with SEQ(PATH i. s, PATH j. t) in front.
fn in_order(table: &[u32], (i, s): (u32, u32), (j, t): (u32, u32)) -> Vec<u32> {
    let mut words = vec![
        16 * 4 + 2,
        0,
        1,
        2,
        0,
        0,
        0,
        0, //
        16 * 9 + 1,
        i,
        s + 3,
        0,
        0,
        0,
        0,
        0, //
        16 * 9 + 1,
        j,
        t + 3,
        0,
        0,
        0,
        0,
        0,
    ];
    for row in table.chunks(8) {
        let mut row = row.to_vec();
        let count = (row[0] % 16) as usize;
        let first = twin::checks::first_operand(row[0] / 16);
        for operand in &mut row[first..first + count] {
            *operand += 3;
        }
        words.extend(row);
    }
    words
}

#[test]
fn closed_strategies_at_two_places_commute() {
    // Demand 3: "two runs, one in each order, that both end in done or failed
    // agree."
    let (done, failed) = with_big_stack(|| {
        let mut done = 0;
        let mut failed = 0;
        for index in 0..700 {
            let case = run_case(15, index);
            let (outcome, _, _) = run_it(&case, 0);
            if outcome.answer != 6 || case.store.len() > 512 || case.table.len() > 400 {
                continue;
            }
            let children = case.store[8 * case.subject as usize + 1];
            if children < 2 {
                continue;
            }
            let closed: Vec<u32> = (0..case.table.len() as u32 / 8)
                .filter(|&entry| {
                    let (answer, _, mask) = twin::free_variables(&case.table, entry);
                    answer == 0 && mask == 0
                })
                .collect();
            for &s in closed.iter().take(4) {
                for &t in closed.iter().rev().take(4) {
                    let mut values = Vec::new();
                    let mut ends = Vec::new();
                    let (one, two) = ((1, s), (children, t));
                    for (first, second) in [(one, two), (two, one)] {
                        let mut ordered = case.clone();
                        ordered.table = in_order(&case.table, first, second);
                        ordered.start = 0;
                        ordered.store.resize(8 * 200, 0);
                        let (outcome, store, bindings) = run_it(&ordered, 3_000);
                        let numbers = value_of(&store, outcome.mark, &mut values);
                        let term = numbers[outcome.subject as usize];
                        ends.push((outcome.answer, term, bindings));
                    }
                    if ends.iter().all(|end| end.0 < 2) {
                        assert_eq!(ends[0], ends[1], "{} {} {}", case.label, s, t);
                        assert_eq!(ends[0].2, case.bindings, "{}", case.label);
                        done += u32::from(ends[0].0 == 0);
                        failed += u32::from(ends[0].0 == 1);
                    }
                }
            }
        }
        (done, failed)
    });
    assert!(done > 100 && failed > 100, "{} {}", done, failed);
}
