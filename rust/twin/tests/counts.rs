//! 02, wish 13: where the units go.

mod common;
use common::*;
use twin::calls::{CallCase, COUNTED, INDEX, SIGNATURE};
use twin::checks::ran;
use twin::generate::counted_case;
use twin::{run_counted, with_big_stack, Counted, Lent};

/// The greatest word that may be lent.
const MOST: u64 = 18_446_744_069_414_584_320;

/// An input of a counted run.
#[derive(Clone)]
struct Input {
    table: Vec<u32>,
    store: Vec<u32>,
    mark: u32,
    subject: u32,
    units: u32,
    signature: Option<Vec<u32>>,
    index: Option<Vec<u32>>,
    counts: Vec<u64>,
}

/// What it gave and left.
#[derive(Debug, PartialEq)]
struct After {
    end: Counted,
    store: Vec<u32>,
    bindings: Vec<u32>,
    index: Option<Vec<u32>>,
    counts: Vec<u64>,
}

fn call(input: &Input) -> After {
    let mut input = input.clone();
    with_big_stack(move || {
        let mut bindings = vec![0; 64];
        let lent = Lent {
            signature: input.signature.as_deref(),
            index: input.index.as_deref_mut(),
        };
        let end = run_counted(
            &input.table,
            &mut input.store,
            &mut bindings,
            input.mark,
            0,
            input.subject,
            input.units,
            lent,
            &mut input.counts,
        );
        After {
            end,
            store: input.store,
            bindings,
            index: input.index,
            counts: input.counts,
        }
    })
}

/// A run of entry 0 on the small store with ample limits and zero counts.
fn on_small(rows: &[(u32, u64, &[u32])]) -> Input {
    Input {
        table: table(rows),
        store: small_store(),
        mark: 3,
        subject: 2,
        units: 1_000,
        signature: None,
        index: None,
        counts: vec![0; 4 * rows.len()],
    }
}

/// Expects an answer with its units, pattern and pair visits, and the counts.
fn counted(input: &Input, numbers: (u32, u32, u32, u32), counts: &[[u64; 4]]) {
    let after = call(input);
    let (answer, units, patterns, pairs) = numbers;
    assert_eq!(after.end.outcome.answer, answer);
    assert_eq!(after.end.outcome.units, units);
    assert_eq!((after.end.patterns, after.end.pairs), (patterns, pairs));
    assert_eq!(after.counts, counts.concat());
}

/// Expects a refusal that added nothing.
fn refused(input: &Input, answer: u32, place: u32) {
    let after = call(input);
    let expected = Counted {
        outcome: outcome(answer, place, input.subject, input.mark, 0),
        patterns: 0,
        pairs: 0,
    };
    assert_eq!(after.end, expected);
    assert_eq!(after.counts, input.counts);
    assert_eq!(after.store, input.store);
    assert_eq!(after.index, input.index);
}

#[test]
fn visits_successes_and_failures() {
    // S6: LEFT(SEQ(MATCH x, FAIL), ID).
    let s6 = on_small(&[
        (LEFT, 0, &[1, 2]),
        (SEQ, 0, &[3, 4]),
        (ID, 0, &[]),
        (MATCH, 0, &[5]),
        (FAIL, 0, &[]),
        (PVAR, 0, &[]),
    ]);
    let counts = [
        [1, 1, 0, 0],
        [1, 0, 1, 0],
        [1, 1, 0, 0],
        [1, 1, 0, 0],
        [1, 0, 1, 0],
        [0, 0, 0, 0],
    ];
    counted(&s6, (0, 6, 1, 0), &counts);
    // S4: MATCH 5(x, x) fails: three patterns, one pair.
    let s4 = on_small(&[(MATCH, 0, &[1]), (PCON, 5, &[2, 2]), (PVAR, 0, &[])]);
    let none = [0; 4];
    counted(&s4, (1, 5, 3, 1), &[[1, 0, 1, 0], none, none]);
    // S8: SOME of MATCH 1(): one child succeeds, one fails, caught.
    let s8 = on_small(&[(SOME, 0, &[1]), (MATCH, 0, &[2]), (PCON, 1, &[])]);
    counted(&s8, (0, 5, 2, 0), &[[1, 1, 0, 0], [2, 1, 1, 0], none]);
    // NOT fails where its operand succeeds, and the other way round.
    let not = on_small(&[(NOT, 0, &[1]), (ID, 0, &[])]);
    counted(&not, (1, 2, 0, 0), &[[1, 0, 1, 0], [1, 1, 0, 0]]);
    let not = on_small(&[(NOT, 0, &[1]), (FAIL, 0, &[])]);
    counted(&not, (0, 2, 0, 0), &[[1, 1, 0, 0], [1, 0, 1, 0]]);
}

#[test]
fn a_caught_failure_keeps_its_visits() {
    // TEST and LEFT take back nodes and bindings, not counts.
    let input = on_small(&[
        (LEFT, 0, &[1, 4]),
        (SEQ, 0, &[2, 3]),
        (BUILD, 0, &[6]),
        (FAIL, 0, &[]),
        (TEST, 0, &[5]),
        (BUILD, 0, &[6]),
        (PCON, 9, &[]),
    ]);
    let counts = [
        [1, 1, 0, 0],
        [1, 0, 1, 0],
        [1, 1, 0, 0],
        [1, 0, 1, 0],
        [1, 1, 0, 0],
        [1, 1, 0, 0],
        [0, 0, 0, 0],
    ];
    counted(&input, (0, 8, 2, 0), &counts);
}

#[test]
fn visits_in_flight_at_a_cut_off() {
    // SEQ(ID, FAIL) with one and two units: the visit that is refused is none,
    // and the one that asked for it is in flight.
    let mut input = on_small(&[(SEQ, 0, &[1, 2]), (ID, 0, &[]), (FAIL, 0, &[])]);
    let none = [0; 4];
    input.units = 0;
    counted(&input, (6, 0, 0, 0), &[none, none, none]);
    input.units = 1;
    counted(&input, (6, 1, 0, 0), &[[1, 0, 0, 1], none, none]);
    input.units = 2;
    counted(&input, (6, 2, 0, 0), &[[1, 0, 0, 1], [1, 1, 0, 0], none]);
    input.units = 3;
    let all = [[1, 0, 1, 0], [1, 1, 0, 0], [1, 0, 1, 0]];
    counted(&input, (1, 3, 0, 0), &all);
    // S11: 4,096 open visits, half of each entry.
    let mut endless = on_small(&[(REC, 0, &[1]), (CALL, 0, &[0])]);
    endless.units = 5_000;
    let half = [2_048, 0, 0, 2_048];
    counted(&endless, (8, 4_096, 0, 0), &[half, half]);
    endless.units = 7;
    counted(&endless, (6, 7, 0, 0), &[[4, 0, 0, 4], [3, 0, 0, 3]]);
    // Room: BUILD that has made its visits.
    let mut full = on_small(&[(WHERE, 0, &[1]), (BUILD, 0, &[2]), (PCON, 9, &[])]);
    full.store.truncate(24);
    counted(&full, (7, 3, 1, 0), &[[1, 0, 0, 1], [1, 0, 0, 1], none]);
    // An unbound variable.
    let unbound = on_small(&[(NOT, 0, &[1]), (BUILD, 0, &[2]), (PVAR, 9, &[])]);
    counted(&unbound, (12, 3, 1, 0), &[[1, 0, 0, 1], [1, 0, 0, 1], none]);
    // Units that end inside a pattern and inside a comparison.
    let mut twice = on_small(&[(MATCH, 0, &[1]), (PCON, 5, &[2, 2]), (PVAR, 0, &[])]);
    twice.units = 3;
    counted(&twice, (6, 3, 2, 0), &[[1, 0, 0, 1], none, none]);
    twice.units = 4;
    counted(&twice, (6, 4, 3, 0), &[[1, 0, 0, 1], none, none]);
}

#[test]
fn a_run_adds_to_what_is_there() {
    let mut input = on_small(&[(SEQ, 0, &[1, 2]), (ID, 0, &[]), (FAIL, 0, &[])]);
    for (index, word) in input.counts.iter_mut().enumerate() {
        *word = 10 * index as u64;
    }
    let counts = [[1, 10, 21, 30], [41, 51, 60, 70], [81, 90, 101, 110]];
    counted(&input, (1, 3, 0, 0), &counts);
    // Words of pattern entries stay as they are.
    let mut input = on_small(&[(MATCH, 0, &[1]), (PVAR, 0, &[])]);
    input.counts = vec![1, 2, 3, 4, 5, 6, 7, 8];
    counted(&input, (0, 2, 1, 0), &[[2, 3, 3, 4], [5, 6, 7, 8]]);
    // The greatest word is added to.
    input.counts = vec![MOST; 8];
    let counts = [[MOST + 1, MOST + 1, MOST, MOST], [MOST; 4]];
    counted(&input, (0, 2, 1, 0), &counts);
}

#[test]
fn refusals_and_their_order() {
    let good = on_small(&[(MATCH, 0, &[1]), (PVAR, 0, &[]), (ID, 0, &[])]);
    // 24 with the lowest entry that has such a word, a pattern's included.
    for (word, place) in [(0, 0), (3, 0), (4, 1), (7, 1), (8, 2), (11, 2)] {
        let mut input = good.clone();
        input.counts[word] = MOST + 1;
        refused(&input, 24, place);
        input.counts[11] = u64::MAX;
        refused(&input, 24, place);
        // At the limit it is no such word; then the later one is the lowest.
        input.counts[word] = MOST;
        input.counts[10] = u64::MAX;
        refused(&input, 24, 2);
    }
    // After 5, and 5 after 21, 11, 10, 4, 13 to 17.
    let mut input = good.clone();
    input.counts[0] = u64::MAX;
    input.subject = 3;
    refused(&input, 5, 0);
    input.index = Some(vec![4; 128]);
    input.store[8] = 1;
    refused(&input, 21, 1);
    input.signature = Some(vec![7, 1, 7, 7, 7, 2]);
    refused(&input, 11, 0);
    input.table.truncate(16);
    input.table.extend(table(&[(CONG, 1, &[])]));
    refused(&input, 10, 2);
    input.store[23] = 1;
    refused(&input, 4, 2);
    input.table[15] = 1;
    refused(&input, 17, 1);
    // 2 before all: four words for each entry, no more and no fewer.
    for length in [0, 3, 4, 8, 11, 13, 16, 24] {
        let mut input = input.clone();
        input.counts.resize(length, 0);
        refused(&input, 2, 0);
        let mut input = good.clone();
        input.counts.resize(length, 0);
        refused(&input, 2, 0);
    }
}

#[test]
fn with_a_signature_and_an_index() {
    // ALL(ID): the node is found; the counts are those of the plain store.
    let mut input = on_small(&[(ALL, 0, &[1]), (ID, 0, &[])]);
    input.signature = Some(vec![7, 0, 0, 7, 7, 2]);
    input.index = Some(vec![3; 130]);
    counted(&input, (0, 3, 0, 0), &[[1, 1, 0, 0], [2, 2, 0, 0]]);
    let after = call(&input);
    assert_eq!(after.end.outcome, outcome(0, 0, 2, 3, 3));
    assert_eq!(after.index, Some(vec![0; 130]));
}

#[test]
fn generated_laws() {
    let seen = with_big_stack(|| {
        let mut seen = [0; 100];
        for number in 0..2_500 {
            let case = counted_case(61, number);
            assert_eq!(CallCase::parse(&case.line()).as_ref(), Ok(&case));
            let label = &case.run.label;
            let signature = case.words(SIGNATURE);
            let mut index = case.words(INDEX);
            let before = case.lent[&COUNTED].clone();
            let mut counts = before.clone();
            let mut run = case.run.clone();
            let lent = Lent {
                signature: signature.as_deref(),
                index: index.as_deref_mut(),
            };
            let end = run.run_counted(lent, &mut counts);
            seen[end.outcome.answer as usize] += 1;
            if !ran(end.outcome.answer) {
                assert_eq!(counts, before, "{}", label);
                assert_eq!((end.patterns, end.pairs), (0, 0), "{}", label);
                continue;
            }
            // Entry, pattern and pair visits together make the units, and
            // successes, failures and in-flight visits make an entry's visits.
            let mut sum = u64::from(end.patterns) + u64::from(end.pairs);
            for (entry, (old, new)) in before.chunks(4).zip(counts.chunks(4)).enumerate() {
                let grown: Vec<u64> = (0..4).map(|word| new[word] - old[word]).collect();
                assert_eq!(grown[0], grown[1] + grown[2] + grown[3], "{}", label);
                sum += grown[0];
                if run.table[8 * entry] / 16 > WHERE {
                    assert_eq!(new, old, "{}", label);
                }
                if end.outcome.answer < 2 {
                    assert_eq!(grown[3], 0, "{}", label);
                }
            }
            assert_eq!(sum, u64::from(end.outcome.units), "{}", label);
            // The five numbers, store and bindings are those of the run.
            let mut other = case.run.clone();
            let mut index = case.words(INDEX);
            let lent = Lent {
                signature: signature.as_deref(),
                index: index.as_deref_mut(),
            };
            let outcome = other.run_lent(lent);
            assert_eq!(end.outcome, outcome, "{}", label);
            assert_eq!(run.store, other.store, "{}", label);
            assert_eq!(run.bindings, other.bindings, "{}", label);
        }
        seen
    });
    for answer in [0, 1, 2, 4, 5, 6, 7, 8, 11, 12, 21, 24] {
        assert!(seen[answer] > 3, "{} {}", answer, seen[answer]);
    }
}

#[test]
fn a_line_and_its_answer() {
    // MATCH x on 1(), with counts of 5 and one greatest word.
    let line = "k 1 0 0 9 4 0 16 0 1 8 0 2 64 0 8 8 5 5 0 0 225 0 2 1 0 8 288 1 0 1 \
                8 7 18446744069414584320 k1";
    let after = CallCase::parse(line).unwrap().answer();
    let counts = "0=6 1=6 2=5 3=5 4=5 5=5 6=5 7=18446744069414584320";
    assert_eq!(after, format!("k1 0 0 0 1 2 1 0 0=1 : 0=1 : {}", counts));
    let line = "k 1 0 0 9 4 0 16 0 1 8 0 2 64 0 8 8 0 5 0 0 225 0 2 1 0 8 288 1 0 1 \
                8 7 18446744069414584321 k2";
    let after = CallCase::parse(line).unwrap().answer();
    let counts = "7=18446744069414584321";
    assert_eq!(after, format!("k2 24 1 0 1 0 0 0 : 0=1 : {}", counts));
}
