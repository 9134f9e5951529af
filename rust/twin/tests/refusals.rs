//! Every refusal of the checks, of the run and of the question of free
//! variables, in 01's order.

mod common;
use common::*;
use twin::{check_store, check_table, free_variables};

/// A table with an entry of every kind, all good.
fn every_kind() -> Vec<u32> {
    table(&[
        (SEQ, 0, &[1, 2]),            // 0
        (CHOICE, 0, &[3, 4]),         // 1
        (LEFT, 0, &[5, 6]),           // 2
        (TEST, 0, &[7]),              // 3
        (NOT, 0, &[8]),               // 4
        (REC, 0, &[9]),               // 5
        (WHERE, 0, &[10]),            // 6
        (PATH, 6, &[11]),             // 7
        (CONG, 65_535, &[11, 12, 9]), // 8
        (CALL, 0, &[5]),              // 9
        (SCOPE, u64::MAX, &[13]),     // 10
        (ALL, 0, &[16]),              // 11
        (ONE, 0, &[17]),              // 12
        (SOME, 0, &[14]),             // 13
        (MATCH, 0, &[18]),            // 14
        (BUILD, 0, &[19]),            // 15
        (ID, 0, &[]),                 // 16
        (FAIL, 0, &[]),               // 17
        (PCON, 65_535, &[19, 19]),    // 18
        (PVAR, 63, &[]),              // 19
    ])
}

/// The answer of the table check after some words are set.
fn with(changes: &[(usize, u32)]) -> (u32, u32) {
    let mut words = every_kind();
    for &(word, value) in changes {
        words[word] = value;
    }
    check_table(&words)
}

#[test]
fn table_lengths() {
    assert_eq!(check_table(&every_kind()), (0, 0));
    assert_eq!(check_table(&[]), (2, 0));
    for length in [1, 7, 9, 15, 32_769, 32_776] {
        assert_eq!(check_table(&vec![0; length]), (2, 0), "{}", length);
    }
    assert_eq!(check_table(&[0; 8]), (0, 0));
    assert_eq!(check_table(&vec![0; 32_768]), (0, 0));
}

#[test]
fn kinds_and_counts() {
    // A kind above 19 that nobody uses; the start is such an entry.
    assert_eq!(with(&[(0, 16 * 20)]), (13, 0));
    assert_eq!(with(&[(0, u32::MAX)]), (13, 0));
    // Too few and too many operands for each kind.
    let words = every_kind();
    for entry in 0..20 {
        let count = words[8 * entry] % 16;
        for other in 0..16 {
            let kind = words[8 * entry] / 16;
            let wide = (kind == CONG || kind == PCON) && other <= 6;
            if other == count || wide {
                continue;
            }
            let changed = with(&[(8 * entry, 16 * kind + other)]);
            assert_eq!(changed, (13, entry as u32), "{} {}", entry, other);
        }
    }
    // Six operands are taken, seven are not.
    let six = table(&[(PCON, 1, &[1; 6]), (PVAR, 0, &[])]);
    assert_eq!(check_table(&six), (0, 0));
    let mut seven = six.clone();
    seven[0] += 1;
    assert_eq!(check_table(&seven), (13, 0));
}

#[test]
fn arguments() {
    // PATH takes 1 to 6, PVAR 0 to 63, CONG and PCON 0 to 65,535.
    for (entry, good, bad) in [
        (7, vec![1, 6], vec![0, 7]),
        (19, vec![0, 31, 32, 63], vec![64, u32::MAX]),
        (8, vec![0, 65_535], vec![65_536, u32::MAX]),
        (18, vec![0, 65_535], vec![65_536]),
        (10, vec![0, 1, u32::MAX], vec![]),
    ] {
        for value in good {
            assert_eq!(with(&[(8 * entry + 1, value)]), (0, 0));
        }
        for value in bad {
            assert_eq!(with(&[(8 * entry + 1, value)]), (14, entry as u32));
        }
    }
    // All others take none.
    for entry in [0, 1, 2, 3, 4, 5, 6, 9, 11, 12, 13, 14, 15, 16, 17] {
        assert_eq!(with(&[(8 * entry + 1, 1)]), (14, entry as u32));
    }
}

#[test]
fn unused_words() {
    let words = every_kind();
    for entry in 0..20 {
        // A scope's mask has words 1 and 2, and its operand is word 3.
        let count = (words[8 * entry] % 16) as usize;
        let first = if entry == 10 { 3 } else { 2 };
        for word in first + count..8 {
            assert_eq!(with(&[(8 * entry + word, 1)]), (17, entry as u32));
        }
    }
}

#[test]
fn operands() {
    // Not above its own entry, or outside the table.
    assert_eq!(with(&[(8 * 3 + 2, 3)]), (15, 3));
    assert_eq!(with(&[(8 * 3 + 2, 2)]), (15, 3));
    assert_eq!(with(&[(8 * 3 + 2, 20)]), (15, 3));
    assert_eq!(with(&[(8 * 3 + 2, u32::MAX)]), (15, 3));
    assert_eq!(with(&[(3, 0)]), (15, 0));
    // Of the other sort.
    assert_eq!(with(&[(8 * 14 + 2, 16)]), (16, 14));
    assert_eq!(with(&[(8 * 18 + 3, 18)]), (15, 18));
    assert_eq!(with(&[(8 * 3 + 2, 19)]), (16, 3));
    // Of a kind above 19: the user is the lowest bad entry.
    assert_eq!(with(&[(8 * 19, 16 * 20)]), (16, 15));
    // Of the right kind but bad otherwise: the operand itself is bad.
    assert_eq!(with(&[(8 * 19 + 1, 64)]), (14, 19));
}

#[test]
fn calls() {
    // A CALL may name any REC, itself never being one.
    assert_eq!(with(&[(8 * 9 + 2, 6)]), (16, 9));
    assert_eq!(with(&[(8 * 9 + 2, 9)]), (16, 9));
    assert_eq!(with(&[(8 * 9 + 2, 20)]), (15, 9));
    assert_eq!(with(&[(8 * 9 + 2, 18)]), (16, 9));
    // A CALL of a malformed REC is good; the REC is the bad entry.
    let mut words = table(&[(CALL, 0, &[1]), (REC, 0, &[2]), (ID, 0, &[])]);
    assert_eq!(check_table(&words), (0, 0));
    words[8 + 2] = 1;
    assert_eq!(check_table(&words), (15, 1));
    words[8 + 2] = 2;
    words[8] += 1;
    assert_eq!(check_table(&words), (13, 1));
}

#[test]
fn the_first_fault_of_the_lowest_bad_entry() {
    // Entry 8 is CONG 65,535 with three operands. It gets all five faults, and
    // then loses them one by one in 02's order.
    let mut words = every_kind();
    let first = 8 * 8;
    words[first] += 4;
    words[first + 1] = 65_536;
    words[first + 2] = 19;
    words[first + 3] = 20;
    words[first + 7] = 1;
    assert_eq!(check_table(&words), (13, 8));
    words[first] -= 4;
    assert_eq!(check_table(&words), (14, 8));
    words[first + 1] = 65_535;
    // A wrong sort at the first place, an operand outside at the second.
    assert_eq!(check_table(&words), (15, 8));
    words[first + 3] = 12;
    assert_eq!(check_table(&words), (16, 8));
    words[first + 2] = 11;
    assert_eq!(check_table(&words), (17, 8));
    words[first + 7] = 0;
    assert_eq!(check_table(&words), (0, 0));
    // A lower entry decides, though its fault has a higher number.
    words[first] += 4;
    words[8 * 3 + 7] = 1;
    assert_eq!(check_table(&words), (17, 3));
    // An unknown kind has no other fault, whatever its words hold.
    let unknown = [16 * 20 + 3, 7, 9, 9, 9, 9, 9, 9];
    assert_eq!(check_table(&unknown), (13, 0));
}

#[test]
fn each_fault_of_a_call() {
    // Outside the table is 15; no REC is 16, itself included.
    let call = |operand: u32| check_table(&table(&[(REC, 0, &[1]), (CALL, 0, &[operand])]));
    assert_eq!(call(0), (0, 0));
    assert_eq!(call(1), (16, 1));
    assert_eq!(call(2), (15, 1));
    assert_eq!(call(u32::MAX), (15, 1));
    // A CALL of a kind above 19: the CALL is lower, and the fault is its own.
    let mut words = table(&[(CALL, 0, &[1]), (REC, 0, &[2]), (ID, 0, &[])]);
    words[8] = 16 * 20;
    assert_eq!(check_table(&words), (16, 0));
}

#[test]
fn three_is_never_given() {
    // Every word of a table of every kind, with values around its limits.
    let words = every_kind();
    for word in 0..words.len() {
        for value in [0, 1, 2, 7, 18, 19, 20, 32, 65_536, 16 * 20, u32::MAX] {
            let (answer, _) = with(&[(word, value)]);
            assert!(answer == 0 || (13..=17).contains(&answer));
        }
    }
}

#[test]
fn store_lengths_and_marks() {
    assert_eq!(check_store(&[], 0), (0, 0));
    assert_eq!(check_store(&[], 1), (2, 0));
    assert_eq!(check_store(&[0; 7], 0), (2, 0));
    assert_eq!(check_store(&[0; 8], 1), (0, 0));
    assert_eq!(check_store(&[0; 8], 2), (2, 0));
    assert_eq!(check_store(&[0; 8], u32::MAX), (2, 0));
    assert_eq!(check_store(&vec![0; 1_048_576], 131_072), (0, 0));
    assert_eq!(check_store(&vec![0; 1_048_584], 0), (2, 0));
}

#[test]
fn nodes() {
    let good = store(&[(0, &[]), (65_535, &[0]), (5, &[0, 1, 1, 0, 0, 1])], 4);
    assert_eq!(check_store(&good, 3), (0, 0));
    let changed = |word: usize, value: u32| {
        let mut words = good.clone();
        words[word] = value;
        check_store(&words, 3)
    };
    assert_eq!(changed(0, 65_536), (4, 0));
    assert_eq!(changed(1, 1), (4, 0));
    assert_eq!(changed(7, 1), (4, 0));
    assert_eq!(changed(8 + 1, 7), (4, 1));
    assert_eq!(changed(8 + 2, 1), (4, 1));
    assert_eq!(changed(8 + 3, 1), (4, 1));
    assert_eq!(changed(16 + 1, 7), (4, 2));
    assert_eq!(changed(16 + 1, 5), (4, 2));
    assert_eq!(changed(16 + 7, 2), (4, 2));
    assert_eq!(changed(16 + 7, u32::MAX), (4, 2));
    // Above the mark nothing is bad.
    assert_eq!(changed(24, u32::MAX), (0, 0));
    assert_eq!(check_store(&vec![u32::MAX; 64], 0), (0, 0));
}

/// Runs, expects a refusal, and sees that nothing was written.
fn refused(input: &Input, answer: u32, place: u32) {
    let after = run_with(
        &input.table,
        input.store.clone(),
        input.bindings.clone(),
        input.mark,
        input.start,
        input.subject,
        9,
    );
    let expected = outcome(answer, place, input.subject, input.mark, 0);
    assert_eq!(after.outcome, expected);
    assert_eq!(after.store, input.store);
    assert_eq!(after.bindings, input.bindings);
}

#[derive(Clone)]
struct Input {
    table: Vec<u32>,
    store: Vec<u32>,
    bindings: Vec<u32>,
    mark: u32,
    start: u32,
    subject: u32,
}

/// A good input with garbage above the mark.
fn good() -> Input {
    let mut words = small_store();
    for word in &mut words[24..] {
        *word = 9;
    }
    Input {
        table: every_kind(),
        store: words,
        bindings: vec![3; 64],
        mark: 3,
        start: 16,
        subject: 2,
    }
}

#[test]
fn runs_refused_by_number_and_in_order() {
    let mut input = good();
    let after = run_with(
        &input.table,
        input.store.clone(),
        input.bindings.clone(),
        3,
        16,
        2,
        9,
    );
    assert_eq!(after.outcome, outcome(0, 0, 2, 3, 1));

    // 5: the start, the subject, a binding.
    for start in [18, 19, 20, u32::MAX] {
        refused(&Input { start, ..good() }, 5, 0);
    }
    for subject in [3, 4, u32::MAX] {
        refused(&Input { subject, ..good() }, 5, 0);
    }
    for (variable, value) in [(0, 4), (32, 4), (63, 4), (7, u32::MAX)] {
        let mut other = good();
        other.bindings[variable] = value;
        refused(&other, 5, 0);
    }
    // No node at all: no subject can be below the mark.
    refused(
        &Input {
            store: vec![],
            bindings: vec![0; 64],
            mark: 0,
            subject: 0,
            ..good()
        },
        5,
        0,
    );

    // 4 before 5.
    input.subject = 3;
    input.store[16 + 2] = 2;
    refused(&input, 4, 2);
    input.store[8 + 1] = 1;
    input.store[8 + 2] = 1;
    refused(&input, 4, 1);
    // 13 to 17 before 4.
    input.table[8 * 19 + 1] = 64;
    refused(&input, 14, 19);
    input.table[8 * 18 + 2] = 18;
    refused(&input, 15, 18);
    input.table[8 * 15 + 2] = 17;
    refused(&input, 16, 15);
    input.table[8 * 15 + 2] = 15;
    refused(&input, 15, 15);
    input.table[8 * 14 + 2] = 17;
    refused(&input, 16, 14);
    input.table[8 * 4 + 7] = 1;
    refused(&input, 17, 4);
    input.table[8 * 3 + 2] = 1;
    refused(&input, 15, 3);
    input.table[0] += 1;
    refused(&input, 13, 0);
    // 2 before 13 to 17: each length, and the mark.
    refused(
        &Input {
            mark: 65,
            ..input.clone()
        },
        2,
        0,
    );
    for length in [0, 32, 63, 65, 72] {
        let mut other = input.clone();
        other.bindings.resize(length, 0);
        refused(&other, 2, 0);
    }
    for length in [511, 513, 1_048_584] {
        let mut other = input.clone();
        other.store.resize(length, 0);
        refused(&other, 2, 0);
    }
    for length in [0, 159, 161, 32_776] {
        let mut other = input.clone();
        other.table.resize(length, 0);
        refused(&other, 2, 0);
    }
}

#[test]
fn free_variables_of_strategies() {
    let words = every_kind();
    assert_eq!(free_variables(&words, 14), (0, 0, 1 << 63));
    assert_eq!(free_variables(&words, 13), (0, 0, 1 << 63));
    assert_eq!(free_variables(&words, 10), (0, 0, 0));
    assert_eq!(free_variables(&words, 15), (0, 0, 1 << 63));
    assert_eq!(free_variables(&words, 16), (0, 0, 0));
    // 2, 13 to 17 and 5, with mask 0.
    assert_eq!(free_variables(&[], 0), (2, 0, 0));
    assert_eq!(free_variables(&[0; 9], 0), (2, 0, 0));
    assert_eq!(free_variables(&words, 18), (5, 0, 0));
    assert_eq!(free_variables(&words, 19), (5, 0, 0));
    assert_eq!(free_variables(&words, 20), (5, 0, 0));
    assert_eq!(free_variables(&words, u32::MAX), (5, 0, 0));
    for (word, value, answer, place) in [
        (8 * 4, 16 * 20, 13, 4),
        (8 * 4 + 1, 1, 14, 4),
        (8 * 4 + 2, 4, 15, 4),
        (8 * 4 + 2, 19, 16, 4),
        (8 * 4 + 7, 1, 17, 4),
    ] {
        let mut bad = words.clone();
        bad[word] = value;
        // An entry of a kind above 19 makes its user, entry 1, the lowest.
        let expected = if answer == 13 {
            (16, 1, 0)
        } else {
            (answer, place, 0)
        };
        assert_eq!(free_variables(&bad, 20), expected);
        assert_eq!(free_variables(&bad, 16), expected);
    }
}

#[test]
fn free_variables_through_cycles() {
    // REC 0: SEQ(MATCH x0, SCOPE {0}. CALL 0); the least set is {0}.
    let words = table(&[
        (REC, 0, &[1]),
        (SEQ, 0, &[2, 3]),
        (MATCH, 0, &[5]),
        (SCOPE, 1, &[4]),
        (CALL, 0, &[0]),
        (PVAR, 0, &[]),
    ]);
    assert_eq!(free_variables(&words, 0), (0, 0, 1));
    assert_eq!(free_variables(&words, 3), (0, 0, 0));
    assert_eq!(free_variables(&words, 4), (0, 0, 1));
    // A REC that only calls itself has none.
    let words = table(&[(REC, 0, &[1]), (CALL, 0, &[0])]);
    assert_eq!(free_variables(&words, 0), (0, 0, 0));
    // Two that call each other have the same.
    let words = table(&[
        (LEFT, 0, &[1, 2]),
        (REC, 0, &[3]),
        (REC, 0, &[4]),
        (LEFT, 0, &[5, 6]),
        (LEFT, 0, &[7, 8]),
        (CALL, 0, &[2]),
        (MATCH, 0, &[9]),
        (CALL, 0, &[1]),
        (BUILD, 0, &[10]),
        (PVAR, 3, &[]),
        (PVAR, 9, &[]),
    ]);
    for entry in 0..6 {
        assert_eq!(free_variables(&words, entry), (0, 0, 1 << 3 | 1 << 9));
    }
}
