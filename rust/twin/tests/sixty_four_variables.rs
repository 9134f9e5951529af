//! 02, wish 9: sixty-four variables.

mod common;
use common::*;
use twin::{check_table, free_variables};

/// Runs MATCH of a variable inside a scope with a mask; the bindings after it.
fn bound_inside(variable: u64, mask: u64) -> Vec<u32> {
    let words = table(&[(SCOPE, mask, &[1]), (MATCH, 0, &[2]), (PVAR, variable, &[])]);
    let after = run_small(&words, small_store(), 2, 9);
    assert_eq!(after.outcome, outcome(0, 0, 2, 3, 3));
    after.bindings
}

#[test]
fn each_variable_has_its_own_word() {
    for variable in 0..64 {
        let words = table(&[(MATCH, 0, &[1]), (PVAR, variable, &[])]);
        let after = run_small(&words, small_store(), 2, 9);
        let mut expected = vec![0; 64];
        expected[variable as usize] = 3;
        assert_eq!(after.bindings, expected);
    }
}

#[test]
fn a_scope_hides_both_halves() {
    for variable in 0..64 {
        // Its own bit hides it; all other bits do not.
        assert_eq!(bound_inside(variable, 1 << variable), vec![0; 64]);
        assert_eq!(bound_inside(variable, u64::MAX), vec![0; 64]);
        let mut kept = vec![0; 64];
        kept[variable as usize] = 3;
        assert_eq!(bound_inside(variable, !(1 << variable)), kept);
        assert_eq!(bound_inside(variable, 0), kept);
        // The bit of the other half's variable does not hide it.
        assert_eq!(bound_inside(variable, 1 << (variable ^ 32)), kept);
    }
}

#[test]
fn outer_bindings_of_both_halves_are_put_back() {
    // SCOPE {3, 40}. SEQ(MATCH 5(v3, v40), MATCH v41).
    let words = table(&[
        (SCOPE, 1 << 3 | 1 << 40, &[1]),
        (SEQ, 0, &[2, 3]),
        (MATCH, 0, &[4]),
        (MATCH, 0, &[7]),
        (PCON, 5, &[5, 6]),
        (PVAR, 3, &[]),
        (PVAR, 40, &[]),
        (PVAR, 41, &[]),
    ]);
    let mut bindings = vec![0; 64];
    bindings[3] = 2;
    bindings[40] = 3;
    let after = run_with(&words, small_store(), bindings.clone(), 3, 0, 2, 99);
    assert_eq!(after.outcome, outcome(0, 0, 2, 3, 8));
    bindings[41] = 3;
    assert_eq!(after.bindings, bindings);
}

#[test]
fn a_failure_takes_back_both_halves() {
    // LEFT(SEQ(MATCH v50, FAIL), ID).
    let words = table(&[
        (LEFT, 0, &[1, 2]),
        (SEQ, 0, &[3, 4]),
        (ID, 0, &[]),
        (MATCH, 0, &[5]),
        (FAIL, 0, &[]),
        (PVAR, 50, &[]),
    ]);
    let after = run_small(&words, small_store(), 2, 99);
    assert_eq!(after.outcome, outcome(0, 0, 2, 3, 6));
    assert_eq!(after.bindings, vec![0; 64]);
}

#[test]
fn the_words_of_a_scope() {
    // Words 1 and 2 hold any mask, word 3 the operand, the others nothing.
    let good = [16 * SCOPE + 1, 5, 6, 1, 0, 0, 0, 0];
    let check = |change: &[(usize, u32)]| {
        let mut words = good.to_vec();
        words.extend(table(&[(ID, 0, &[]), (PVAR, 0, &[])]));
        for &(word, value) in change {
            words[word] = value;
        }
        check_table(&words)
    };
    assert_eq!(check(&[]), (0, 0));
    assert_eq!(check(&[(1, u32::MAX), (2, u32::MAX)]), (0, 0));
    assert_eq!(check(&[(1, 0), (2, 0)]), (0, 0));
    // The operand: not above its entry, outside the table, a pattern.
    assert_eq!(check(&[(3, 0)]), (15, 0));
    assert_eq!(check(&[(3, 3)]), (15, 0));
    assert_eq!(check(&[(3, 2)]), (16, 0));
    // Where 01 had the operand it is a part of the mask.
    assert_eq!(check(&[(2, 1), (3, 0)]), (15, 0));
    for word in 4..8 {
        assert_eq!(check(&[(word, 1)]), (17, 0));
    }
    for count in [0, 2, 5, 6, 15] {
        assert_eq!(check(&[(0, 16 * SCOPE + count)]), (13, 0));
    }
}

#[test]
fn variables_from_64_on_are_out_of_range() {
    for (variable, answer) in [
        (31, 0),
        (32, 0),
        (63, 0),
        (64, 14),
        (u64::from(u32::MAX), 14),
    ] {
        let words = table(&[(MATCH, 0, &[1]), (PVAR, variable, &[])]);
        let place = u32::from(answer != 0);
        assert_eq!(check_table(&words), (answer, place));
    }
}

#[test]
fn bindings_that_are_not_64_words() {
    let words = table(&[(ID, 0, &[])]);
    for length in [0, 32, 63, 65, 128] {
        let after = run_with(&words, small_store(), vec![0; length], 3, 0, 2, 9);
        assert_eq!(after.outcome, outcome(2, 0, 2, 3, 0));
    }
    // A word of the upper half that exceeds the mark.
    let mut bindings = vec![0; 64];
    bindings[63] = 4;
    let after = run_with(&words, small_store(), bindings, 3, 0, 2, 9);
    assert_eq!(after.outcome, outcome(5, 0, 2, 3, 0));
}

#[test]
fn free_masks_have_64_bits() {
    // SEQ(MATCH 5(v0, v32), SCOPE m. MATCH 5(v31, v63)).
    let with = |mask: u64| {
        let words = table(&[
            (SEQ, 0, &[1, 2]),
            (MATCH, 0, &[4]),
            (SCOPE, mask, &[3]),
            (MATCH, 0, &[7]),
            (PCON, 5, &[5, 6]),
            (PVAR, 0, &[]),
            (PVAR, 32, &[]),
            (PCON, 5, &[8, 9]),
            (PVAR, 31, &[]),
            (PVAR, 63, &[]),
        ]);
        free_variables(&words, 0)
    };
    let outside = 1 | 1 << 32;
    assert_eq!(with(0), (0, 0, outside | 1 << 31 | 1 << 63));
    assert_eq!(with(1 << 63), (0, 0, outside | 1 << 31));
    assert_eq!(with(1 << 31), (0, 0, outside | 1 << 63));
    assert_eq!(with(u64::MAX), (0, 0, outside));
}

#[test]
fn jobs() {
    // SCOPE m. MATCH v63: hidden by the highest bit alone.
    let job = |mask: &str| {
        let text = format!("job 9 0 0 1\ne 16 {} 1\ne 14 0 2\ne 18 63\nn 1\n", mask);
        job_spaced(&text)
    };
    let hidden = "answer 0 0 0 1 3\nn 1\n";
    let open = "answer 0 0 0 1 3\nn 1\nb 63 0\n";
    assert_eq!(job("9223372036854775808"), hidden);
    assert_eq!(job("18446744073709551615"), hidden);
    assert_eq!(job("9223372036854775807"), open);
    assert_eq!(job("4294967296"), open);
    assert_eq!(job("0"), open);
    let bad = "answer 9 2 0 0 0\n";
    assert_eq!(job("18446744073709551616"), bad);
    assert_eq!(job("99999999999999999999999999999999999999999999"), bad);
    assert_eq!(job("01"), bad);
    // Another kind's argument has 32 bits, a kind above 19 included.
    for kind in [0, 7, 9, 10, 15, 17, 18, 19, 20, 160, 255] {
        let text = format!("job 9 0 0 1\ne {} 4294967296\nn 1\n", kind);
        assert_eq!(job_spaced(&text), bad);
        let text = format!("job 9 0 0 1\ne {} 4294967295\nn 1\n", kind);
        assert!(!job_spaced(&text).starts_with("answer 9"));
    }
    // Operands and their number have 32 bits and are six at most, a scope's too.
    assert_eq!(job_spaced("job 9 0 0 1\ne 16 0 4294967296\nn 1\n"), bad);
    assert_eq!(job_spaced("job 9 0 0 1\ne 16 0 1 1 1 1 1 1 1\nn 1\n"), bad);
    for operands in ["", " 1 1", " 1 1 1 1 1", " 1 1 1 1 1 1"] {
        let text = format!("job 9 0 0 1\ne 16 7{}\ne 0 0\nn 1\n", operands);
        assert_eq!(job_spaced(&text), "answer 13 0 0 1 0\n");
    }
    // `b` lines.
    let after = job_spaced("job 9 0 0 1\ne 0 0\nn 1\nb 31 0\nb 32 0\nb 63 0\n");
    assert_eq!(after, "answer 0 0 0 1 1\nn 1\nb 31 0\nb 32 0\nb 63 0\n");
    let after = job_spaced("job 9 0 0 1\ne 0 0\nn 1\nb 64 0\n");
    assert_eq!(after, "answer 9 4 0 0 0\n");
    // A variable from 64 on in a table is 14.
    let after = job_spaced("job 9 0 0 1\ne 14 0 1\ne 18 64\nn 1\n");
    assert_eq!(after, "answer 14 1 0 1 0\n");
}
