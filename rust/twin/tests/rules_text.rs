//! 02, wish 5: rules as text, the translator and the writer.

mod common;
use common::*;
use twin::calls::{Call, CallCase, BUFFER, TEXT};
use twin::generate::rules_case;
use twin::{check_table, run, translate, with_big_stack, write_rule, Translated, Written};

/// Spaces as tabs.
fn tabbed(text: &str) -> Vec<u8> {
    text.replace(' ', "\t").into_bytes()
}

fn translated(answer: u32, line: u32, field: u32, entries: u32) -> Translated {
    Translated {
        answer,
        line,
        field,
        entries,
    }
}

/// Translates into a table with room for 100 entries of garbage after those in
/// use; what it gave, and the entries in use after it.
fn into(base: &[u32], text: &str) -> (Translated, Vec<u32>) {
    let mut table = base.to_vec();
    table.resize(base.len() + 800, 77);
    let before = table.clone();
    let in_use = base.len() as u32 / 8;
    let end = translate(&mut table, in_use, &tabbed(text));
    let used = 8 * end.entries as usize;
    // Words above the new entries stay as lent.
    assert_eq!(table[used..], before[used..]);
    if end.answer != 0 {
        assert_eq!(table, before);
    }
    (end, table[..used].to_vec())
}

/// The rows that a text adds to a table.
fn added(base: &[u32], text: &str) -> Vec<u32> {
    let (end, words) = into(base, text);
    let entries = words.len() as u32 / 8;
    assert_eq!(end, translated(0, 0, 0, entries), "{}", text);
    assert_eq!(words[..base.len()], *base);
    assert!(words.is_empty() || check_table(&words) == (0, 0));
    words[base.len()..].to_vec()
}

/// Expects a refusal.
fn refused(base: &[u32], text: &str, answer: u32, line: u32, field: u32) {
    let (end, _) = into(base, text);
    let expected = translated(answer, line, field, base.len() as u32 / 8);
    assert_eq!(end, expected, "{:?}", text);
}

/// Entry 0 is a REC without free variables, entry 2 one whose variable is free,
/// entry 5 one that calls it, and entry 7 one that hides it.
fn recs() -> Vec<u32> {
    table(&[
        (REC, 0, &[1]),
        (ID, 0, &[]),
        (REC, 0, &[3]),
        (MATCH, 0, &[4]),
        (PVAR, 9, &[]),
        (REC, 0, &[6]),
        (CALL, 0, &[2]),
        (REC, 0, &[8]),
        (SCOPE, 1 << 9, &[9]),
        (CALL, 0, &[5]),
    ])
}

#[test]
fn a_rule_becomes_scope_match_build() {
    // The swap rule of the printed job.
    let rows = added(&[], "5 2 v0 v1 5 2 v1 v0\n");
    let expected = table(&[
        (SCOPE, 3, &[1]),
        (SEQ, 0, &[2, 6]),
        (MATCH, 0, &[3]),
        (PCON, 5, &[4, 5]),
        (PVAR, 0, &[]),
        (PVAR, 1, &[]),
        (BUILD, 0, &[7]),
        (PCON, 5, &[8, 9]),
        (PVAR, 1, &[]),
        (PVAR, 0, &[]),
    ]);
    assert_eq!(rows, expected);
    // One variable to itself, and a rule without variables: mask 0.
    let expected = table(&[
        (SCOPE, 1 << 63, &[1]),
        (SEQ, 0, &[2, 4]),
        (MATCH, 0, &[3]),
        (PVAR, 63, &[]),
        (BUILD, 0, &[5]),
        (PVAR, 63, &[]),
    ]);
    assert_eq!(added(&[], "v63 v63\n"), expected);
    let expected = table(&[
        (SCOPE, 0, &[1]),
        (SEQ, 0, &[2, 4]),
        (MATCH, 0, &[3]),
        (PCON, 65_535, &[]),
        (BUILD, 0, &[5]),
        (PCON, 0, &[]),
    ]);
    assert_eq!(added(&[], "65535 0 0 0\n"), expected);
}

#[test]
fn terms_are_in_prefix_form_and_preorder() {
    // 1(2(v0, 3()), v0, 4(5(), v1)) to v1; every occurrence has its entry.
    let rows = added(&[], "1 3 2 2 v0 3 0 v0 4 2 5 0 v1 v1\n");
    let expected = table(&[
        (SCOPE, 3, &[1]),
        (SEQ, 0, &[2, 11]),
        (MATCH, 0, &[3]),
        (PCON, 1, &[4, 7, 8]),
        (PCON, 2, &[5, 6]),
        (PVAR, 0, &[]),
        (PCON, 3, &[]),
        (PVAR, 0, &[]),
        (PCON, 4, &[9, 10]),
        (PCON, 5, &[]),
        (PVAR, 1, &[]),
        (BUILD, 0, &[12]),
        (PVAR, 1, &[]),
    ]);
    assert_eq!(rows, expected);
}

#[test]
fn conditions_stand_between_match_and_build() {
    // v0 to v2 where REC 0 from v0 gives 4(v1), and REC 7 from v1 gives v2.
    let rows = added(&recs(), "v0 v2 0 v0 4 1 v1 7 v1 v2\n");
    let expected = table(&[
        (SCOPE, 7, &[11]),   // 10
        (SEQ, 0, &[12, 14]), // 11
        (MATCH, 0, &[13]),   // 12
        (PVAR, 0, &[]),      // 13
        (SEQ, 0, &[15, 24]), // 14
        (WHERE, 0, &[16]),   // 15
        (SEQ, 0, &[17, 19]), // 16
        (BUILD, 0, &[18]),   // 17
        (PVAR, 0, &[]),      // 18
        (SEQ, 0, &[20, 21]), // 19
        (CALL, 0, &[0]),     // 20
        (MATCH, 0, &[22]),   // 21
        (PCON, 4, &[23]),    // 22
        (PVAR, 1, &[]),      // 23
        (SEQ, 0, &[25, 33]), // 24
        (WHERE, 0, &[26]),   // 25
        (SEQ, 0, &[27, 29]), // 26
        (BUILD, 0, &[28]),   // 27
        (PVAR, 1, &[]),      // 28
        (SEQ, 0, &[30, 31]), // 29
        (CALL, 0, &[7]),     // 30
        (MATCH, 0, &[32]),   // 31
        (PVAR, 2, &[]),      // 32
        (BUILD, 0, &[34]),   // 33
        (PVAR, 2, &[]),      // 34
    ]);
    assert_eq!(rows, expected);
    // A variable that only a condition has is the scope's too.
    let rows = added(&recs(), "1 0 1 0 0 1 0 v40\n");
    assert_eq!(rows[1..4], [0, 1 << 8, 11]);
}

#[test]
fn rules_follow_one_another() {
    let one = added(&recs(), "v0 v0\n");
    let both = added(&recs(), "v0 v0\n1 0 2 0\n");
    assert_eq!(both[..one.len()], one[..]);
    let second = table(&[
        (SCOPE, 0, &[17]),
        (SEQ, 0, &[18, 20]),
        (MATCH, 0, &[19]),
        (PCON, 1, &[]),
        (BUILD, 0, &[21]),
        (PCON, 2, &[]),
    ]);
    assert_eq!(both[one.len()..], second[..]);
    // Empty text holds no rule, with entries in use and without.
    assert_eq!(added(&recs(), ""), Vec::<u32>::new());
    assert_eq!(added(&[], ""), Vec::<u32>::new());
}

#[test]
fn text_outside_the_grammar() {
    let bad = |text: &str, field: u32| refused(&recs(), text, 18, 1, field);
    // A blank line is one empty field.
    bad("\n", 1);
    bad("\n\n", 1);
    // Cut short: one past the last.
    bad("v0\n", 2);
    bad("1\n", 2);
    bad("1 2\n", 3);
    bad("1 2 v0\n", 4);
    bad("1 2 v0 v1\n", 5);
    bad("v0 v0 0\n", 4);
    bad("v0 v0 0 v0\n", 5);
    bad("v0 v0 0 v0 1\n", 6);
    bad("v0 v0 0 v0 1 1\n", 7);
    bad("v0 v0 0 v0 v0 0\n", 7);
    // An empty field, a space, a carriage return, another letter.
    bad(" v0 v0\n", 1);
    bad("v0  v0\n", 2);
    bad("v0 v0 \n", 3);
    bad("v0 v0\r\n", 2);
    bad("V0 v0\n", 1);
    bad("x v0\n", 1);
    bad("v v0\n", 1);
    bad("vv0 v0\n", 1);
    bad("v0x v0\n", 1);
    bad("+1 0 v0\n", 1);
    // Leading zeros.
    bad("v00 v0\n", 1);
    bad("00 0 v0\n", 1);
    bad("0 00 v0\n", 2);
    bad("v0 v0 00 v0 v0\n", 3);
    // Constructors to 65,535 and counts to 6.
    bad("65536 0 1 0\n", 1);
    bad("1 7 v0 v0 v0 v0 v0 v0 v0 v0\n", 2);
    bad("1 v0 v0\n", 2);
    bad("1 1 65536 0 v0\n", 3);
    added(&[], "65535 6 v0 v0 v0 v0 v0 v0 v0\n");
    // Variables and numbers of conditions to 4,294,967,295.
    bad("v4294967296 v0\n", 1);
    bad("v0 v0 4294967296 v0 v0\n", 3);
    bad("v0 v0 v0 v0 v0\n", 3);
    bad("v99999999999999999999999999999999999999999 v0\n", 1);
    refused(&recs(), "v4294967295 v4294967295\n", 20, 1, 0);
    refused(&recs(), "v0 v0 4294967295 v0 v0\n", 22, 1, 0);
    // The first bad field of several.
    bad("v0 x y\n", 2);
    bad("1 1 x\n", 3);
}

#[test]
fn bytes_that_are_no_text() {
    for byte in [0u8, 0x0b, b' ', b'/', b':', 0x80, 0xff] {
        let mut table = vec![0; 80];
        let end = translate(&mut table, 0, &[b'v', b'0', b'\t', byte, b'\n']);
        assert_eq!(end, translated(18, 1, 2, 0));
        let end = translate(&mut table, 0, &[b'v', b'0', b'\t', b'v', byte, b'\n']);
        assert_eq!(end, translated(18, 1, 2, 0));
        let end = translate(&mut table, 0, &[byte]);
        assert_eq!(end, translated(18, 1, 1, 0));
    }
}

#[test]
fn a_last_line_without_its_line_feed() {
    refused(&[], "v0 v0", 18, 1, 3);
    refused(&[], "v0", 18, 1, 2);
    refused(&[], "v", 18, 1, 1);
    refused(&[], "v0 x", 18, 1, 2);
    refused(&[], "v0 v0\n1 1 v0 v0", 18, 2, 5);
    // It is outside the grammar before it is anything else.
    refused(&[], "v0 v1", 18, 1, 3);
}

#[test]
fn variables_not_bound_before() {
    let base = recs();
    // A right-hand variable that nothing binds.
    refused(&base, "v0 v1\n", 19, 1, 0);
    refused(&base, "1 0 2 1 v0\n", 19, 1, 0);
    // A starting variable that nothing binds, or only its own pattern or a later
    // condition.
    refused(&base, "v0 v0 0 v1 v0\n", 19, 1, 0);
    refused(&base, "v0 v0 0 v1 v1\n", 19, 1, 0);
    refused(&base, "v0 v0 0 v1 v2 0 v0 v1\n", 19, 1, 0);
    // The right term does not bind for a condition.
    refused(&base, "v0 v1 0 v1 v0\n", 19, 1, 0);
    // A pattern binds for later conditions and for the right term.
    added(&base, "v0 v1 0 v0 v1\n");
    added(&base, "v0 v2 0 v0 v1 0 v1 v2\n");
    // A variable in the left term or in a pattern needs no binding.
    added(&base, "2 2 v0 v0 1 0 0 1 0 v5\n");
}

#[test]
fn the_order_within_a_line() {
    let base = recs();
    // 20: a variable from 64 on, wherever it stands.
    for text in [
        "v64 v64\n",
        "v64 1 0\n",
        "v0 v0 0 v0 v64\n",
        "v0 v64 0 v0 v64\n",
    ] {
        refused(&base, text, 20, 1, 0);
    }
    added(&base, "v63 v63\n");
    // 22: no REC, no entry in use, a REC with a free variable.
    for number in [1, 3, 4, 6, 8, 9, 10, 11, 109, 110, u32::MAX] {
        refused(&base, &format!("v0 v0 {} v0 v0\n", number), 22, 1, 0);
    }
    for number in [2, 5] {
        refused(&base, &format!("v0 v0 {} v0 v0\n", number), 22, 1, 0);
    }
    for number in [0, 7] {
        added(&base, &format!("v0 v0 {} v0 v0\n", number));
    }
    refused(&base, "v0 v0 0 v0 v0 1 v0 v0\n", 22, 1, 0);
    // 18 before 19 before 20 before 22, each of the whole line.
    refused(&base, "v0 v1 1 v64 v65 x\n", 18, 1, 6);
    refused(&base, "v0 v65 1 v64 v65\n", 19, 1, 0);
    refused(&base, "v0 v65 1 v0 v65\n", 20, 1, 0);
    refused(&base, "v0 v5 1 v0 v5\n", 22, 1, 0);
    refused(&base, "v64 v1\n", 19, 1, 0);
    // A rule's own entries are no RECs for the next.
    refused(&base, "v0 v0\nv0 v0 10 v0 v0\n", 22, 2, 0);
}

#[test]
fn the_first_bad_line_decides() {
    let base = recs();
    refused(&base, "v0 v0\nv0 v1\nx\n", 19, 2, 0);
    refused(&base, "v0 v0\nv0 v0\nx\n", 18, 3, 1);
    refused(&base, "v0 v0\n\nv0 v0\n", 18, 2, 1);
    refused(&base, "v0 v0 1 v0 v0\nx", 22, 1, 0);
}

/// Translates into a table with room for so many entries.
fn with_room(entries: usize, in_use: u32, text: &str) -> Translated {
    let mut table = recs();
    table.resize(8 * entries, 0);
    let before = table.clone();
    let end = translate(&mut table, in_use, &tabbed(text));
    assert!(end.answer == 0 || table == before);
    end
}

#[test]
fn a_table_that_would_pass_its_length() {
    // Six entries for the shortest rule.
    assert_eq!(with_room(16, 10, "v0 v0\n"), translated(0, 0, 0, 16));
    assert_eq!(with_room(15, 10, "v0 v0\n"), translated(23, 1, 0, 10));
    assert_eq!(with_room(10, 10, "v0 v0\n"), translated(23, 1, 0, 10));
    assert_eq!(with_room(10, 10, ""), translated(0, 0, 0, 10));
    assert_eq!(
        with_room(21, 10, "v0 v0\nv0 v0\n"),
        translated(23, 2, 0, 10)
    );
    assert_eq!(with_room(22, 10, "v0 v0\nv0 v0\n"), translated(0, 0, 0, 22));
    // After 18 to 22 of the same line, before those of a later one.
    assert_eq!(with_room(15, 10, "v0 v1\n"), translated(19, 1, 0, 10));
    assert_eq!(
        with_room(15, 10, "v0 v0 1 v0 v0\n"),
        translated(22, 1, 0, 10)
    );
    assert_eq!(with_room(15, 10, "v0 v0\nx\n"), translated(23, 1, 0, 10));
    // 4,096 entries: a chain of 4,081 links over v0, and six entries around it.
    let links = |count: usize| format!("{}v0 v0\n", "7 1 ".repeat(count));
    assert_eq!(
        with_room(4_096, 10, &links(4_080)),
        translated(0, 0, 0, 4_096)
    );
    assert_eq!(
        with_room(4_096, 10, &links(4_081)),
        translated(23, 1, 0, 10)
    );
    assert_eq!(
        with_room(4_096, 10, &links(90_000)),
        translated(23, 1, 0, 10)
    );
    let cut = format!("{}\n", "7 1 ".repeat(90_000).trim_end());
    assert_eq!(with_room(4_096, 10, &cut), translated(18, 1, 180_001, 10));
}

#[test]
fn the_lent_table() {
    // 2: the lent length, or more in use.
    for length in [0, 1, 7, 9, 79, 81, 32_769, 32_776] {
        let mut table = recs();
        table.resize(length, 0);
        let before = table.clone();
        let end = translate(&mut table, 0, b"x");
        assert_eq!(end, translated(2, 0, 0, 0), "{}", length);
        assert_eq!(table, before);
        let end = write_rule(&table, 0, 0, &mut []);
        assert_eq!(end, written(2, 0, 0));
    }
    assert_eq!(with_room(10, 11, "x"), translated(2, 0, 0, 11));
    assert_eq!(with_room(10, u32::MAX, "x"), translated(2, 0, 0, u32::MAX));
    // The entries in use are a table of their own: 15 where an operand is lent
    // but not in use, and the entry stands for the line.
    assert_eq!(with_room(10, 9, "x"), translated(15, 8, 0, 9));
    assert_eq!(with_room(10, 1, "x"), translated(15, 0, 0, 1));
    assert_eq!(with_room(10, 2, ""), translated(0, 0, 0, 2));
    assert_eq!(with_room(10, 0, ""), translated(0, 0, 0, 0));
    // Each fault, before any line; what is not in use is not looked at.
    for (word, value, answer, entry) in [
        (8, 16 * 20, 16, 0),
        (8, 17, 13, 1),
        (9, 1, 14, 1),
        (2, 0, 15, 0),
        (2, 4, 16, 0),
        (15, 3, 17, 1),
    ] {
        let mut table = recs();
        table.resize(160, u32::MAX);
        table[word] = value;
        let before = table.clone();
        let end = translate(&mut table, 10, b"x");
        assert_eq!(end, translated(answer, entry, 0, 10), "{}", word);
        assert_eq!(table, before);
        let mut buffer = [7; 9];
        let end = write_rule(&table, 10, 99, &mut buffer);
        assert_eq!(end, written(answer, entry, 0));
        assert_eq!(buffer, [7; 9]);
    }
}

fn written(answer: u32, place: u32, length: u32) -> Written {
    Written {
        answer,
        place,
        length,
    }
}

/// Writes the rule at an entry into a buffer of so many bytes of garbage.
fn write_at(words: &[u32], entry: u32, bytes: usize) -> (Written, Vec<u8>) {
    let mut buffer = vec![b'?'; bytes];
    let end = write_rule(words, words.len() as u32 / 8, entry, &mut buffer);
    (end, buffer)
}

#[test]
fn the_writer_prints_the_same_bytes() {
    for text in [
        "v0 v0\n",
        "5 2 v0 v1 5 2 v1 v0\n",
        "65535 0 0 0\n",
        "v63 7 6 v63 v63 v63 v63 v63 v63\n",
        "v0 v2 0 v0 4 1 v1 7 v1 v2\n",
        "1 3 2 2 v0 3 0 v0 4 2 5 0 v1 v1 7 1 0 2 0\n",
    ] {
        let (end, words) = into(&recs(), text);
        assert_eq!(end.answer, 0);
        let line = tabbed(text);
        let (end, buffer) = write_at(&words, 10, line.len());
        assert_eq!(end, written(0, 0, line.len() as u32));
        assert_eq!(buffer, line);
        // Later bytes of the buffer stay.
        let (end, buffer) = write_at(&words, 10, line.len() + 5);
        assert_eq!(end, written(0, 0, line.len() as u32));
        assert_eq!(buffer[..line.len()], line[..]);
        assert_eq!(buffer[line.len()..], *b"?????");
        // Too short: 26, and nothing is written.
        for bytes in [0, 1, line.len() - 1] {
            let (end, buffer) = write_at(&words, 10, bytes);
            assert_eq!(end, written(26, 0, 0));
            assert_eq!(buffer, vec![b'?'; bytes]);
        }
    }
    // The second of two rules.
    let (_, words) = into(&recs(), "v0 v0\n1 0 2 0\n");
    let (end, buffer) = write_at(&words, 16, 8);
    assert_eq!(end, written(0, 0, 8));
    assert_eq!(buffer, tabbed("1 0 2 0\n"));
    // The RECs may stand after the rule: REC ID as entries 14 and 15.
    let words = table(&[
        (SCOPE, 1, &[1]),
        (SEQ, 0, &[2, 4]),
        (MATCH, 0, &[3]),
        (PVAR, 0, &[]),
        (SEQ, 0, &[5, 13]),
        (WHERE, 0, &[6]),
        (SEQ, 0, &[7, 9]),
        (BUILD, 0, &[8]),
        (PVAR, 0, &[]),
        (SEQ, 0, &[10, 11]),
        (CALL, 0, &[15]),
        (MATCH, 0, &[12]),
        (PVAR, 0, &[]),
        (BUILD, 0, &[14]),
        (PVAR, 0, &[]),
        (REC, 0, &[16]),
        (ID, 0, &[]),
    ]);
    let (end, buffer) = write_at(&words, 0, 18);
    assert_eq!(end, written(0, 0, 15));
    assert_eq!(buffer[..15], tabbed("v0 v0 15 v0 v0\n")[..]);
}

#[test]
fn an_entry_that_starts_no_rule() {
    let (_, words) = into(&recs(), "2 1 v0 v1 0 v0 4 1 v1\n");
    let no_rule = |words: &[u32], entry: u32| {
        assert!(check_table(words) == (0, 0), "{:?}", check_table(words));
        let (end, buffer) = write_at(words, entry, 99);
        assert_eq!(end, written(5, 0, 0));
        assert_eq!(buffer, vec![b'?'; 99]);
    };
    assert_eq!(write_at(&words, 10, 99).0.answer, 0);
    // Every other entry, and those not in use.
    for entry in (0..10).chain(11..28).chain([u32::MAX]) {
        no_rule(&words, entry);
    }
    // One change each: the table is good, and the rule is none of ours.
    let changed = |entry: usize, word: usize, value: u32| {
        let mut words = words.clone();
        assert_ne!(words[8 * entry + word], value);
        words[8 * entry + word] = value;
        no_rule(&words, 10);
    };
    // The mask: a variable too many, one too few, one of the other half.
    changed(10, 1, 7);
    changed(10, 1, 1);
    changed(10, 2, 1);
    // 10 SCOPE, 11 SEQ 12 15, 12 MATCH, 13 PCON 14, 14 PVAR 0, 15 SEQ 16 25,
    // 16 WHERE, 17 SEQ 18 20, 18 BUILD, 19 PVAR 0, 20 SEQ 21 22, 21 CALL,
    // 22 MATCH, 23 PCON 24, 24 PVAR 1, 25 BUILD, 26 PVAR 1.
    // Another variable: the mask does not fit, or it is not bound.
    changed(14, 1, 1);
    changed(14, 1, 2);
    changed(24, 1, 0);
    changed(26, 1, 5);
    // Shared and skipped entries.
    changed(18, 2, 24);
    changed(13, 2, 19);
    changed(11, 3, 16);
    changed(15, 3, 18);
    changed(20, 3, 25);
    // The order of the operands of a SEQ.
    let mut swapped = words.clone();
    swapped.swap(8 * 11 + 2, 8 * 11 + 3);
    no_rule(&swapped, 10);
    // A REC that has a free variable; another kind where one is asked for.
    changed(21, 2, 2);
    changed(21, 2, 5);
    changed(16, 0, 16 * TEST + 1);
    changed(22, 0, 16 * BUILD + 1);
    changed(12, 0, 16 * BUILD + 1);
    changed(25, 0, 16 * MATCH + 1);
    changed(11, 0, 16 * LEFT + 2);
    // Another closed REC makes another rule.
    let mut other = words.clone();
    other[8 * 21 + 2] = 7;
    let (end, buffer) = write_at(&other, 10, 99);
    assert_eq!(end.answer, 0);
    let line = tabbed("2 1 v0 v1 7 v0 4 1 v1\n");
    assert_eq!(buffer[..line.len()], line[..]);
}

#[test]
fn generated_there_and_back() {
    let mut seen = [[0; 100]; 2];
    for number in 0..6_000 {
        let case = rules_case(81, number);
        assert_eq!(CallCase::parse(&case.line()).as_ref(), Ok(&case));
        let label = &case.run.label;
        let in_use = case.run.mark;
        if case.call == Call::Write {
            let mut buffer = case.bytes(BUFFER);
            let end = write_rule(&case.run.table, in_use, case.run.start, &mut buffer);
            seen[1][end.answer as usize] += 1;
            if end.answer != 0 {
                assert_eq!(buffer, case.bytes(BUFFER), "{}", label);
                continue;
            }
            // Write then translate gives the same entries, numbered from there.
            // The RECs of a rule that stands before them are not in use there.
            let first = case.run.start;
            let mut table = case.run.table.clone();
            let line = &buffer[..end.length as usize];
            let again = translate(&mut table, first, line);
            if again.answer == 0 {
                let words = 8 * first as usize..8 * again.entries as usize;
                assert_eq!(table[words.clone()], case.run.table[words], "{}", label);
                seen[1][99] += 1;
            }
            continue;
        }
        let text = case.bytes(TEXT);
        let mut table = case.run.table.clone();
        let end = translate(&mut table, in_use, &text);
        seen[0][end.answer as usize] += 1;
        if end.answer != 0 {
            assert_eq!(table, case.run.table, "{}", label);
            assert_eq!(end.entries, in_use, "{}", label);
            continue;
        }
        // What is in use is a good table, and the rest stays as lent.
        let used = 8 * end.entries as usize;
        assert!(
            used == 0 || check_table(&table[..used]) == (0, 0),
            "{}",
            label
        );
        assert_eq!(table[used..], case.run.table[used..], "{}", label);
        let before = 8 * in_use as usize;
        assert_eq!(table[..before], case.run.table[..before], "{}", label);
        // Translate then write gives the same bytes.
        let mut entry = in_use;
        for line in text.split_inclusive(|&byte| byte == b'\n') {
            let mut buffer = vec![0; line.len()];
            let back = write_rule(&table, end.entries, entry, &mut buffer);
            assert_eq!(back, written(0, 0, line.len() as u32), "{}", label);
            assert_eq!(buffer, line, "{}", label);
            let mut alone = table.clone();
            entry = translate(&mut alone, entry, line).entries;
        }
        assert_eq!(entry, end.entries, "{}", label);
    }
    for answer in [0, 2, 13, 14, 15, 16, 17, 18, 19, 20, 22, 23] {
        assert!(seen[0][answer] > 3, "{} {}", answer, seen[0][answer]);
    }
    for answer in [0, 2, 5, 13, 14, 15, 16, 17, 26, 99] {
        assert!(seen[1][answer] > 3, "{} {}", answer, seen[1][answer]);
    }
}

mod meaning {
    //! A rule's own definition, written without the table: match the left term,
    //! each condition in turn, build the right term, with bindings of its own.

    use std::collections::BTreeMap;

    /// A term as a value.
    #[derive(Clone, Debug, PartialEq, Eq, PartialOrd, Ord)]
    pub struct Value(pub u32, pub Vec<Value>);

    /// A term of a rule.
    #[derive(Clone, Debug)]
    pub enum Term {
        Variable(u32),
        Node(u32, Vec<Term>),
    }

    pub type Bindings = BTreeMap<u32, Value>;

    /// The value of a node of a store.
    pub fn value(store: &[u32], node: u32) -> Value {
        let row = &store[8 * node as usize..8 * node as usize + 8];
        let children = &row[2..2 + row[1] as usize];
        Value(
            row[0],
            children.iter().map(|&child| value(store, child)).collect(),
        )
    }

    /// Adds a value's nodes to a store's words; its node.
    pub fn put(words: &mut Vec<u32>, value: &Value) -> u32 {
        let children: Vec<u32> = value.1.iter().map(|child| put(words, child)).collect();
        let mut row = vec![value.0, children.len() as u32];
        row.extend(children);
        row.resize(8, 0);
        words.extend(row);
        words.len() as u32 / 8 - 1
    }

    /// Reads a term from a line's fields.
    pub fn term<'a>(fields: &mut impl Iterator<Item = &'a str>) -> Term {
        let field = fields.next().expect("the line is a rule");
        match field.strip_prefix('v') {
            Some(name) => Term::Variable(name.parse().unwrap()),
            None => {
                let count: u32 = fields.next().unwrap().parse().unwrap();
                let children = (0..count).map(|_| term(fields)).collect();
                Term::Node(field.parse().unwrap(), children)
            }
        }
    }

    pub fn matches(term: &Term, value: &Value, bindings: &mut Bindings) -> bool {
        match term {
            Term::Variable(name) => match bindings.get(name) {
                Some(bound) => bound == value,
                None => {
                    bindings.insert(*name, value.clone());
                    true
                }
            },
            Term::Node(constructor, children) => {
                *constructor == value.0
                    && children.len() == value.1.len()
                    && children
                        .iter()
                        .zip(&value.1)
                        .all(|(child, part)| matches(child, part, bindings))
            }
        }
    }

    pub fn build(term: &Term, bindings: &Bindings) -> Value {
        match term {
            Term::Variable(name) => bindings[name].clone(),
            Term::Node(constructor, children) => {
                let children = children.iter().map(|child| build(child, bindings));
                Value(*constructor, children.collect())
            }
        }
    }
}

/// What running an entry on a value gives: the answer and the new value.
fn run_on(table: &[u32], start: u32, value: &meaning::Value) -> (u32, meaning::Value) {
    let mut store = Vec::new();
    let subject = meaning::put(&mut store, value);
    let mark = store.len() as u32 / 8;
    store.resize(8 * 4_000, 0);
    let mut bindings = vec![0; 64];
    // Bindings of the start are hidden and put back.
    bindings[0] = 1;
    bindings[1] = mark;
    let given = bindings.clone();
    let end = run(
        table,
        &mut store,
        &mut bindings,
        mark,
        start,
        subject,
        30_000,
    );
    assert_eq!(bindings, given);
    (end.answer, meaning::value(&store, end.subject))
}

/// What the rule's own definition gives: the new value, or a failure, or the
/// answer of a condition's run that was cut off.
fn by_definition(table: &[u32], line: &str, value: &meaning::Value) -> Result<meaning::Value, u32> {
    let mut fields = line.trim_end().split('\t');
    let left = meaning::term(&mut fields);
    let right = meaning::term(&mut fields);
    let mut bindings = meaning::Bindings::new();
    if !meaning::matches(&left, value, &mut bindings) {
        return Err(1);
    }
    while let Some(rec) = fields.next() {
        let start = meaning::term(&mut fields);
        let pattern = meaning::term(&mut fields);
        let from = meaning::build(&start, &bindings);
        let (answer, outcome) = run_on(table, rec.parse().unwrap(), &from);
        if answer != 0 {
            return Err(answer);
        }
        if !meaning::matches(&pattern, &outcome, &mut bindings) {
            return Err(1);
        }
    }
    Ok(meaning::build(&right, &bindings))
}

#[test]
fn a_rules_entries_behave_as_its_own_definition() {
    use meaning::Value;
    // Entry 0: REC ID. Entry 2: REC of 1() to 2(). Entry 8: REC FAIL. Entry 10:
    // REC of BUILD of a variable that is unbound. Entry 14: REC that wraps in 6.
    let base = table(&[
        (REC, 0, &[1]),
        (ID, 0, &[]),
        (REC, 0, &[3]),
        (SEQ, 0, &[4, 6]),
        (MATCH, 0, &[5]),
        (PCON, 1, &[]),
        (BUILD, 0, &[7]),
        (PCON, 2, &[]),
        (REC, 0, &[9]),
        (FAIL, 0, &[]),
        (REC, 0, &[11]),
        (SCOPE, 1, &[12]),
        (BUILD, 0, &[13]),
        (PVAR, 0, &[]),
        (REC, 0, &[15]),
        (SCOPE, 1, &[16]),
        (SEQ, 0, &[17, 19]),
        (MATCH, 0, &[18]),
        (PVAR, 0, &[]),
        (BUILD, 0, &[20]),
        (PCON, 6, &[21]),
        (PVAR, 0, &[]),
    ]);
    let lines = [
        "v0 v0\n",
        "5 2 v0 v1 5 2 v1 v0\n",
        "5 2 v0 v0 v0\n",
        "5 2 v0 v1 v2 2 v0 v2\n",
        "5 2 v0 v1 7 1 v2 2 v1 v2\n",
        "v0 v1 14 v0 v1\n",
        "v0 v2 14 v0 v1 14 v1 v2\n",
        "v0 v0 14 v0 6 1 v0\n",
        "v0 1 0 14 v0 v0\n",
        "v0 v0 8 v0 v1\n",
        "v0 v0 10 v0 v1\n",
        "5 2 v0 v1 v1 0 5 2 v1 v0 5 2 v0 v1\n",
        "5 2 v0 v1 v3 0 4 1 v0 4 1 v2 2 v2 v3\n",
    ];
    let leaf = |name: u32| Value(name, vec![]);
    let pair = |a: &Value, b: &Value| Value(5, vec![a.clone(), b.clone()]);
    let (one, two, three) = (leaf(1), leaf(2), leaf(3));
    let values = [
        one.clone(),
        two.clone(),
        pair(&one, &two),
        pair(&two, &one),
        pair(&one, &one),
        pair(&pair(&one, &two), &pair(&one, &two)),
        pair(&one, &three),
        Value(6, vec![one.clone()]),
    ];
    let mut seen = [0; 20];
    for text in lines {
        let line = text.replace(' ', "\t");
        let (end, words) = into(&base, text);
        assert_eq!(end.answer, 0, "{}", text);
        for value in &values {
            let (answer, outcome) = run_on(&words, 22, value);
            seen[answer as usize] += 1;
            match by_definition(&words, &line, value) {
                Ok(expected) => assert_eq!((answer, outcome), (0, expected), "{}", text),
                Err(expected) => {
                    assert_eq!((answer, &outcome), (expected, value), "{}", text)
                }
            }
        }
    }
    assert!(seen[0] > 20 && seen[1] > 20 && seen[12] > 5, "{:?}", seen);
}

#[test]
fn generated_rules_behave_as_their_own_definition() {
    let (done, failed) = with_big_stack(|| {
        let mut done = 0;
        let mut failed = 0;
        for number in 0..4_000 {
            let case = rules_case(82, number);
            if case.call != Call::Translate {
                continue;
            }
            let text = case.bytes(TEXT);
            let mut words = case.run.table.clone();
            let mut entry = case.run.mark;
            let end = translate(&mut words, entry, &text);
            if end.answer != 0 || end.entries > 300 {
                continue;
            }
            words.truncate(8 * end.entries as usize);
            for line in text.split_inclusive(|&byte| byte == b'\n') {
                let line = String::from_utf8(line.to_vec()).unwrap();
                // The left term itself, its variables standing for 1(), 2() and so
                // on: mostly the rule applies to it.
                let left = meaning::term(&mut line.trim_end().split('\t'));
                for shift in 0..2 {
                    let bindings: meaning::Bindings = (0..64)
                        .map(|name| (name, meaning::Value(1 + shift * name % 3, vec![])))
                        .collect();
                    let value = meaning::build(&left, &bindings);
                    let (answer, outcome) = run_on(&words, entry, &value);
                    match by_definition(&words, &line, &value) {
                        Ok(expected) => {
                            assert_eq!((answer, outcome), (0, expected), "{}", line);
                            done += 1;
                        }
                        Err(1) => {
                            assert_eq!((answer, outcome), (1, value), "{}", line);
                            failed += 1;
                        }
                        // A cut-off's limits are those of the whole run.
                        Err(_) => assert!(answer > 1, "{}", line),
                    }
                }
                let mut alone = words.clone();
                alone.resize(32_768, 0);
                entry = translate(&mut alone, entry, line.as_bytes()).entries;
            }
        }
        (done, failed)
    });
    assert!(done > 300 && failed > 50, "{} {}", done, failed);
}

#[test]
fn a_translated_rule_in_a_job() {
    // 5(v0, v1) to 5(v1, v0), as the printed job has it.
    let words = added(&[], "5 2 v0 v1 5 2 v1 v0\n");
    let mut job = String::from("job 11 0 2 4\n");
    for row in words.chunks(8) {
        let kind = row[0] / 16;
        let first = if kind == SCOPE { 3 } else { 2 };
        job.push_str(&format!("e {} {}", kind, row[1]));
        for operand in &row[first..first + (row[0] % 16) as usize] {
            job.push_str(&format!(" {}", operand));
        }
        job.push('\n');
    }
    job.push_str("n 1\nn 2\nn 5 0 1\n");
    assert_eq!(
        job_spaced(&job),
        "answer 0 0 3 4 10\nn 1\nn 2\nn 5 0 1\nn 5 1 0\n"
    );
}

#[test]
fn lines_and_their_answers() {
    // `v0 v0` into a lent table of seven entries of garbage, none in use.
    let bytes: Vec<String> = b"v0\tv0\n"
        .iter()
        .enumerate()
        .map(|(index, byte)| format!("10 {} {}", index, byte))
        .collect();
    let line = format!("r 0 0 0 0 2 0 56 3 10 6 0 6 {} x1", bytes.join(" "));
    let after = CallCase::parse(&line).unwrap().answer();
    let words = "0=257 1=1 3=1 8=66 10=2 11=4 16=225 18=3 24=288 32=241 34=5 40=288 \
                 48=3 49=3 50=3 51=3 52=3 53=3 54=3 55=3";
    assert_eq!(after, format!("x1 0 0 0 6 {}", words));
    let line = "r 0 0 0 0 2 0 8 0 10 1 120 0 x2";
    assert_eq!(CallCase::parse(line).unwrap().answer(), "x2 18 1 1 0");
    // The writer of that rule, with a buffer of eight bytes and of five.
    let table = "0 0 257 0 1 1 0 3 1 0 8 66 0 10 2 0 11 4 0 16 225 0 18 3 0 24 288 0 32 241 \
                 0 34 5 0 40 288";
    let line = format!("w 6 0 0 0 2 0 48 0 11 8 1 12 {} x3", table);
    let after = CallCase::parse(&line).unwrap().answer();
    let bytes = "0=118 1=48 2=9 3=118 4=48 5=10 6=1 7=1";
    assert_eq!(after, format!("x3 0 0 6 {}", bytes));
    let line = format!("w 6 0 0 0 2 0 48 0 11 5 1 12 {} x4", table);
    let after = CallCase::parse(&line).unwrap().answer();
    assert_eq!(after, "x4 26 0 0 0=1 1=1 2=1 3=1 4=1");
}
