//! Rules as text: translated, run, written back, and refused with a line and a field.
use marshtrundle::strategy::*;
use marshtrundle::{
    run, words, Answer, Bindings, Entry, Fault, RuleError, Store, Strategy, Table, TableBuilder,
    RULE_BYTES, VARS,
};

/// Fields parted by spaces here, by tabs in the text.
fn text(lines: &[&str]) -> Vec<u8> {
    lines
        .iter()
        .map(|line| line.replace(' ', "\t") + "\n")
        .collect::<String>()
        .into_bytes()
}

/// A table whose entry 0 is a REC that gives the first child of a pair, a constructor 5.
fn with_first() -> Table {
    let [a, b, ..] = VARS;
    let mut builder = TableBuilder::new();
    builder.define("first", rule(con(5, [var(a), var(b)]), var(a)));
    builder.build().unwrap()
}

fn refused(table: &Table, lines: &[u8]) -> RuleError {
    let mut tried = table.clone();
    let error = tried.add_rules(lines).unwrap_err();
    assert_eq!(&tried, table, "the table is as it was");
    error
}

#[test]
fn a_rule_runs_and_is_written_back() {
    let mut table = Table::default();
    let lines = text(&["5 2 v0 v1 5 2 v1 v0", "6 1 v63 v63", "7 0 8 0"]);
    let added = table.add_rules(&lines).unwrap();
    assert_eq!(
        added.iter().map(|e| e.number()).collect::<Vec<u32>>(),
        [0, 10, 17]
    );
    assert_eq!(table.check(), Ok(()));
    assert_eq!(table.rule_lines().unwrap().as_bytes(), lines);
    let mut store = Store::new();
    let one = store.node(1, &[]).unwrap();
    let two = store.node(2, &[]).unwrap();
    let pair = store.node(5, &[one, two]).unwrap();
    store.room(10).unwrap();
    let end = run(&table, &mut store, &mut Bindings::new(), added[0], pair, 99);
    assert_eq!(end.answer, Answer::Done);
    assert_eq!(store.term(end.subject).unwrap().to_string(), "5(2, 1)");
    let end = run(&table, &mut store, &mut Bindings::new(), added[1], pair, 99);
    assert!(matches!(end.answer, Answer::Failed(_)));
}

#[test]
fn rules_are_added_behind_what_is_there() {
    let mut table = with_first();
    let before = table.clone();
    let first = table.add_rules(&text(&["v0 v0"])).unwrap();
    let second = table.add_rules(&text(&["v1 v1", "v2 v2"])).unwrap();
    assert_eq!(first[0].number() as usize, before.entries());
    assert_eq!(second[0].number(), first[0].number() + 6);
    assert_eq!(
        table.words()[..before.words().len()],
        *before.words(),
        "what was there stays"
    );
    assert_eq!(table.entry("first"), before.entry("first"));
    // The builder's own rule is one too: the scope in the REC.
    assert_eq!(table.rule_lines().unwrap().lines().last(), Some("v2\tv2"));
    assert_eq!(table.add_rules(b""), Ok(vec![]));
}

#[test]
fn a_condition_runs_between_match_and_build() {
    // 9(p) -> 4(x) where <first> p gives 3(x)
    let mut table = with_first();
    let lines = text(&["9 1 v7 4 1 v40 0 v7 3 1 v40"]);
    let added = table.add_rules(&lines).unwrap();
    assert_eq!(table.rule_line(added[0]).unwrap().as_bytes(), lines);
    let mut store = Store::new();
    let one = store.node(1, &[]).unwrap();
    let three = store.node(3, &[one]).unwrap();
    let good = store.node(5, &[three, one]).unwrap();
    let bad = store.node(5, &[one, three]).unwrap();
    let (good, bad) = (
        store.node(9, &[good]).unwrap(),
        store.node(9, &[bad]).unwrap(),
    );
    store.room(50).unwrap();
    let mut bindings = Bindings::new();
    let end = run(&table, &mut store, &mut bindings, added[0], good, 99);
    assert_eq!(end.answer, Answer::Done);
    assert_eq!(store.term(end.subject).unwrap().to_string(), "4(1)");
    assert_eq!(bindings, Bindings::new());
    let end = run(&table, &mut store, &mut bindings, added[0], bad, 99);
    assert!(matches!(end.answer, Answer::Failed(Some(_))));
}

/// The same rule by the builders and as text: the same outcome in all numbers but the place of a failure.
#[test]
fn the_builders_rule_does_the_same() {
    let [x, y, z, ..] = VARS;
    let own: Strategy = rule(
        con(1, [var(x), con(2, [var(y), var(z)])]),
        con(1, [con(2, [var(z), var(y)]), var(x)]),
    );
    let own = Table::of(&own).unwrap();
    let mut read = Table::default();
    read.add_rules(&text(&["1 2 v0 2 2 v1 v2 1 2 2 2 v2 v1 v0"]))
        .unwrap();
    let ended = |table: &Table, constructor: u16| {
        let mut store = Store::new();
        let leaf = store.node(7, &[]).unwrap();
        let inner = store.node(constructor, &[leaf, leaf]).unwrap();
        let whole = store.node(1, &[leaf, inner]).unwrap();
        store.room(9).unwrap();
        let end = run(
            table,
            &mut store,
            &mut Bindings::new(),
            Entry::FIRST,
            whole,
            99,
        );
        let term = store.term(end.subject).unwrap().to_string();
        (
            end.answer.number(),
            end.subject,
            end.mark,
            end.units,
            store,
            term,
        )
    };
    for constructor in [2, 3] {
        assert_eq!(ended(&own, constructor), ended(&read, constructor));
    }
}

#[test]
fn bad_text_names_the_line_and_the_field() {
    let table = with_first();
    for (lines, line, field, found) in [
        (&b"\n"[..], 1, 1, Some("")),
        (b"v0\tv0\n\n", 2, 1, Some("")),
        (b"v0\n", 1, 2, None),
        (b"v0\tv0", 1, 3, None),
        (b"v0 v0\n", 1, 1, Some("v0 v0")),
        (b"v0\tv0\r\n", 1, 2, Some("v0\r")),
        (b"5\t7\n", 1, 2, Some("7")),
        (b"5\n", 1, 2, None),
        (b"65536\t0\tv0\n", 1, 1, Some("65536")),
        (b"05\t0\tv0\n", 1, 1, Some("05")),
        (b"v01\tv0\n", 1, 1, Some("v01")),
        (b"v4294967296\tv0\n", 1, 1, Some("v4294967296")),
        (b"v0\tv0\t0\n", 1, 4, None),
        (b"v0\tv0\t0\tv0\n", 1, 5, None),
        (b"v0\tv0\tv0\n", 1, 3, Some("v0")),
        (b"v0\tv0\t\n", 1, 3, Some("")),
    ] {
        let error = refused(&table, lines);
        let found = found.map(str::to_owned);
        assert_eq!(error, RuleError::Text { line, field, found });
        assert_eq!(error.number(), 18);
        let said = error.to_string();
        assert!(
            said.starts_with(&format!("line {line}, field {field}: ")),
            "{said}"
        );
    }
}

#[test]
fn each_refusal_has_its_number_and_its_words() {
    let table = with_first();
    let mut free = TableBuilder::new();
    free.define("free", match_(var(VARS[0])));
    let free = free.build().unwrap();
    for (table, line, error) in [
        (&table, "v0 v1", RuleError::NothingBinds(1)),
        (&table, "v0 v0 0 v1 v1", RuleError::NothingBinds(1)),
        (&table, "v0 v1 0 v1 v2 0 v0 v1", RuleError::NothingBinds(1)),
        (&table, "v64 v64", RuleError::NoSuchVariable(1)),
        (&table, "v4294967295 v0", RuleError::NothingBinds(1)),
        (&table, "v0 v0 1 v0 v0", RuleError::NoSuchStrategy(1)),
        (
            &table,
            "v0 v0 4294967295 v0 v0",
            RuleError::NoSuchStrategy(1),
        ),
        (&free, "v0 v0 0 v0 v0", RuleError::NoSuchStrategy(1)),
    ] {
        assert_eq!(refused(table, &text(&[line])), error);
    }
    let many = text(&vec!["v0 v0"; 700]);
    let error = refused(&table, &many);
    assert_eq!(error, RuleError::TooManyEntries(682));
    assert_eq!(
        error.to_string(),
        "line 682: with this rule the table has over 4096 entries"
    );
    let bad = Table::from_words([0, 0, 0, 0, 0, 0, 0, 9]);
    let error = RuleError::BadEntry(0, Fault::Word);
    assert_eq!(refused(&bad, b""), error);
    assert_eq!(bad.rule_line(Entry::FIRST), Err(error));
    for words in [7, 8 * 4_097] {
        let table = Table::from_words(vec![0; words]);
        assert_eq!(refused(&table, b""), RuleError::Sizes);
    }
    let full = Table::from_words(vec![0; 8 * 4_096]);
    assert_eq!(full.clone().add_rules(b""), Ok(vec![]));
    assert_eq!(
        refused(&full, &text(&["v0 v0"])),
        RuleError::TooManyEntries(1)
    );
    assert_eq!(table.rule_line(Entry::FIRST), Err(RuleError::NoRule));
    assert_eq!(
        table.rule_line(Entry::from_number(u32::MAX)),
        Err(RuleError::NoRule)
    );
}

/// Words behind the rule stay, and a buffer that is one byte too short is refused.
#[test]
fn the_functions_over_words() {
    let mut table = vec![7; 8 * 20];
    let line = text(&["5 2 v0 v1 5 2 v1 v0"]);
    assert_eq!(words::translate_rules(&mut table, 0, &line), [0, 0, 0, 10]);
    assert!(table[80..].iter().all(|&word| word == 7));
    let mut buffer = vec![255; line.len() + 1];
    let n = line.len() as u64;
    assert_eq!(words::write_rule(&table, 10, 0, &mut buffer), [0, 0, n]);
    assert_eq!(buffer[..line.len()], line);
    assert_eq!(buffer[line.len()], 255);
    buffer.fill(255);
    let short = &mut buffer[..line.len() - 1];
    assert_eq!(words::write_rule(&table, 10, 0, short), [26, 0, 0]);
    assert!(buffer.iter().all(|&byte| byte == 255));
    assert_eq!(words::translate_rules(&mut table, 21, &line), [2, 0, 0, 21]);
    // Word 0 of entry 10 is 7: an ID with seven operands.
    assert_eq!(
        words::translate_rules(&mut table, 20, &line),
        [13, 10, 0, 20]
    );
}

/// A term with these variables in this order.
fn variables(far: &[u32]) -> String {
    let cells: String = far.iter().map(|v| format!("1\t2\tv{v}\t")).collect();
    cells + "1\t0"
}

#[test]
fn a_line_with_any_number_of_variables_out_of_range_is_judged() {
    // More than the tree of bound variables holds: several passes, close by, far apart, and with the lowest bits shared.
    for step in [1, 65_537, 4_096] {
        let far: Vec<u32> = (0..50_000u32).map(|i| 64 + i * step).collect();
        let turned: Vec<u32> = far.iter().rev().copied().collect();
        for (bound, used) in [(&far, &turned), (&turned, &far), (&far, &far)] {
            let line = variables(bound) + "\t" + &variables(used) + "\n";
            let mut table = vec![0; 8];
            let all = words::translate_rules(&mut table, 0, line.as_bytes());
            assert_eq!(all, [20, 1, 0, 0]);
            for lost in [0, 16_384, 49_999] {
                let mut less = bound.to_vec();
                less.remove(lost);
                let line = variables(&less) + "\t" + &variables(used) + "\n";
                let one = words::translate_rules(&mut table, 0, line.as_bytes());
                assert_eq!(one, [19, 1, 0, 0], "{step} {lost}");
            }
        }
    }
}

#[test]
fn a_table_full_of_one_rule_is_written_back() {
    // A left term of 680 constructors, each with five constants and the next one: close to 4,096 entries.
    let mut line = String::new();
    let inner = 680;
    for _ in 0..inner {
        line.push_str("65535\t6\t65535\t0\t65535\t0\t65535\t0\t65535\t0\t65535\t0\t");
    }
    line.push_str("v63\tv63\n");
    let mut table = Table::default();
    let added = table.add_rules(line.as_bytes()).unwrap();
    assert!(table.entries() > 4_080, "{}", table.entries());
    assert!(line.len() < RULE_BYTES);
    assert_eq!(table.rule_line(added[0]).unwrap(), line);
}
