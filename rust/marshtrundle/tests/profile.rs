//! Where the units go: counts beside runs without them, refusals, names, the text and the picture.
use marshtrundle::show::{Names, Show};
use marshtrundle::strategy::*;
use marshtrundle::{
    run, run_counted, run_indexed, run_indexed_counted, run_signed, with_stack, words, Answer,
    Bindings, Counts, Entry, Group, Node, Outcome, Profile, Signature, Store, Table, TableBuilder,
    MOST_COUNT, VARS,
};

#[path = "../examples/profile.rs"]
mod example;

/// The terms 1, 2 and 5(1, 2), and room for 20 nodes more.
fn pair() -> (Store, Node) {
    let mut store = Store::new();
    let one = store.node(1, &[]).unwrap();
    let two = store.node(2, &[]).unwrap();
    let pair = store.node(5, &[one, two]).unwrap();
    store.room(20).unwrap();
    (store, pair)
}

fn counts(visits: u64, successes: u64, failures: u64, in_flight: u64) -> Counts {
    Counts {
        visits,
        successes,
        failures,
        in_flight,
    }
}

/// A counted run on the pair beside a run without counts: the same outcome, store and bindings. The outcome and the profile.
fn counted(table: &Table, units: u32) -> (Outcome, Profile) {
    let (mut store, subject) = pair();
    let mut bindings = Bindings::new();
    let (mut plain, mut bound) = (store.clone(), bindings.clone());
    let mut profile = Profile::of(table);
    let first = Entry::FIRST;
    let end = run_counted(
        table,
        &mut store,
        &mut bindings,
        None,
        &mut profile,
        first,
        subject,
        units,
    );
    let other = run(table, &mut plain, &mut bound, first, subject, units);
    assert_eq!((end, &store, bindings), (other, &plain, bound));
    assert_eq!(profile.units(), u64::from(end.units));
    assert_eq!(profile.runs(), 1);
    (end, profile)
}

/// LEFT(SEQ(MATCH x, FAIL), ID), laid out as entries 0 to 5.
fn caught() -> Table {
    let table = Table::of(&left(seq(match_(var(VARS[0])), fail()), id())).unwrap();
    assert_eq!(table.entries(), 6);
    table
}

#[test]
fn every_visit_is_counted_once() {
    let (end, profile) = counted(&caught(), 100);
    assert_eq!((end.answer, end.units), (Answer::Done, 6));
    let four = |entry| profile.counts(Entry::from_number(entry));
    assert_eq!(four(0), counts(1, 1, 0, 0));
    assert_eq!(four(1), counts(1, 0, 1, 0));
    assert_eq!(four(2), counts(1, 1, 0, 0));
    assert_eq!(four(3), counts(1, 1, 0, 0));
    assert_eq!(four(4), counts(1, 0, 1, 0));
    // The pattern's entry and one outside the table have no visits as a strategy.
    assert_eq!((four(5), four(6)), (Counts::default(), Counts::default()));
    assert_eq!((profile.pattern_visits(), profile.pair_visits()), (1, 0));
}

#[test]
fn visits_in_flight_are_those_of_a_cut_off() {
    let table = caught();
    for units in 0..6 {
        let (end, profile) = counted(&table, units);
        assert_eq!(end.answer, Answer::OutOfUnits);
        let flying: u64 = profile.words().chunks(4).map(|four| four[3]).sum();
        // LEFT alone is open before ID, and LEFT, SEQ and MATCH before the pattern.
        let open = [0, 1, 2, 3, 2, 1];
        assert_eq!(flying, open[units as usize], "{units}");
    }
    let unbound = Table::of(&not(build(var(VARS[9])))).unwrap();
    let (end, profile) = counted(&unbound, 100);
    assert_eq!(end.answer, Answer::Unbound(VARS[9]));
    assert_eq!(profile.counts(Entry::FIRST), counts(1, 0, 0, 1));
    assert_eq!(profile.words()[4..8], [1, 0, 0, 1]);
    let endless = Table::of(&rec(|again| again)).unwrap();
    let (end, profile) = counted(&endless, 5_000);
    assert_eq!(end.answer, Answer::TooDeep);
    assert_eq!(profile.counts(Entry::FIRST), counts(2_048, 0, 0, 2_048));
}

#[test]
fn runs_add_up_and_profiles_too() {
    let table = caught();
    let (mut store, subject) = pair();
    let mut profile = Profile::of(&table);
    for times in 1..=3 {
        let end = run_counted(
            &table,
            &mut store,
            &mut Bindings::new(),
            None,
            &mut profile,
            Entry::FIRST,
            subject,
            100,
        );
        assert_eq!(end.answer, Answer::Done);
        assert_eq!(profile.counts(Entry::FIRST), counts(times, times, 0, 0));
        assert_eq!((profile.runs(), profile.units()), (times, 6 * times));
    }
    let once = counted(&table, 2).1;
    profile.add(&once).unwrap();
    assert_eq!(profile.counts(Entry::FIRST), counts(4, 3, 0, 1));
    assert_eq!((profile.runs(), profile.units()), (4, 20));
    let other = Profile::of(&Table::of(&id()).unwrap());
    let before = profile.clone();
    assert_eq!(profile.add(&other), Err(Answer::RefusedSizes));
    assert_eq!(profile, before);
}

#[test]
fn a_signature_and_an_index_may_be_given() {
    let table = Table::of(&all(rule(con(1, []), con(2, [])))).unwrap();
    let signature = Signature::of(&[(1, 0), (2, 0), (5, 2)]).unwrap();
    let (mut store, subject) = pair();
    let (mut plain, first) = (store.clone(), Entry::FIRST);
    let mut profile = Profile::of(&table);
    let lent = Some(&signature);
    let mut bindings = Bindings::new();
    let end = run_counted(
        &table,
        &mut store,
        &mut bindings,
        lent,
        &mut profile,
        first,
        subject,
        100,
    );
    let other = run_signed(
        &table,
        &mut plain,
        &mut Bindings::new(),
        &signature,
        first,
        subject,
        100,
    );
    assert_eq!((end, &store), (other, &plain));
    let plainly = profile.clone();
    for lent in [None, lent] {
        let ((mut store, subject), mut indexed) = (pair(), Profile::of(&table));
        let mut plain = store.clone();
        let end = run_indexed_counted(
            &table,
            &mut store,
            &mut bindings,
            lent,
            &mut indexed,
            first,
            subject,
            100,
        );
        let other = run_indexed(&table, &mut plain, &mut bindings, lent, first, subject, 100);
        assert_eq!((end, &store), (other, &plain));
        assert_eq!(indexed, plainly);
    }
    let wrong = Signature::of(&[(1, 0), (2, 0)]).unwrap();
    let end = run_counted(
        &table,
        &mut store,
        &mut bindings,
        Some(&wrong),
        &mut profile,
        first,
        subject,
        100,
    );
    assert_eq!(end.answer, Answer::DisobeyingNode(2));
    assert_eq!(profile, plainly);
}

#[test]
fn a_profile_of_another_size_and_a_count_too_high_are_refused() {
    let table = caught();
    let (mut store, subject) = pair();
    let mut profile = Profile::of(&Table::of(&id()).unwrap());
    let before = profile.clone();
    let end = run_counted(
        &table,
        &mut store,
        &mut Bindings::new(),
        None,
        &mut profile,
        Entry::FIRST,
        subject,
        100,
    );
    assert_eq!((end.answer, end.units), (Answer::RefusedSizes, 0));
    assert_eq!(profile, before);
    // Of two entries with a count that is too high the lower is named.
    let mut four_each = vec![MOST_COUNT; 24];
    let numbers = |counts: &mut [u64], units| {
        let mut store = pair().0.words().to_vec();
        let bindings = &mut [0; 64];
        words::run_counted(
            table.words(),
            &mut store,
            bindings,
            3,
            0,
            2,
            units,
            counts,
            None,
        )
    };
    assert_eq!(numbers(&mut four_each, 1), [6, 0, 2, 3, 1, 0, 0]);
    assert_eq!(four_each[0], MOST_COUNT + 1);
    let before = four_each.clone();
    assert_eq!(numbers(&mut four_each, 100), [24, 0, 2, 3, 0, 0, 0]);
    assert_eq!(four_each, before);
    // LEFT's visit and its visit in flight are at the limit again.
    four_each[0] = MOST_COUNT;
    four_each[3] = MOST_COUNT;
    four_each[13] = MOST_COUNT + 1;
    four_each[22] = u64::MAX;
    assert_eq!(numbers(&mut four_each, 100), [24, 3, 2, 3, 0, 0, 0]);
    assert_eq!(Answer::FullCount(3).number(), 24);
    assert_eq!(
        Answer::FullCount(3).to_string(),
        "a count of entry 3 is too high to be added to"
    );
    assert!(Answer::FullCount(3).is_refusal());
}

/// Two rules with names, one of them with a search inside, in a pass with a name. Both share `ID` and a match.
fn named() -> Table {
    let [x, ..] = VARS;
    let both = match_(con(5, [var(x), var(x)]));
    let same = seq(both.clone(), id());
    let search = seq(once_td(match_(con(1, []))), test(left(both, id())));
    let mut builder = TableBuilder::new();
    builder.add("pass", left(same.clone(), search.clone()));
    builder.add("same", same);
    builder.add("search <1>", search);
    builder.build().unwrap()
}

#[test]
fn rows_are_by_names_in_falling_order() {
    let table = named();
    let (end, profile) = counted(&table, 100);
    assert_eq!(end.answer, Answer::Done);
    let names = Names::new().with_table(&table);
    let rows = profile.rows(&table, &names);
    let entry = |name| Group::Entry(table.entry(name).unwrap());
    let groups: Vec<Group> = rows.iter().map(|row| row.group).collect();
    let wanted = [
        entry("search <1>"),
        Group::Shared,
        entry("pass"),
        entry("same"),
        Group::Patterns,
        Group::Pairs,
    ];
    assert_eq!(groups, wanted);
    // Each visit stands in one row.
    let sum: u64 = rows.iter().map(|row| row.all.visits).sum();
    assert_eq!(sum, u64::from(end.units));
    // The search: SEQ, then REC, LEFT, MATCH, ONE at the pair and CALL, REC, LEFT, MATCH at its first child; TEST and LEFT.
    assert_eq!(rows[0].all, counts(11, 10, 1, 0));
    assert_eq!(rows[0].own, counts(1, 1, 0, 0));
    // The match of the pair with itself, twice, and ID once.
    assert_eq!(rows[1].all, counts(3, 1, 2, 0));
    assert_eq!(rows[3].own, counts(1, 0, 1, 0));
    assert_eq!(rows[4].all.visits, profile.pattern_visits());
}

#[test]
fn without_names_every_entry_that_was_visited_has_a_row() {
    let table = Table::of(&left(fail(), seq(id(), not(fail())))).unwrap();
    let (end, profile) = counted(&table, 100);
    assert_eq!(end.answer, Answer::Done);
    let rows = profile.rows(&table, &Names::new());
    let sum: u64 = rows.iter().map(|row| row.all.visits).sum();
    assert_eq!(sum, 6);
    // FAIL is one entry and was visited twice.
    let failing = Entry::from_number(4);
    assert_eq!(
        (rows[0].group, rows[0].all),
        (Group::Entry(failing), counts(2, 0, 2, 0))
    );
    assert!(rows.iter().all(|row| match row.group {
        Group::Entry(_) => row.all == row.own,
        _ => row.all.visits == 0,
    }));
    // A name for an entry that no visit came to keeps its row; what no named entry leads to is one row.
    let table = Table::of(&left(id(), fail())).unwrap();
    let names = Names::read("entry 2 never").unwrap();
    let rows = counted(&table, 100).1.rows(&table, &names);
    assert_eq!(rows[0].group, Group::Unnamed);
    assert_eq!(rows[0].all, counts(2, 2, 0, 0));
    assert_eq!(rows[1].group, Group::Entry(Entry::from_number(2)));
    assert_eq!(rows[1].all, Counts::default());
}

#[test]
fn a_profile_as_text() {
    let table = named();
    let names = Names::new();
    let text = Show::new(&names).profile(&table, &counted(&table, 100).1);
    let wanted = "\
1 run, 26 units
name            visits    share       tried   succeeded      failed  in flight
search <1>          11   42.3 %           1           1           0          0
(shared)             3   11.5 %
pass                 1    3.8 %           1           1           0          0
same                 1    3.8 %           1           0           1          0
(patterns)           8   30.8 %
(pairs)              2    7.7 %
";
    assert_eq!(text, wanted);
    let bare = Table::of(&left(fail(), id())).unwrap();
    let text = Show::new(&names).profile(&bare, &counted(&bare, 2).1);
    let wanted = "\
1 run, 2 units
name                 visits    share       tried   succeeded      failed  in flight
s0 = fail <+ id           1   50.0 %           1           0           0          1
s1 = fail                 1   50.0 %           1           0           1          0
(patterns)                0    0.0 %
(pairs)                   0    0.0 %
";
    assert_eq!(text, wanted);
    let nothing = Show::new(&names).profile(&bare, &Profile::of(&bare));
    assert!(nothing.starts_with("0 runs, 0 units\n"));
    assert!(nothing.ends_with("(pairs)              0    0.0 %\n"));
}

/// The widths of the bars of a picture, in their order.
fn widths(svg: &str) -> Vec<f64> {
    let bars = svg.lines().filter(|line| line.contains("height=\"16\""));
    let width = |line: &str| {
        line.split("width=\"")
            .nth(1)?
            .split('"')
            .next()?
            .parse()
            .ok()
    };
    bars.map(|line| width(line).unwrap()).collect()
}

#[test]
fn a_profile_as_a_picture() {
    let table = named();
    let names = Names::new();
    let show = Show::new(&names);
    let (full, cut) = (counted(&table, 100).1, counted(&table, 10).1);
    let svg = show.profile_svg(&[("All", &table, &full), ("Ten <units>", &table, &cut)]);
    assert!(svg.starts_with("<svg ") && svg.ends_with("</svg>\n"));
    assert!(svg.contains(">search &lt;1&gt;</text>"));
    assert!(svg.contains(">Ten &lt;units&gt;: 1 run, 10 units</text>"));
    assert!(svg.contains(">11 (42.3 %)</text>"));
    // One scale for both: 500 for the eleven visits of the search, ten of them successes.
    let all = widths(&svg);
    let eleventh = 500.0 / 11.0;
    assert!((all[0] - 10.0 * eleventh).abs() < 0.1 && (all[1] - eleventh).abs() < 0.1);
    let sum: f64 = all.iter().sum();
    assert!((sum - eleventh * 36.0).abs() < 1.0, "{sum}");
    // Where fewer rows are asked for, the patterns and the pairs stay.
    let few = show.length(1).profile_svg(&[("All", &table, &full)]);
    assert!(few.contains("(pairs)") && few.contains("search") && !few.contains("same"));
}

#[test]
fn the_example_draws_what_is_stored() {
    let svg = with_stack(example::picture).unwrap().unwrap();
    assert!(svg == include_str!("../../../examples/profile.svg"));
    let tables = with_stack(example::tables).unwrap().unwrap();
    let page = include_str!("../../../examples/profile.md");
    assert!(tables.lines().all(|line| page.contains(line)), "{tables}");
}
