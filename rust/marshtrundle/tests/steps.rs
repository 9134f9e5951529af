//! Runs in steps.
use marshtrundle::strategy::*;
use marshtrundle::{
    run, run_signed, words, Answer, Bindings, BuildError, Entry, Node, Outcome, Signature, Step,
    Stepper, Store, Strategy, Table, WorkList, VARS, WORK_WORDS,
};

/// The term 5(1, 5(1, 2)) and room for some nodes.
fn small(room: usize) -> Result<(Store, Node), BuildError> {
    let mut store = Store::new();
    let one = store.node(1, &[])?;
    let two = store.node(2, &[])?;
    let pair = store.node(5, &[one, two])?;
    let pairs = store.node(5, &[one, pair])?;
    store.room(room)?;
    Ok((store, pairs))
}

/// A strategy of each kind, and one that does not end.
fn strategies() -> Vec<Strategy> {
    let [x, y, ..] = VARS;
    let swap = || rule(con(5, [var(x), var(y)]), con(5, [var(y), var(x)]));
    vec![
        id(),
        fail(),
        swap(),
        bottom_up(attempt(swap())),
        top_down(attempt(swap())),
        innermost(rule(con(1, []), con(3, []))),
        one(match_(con(1, []))),
        some(match_(con(1, []))),
        not(seq(match_(var(x)), fail())),
        test(swap()),
        cong(5, [match_(var(x)), path(1, match_(var(x)))]),
        scope(
            [x],
            seq(
                match_(var(x)),
                where_(seq(build(con(9, [])), match_(var(y)))),
            ),
        ),
        choice(seq(match_(var(x)), fail()), build(var(x))),
        rec(|again| again),
        rec(all),
    ]
}

/// The whole run by steps of so many visits, and the visits told between.
fn stepped(
    table: &Table,
    store: &mut Store,
    bindings: &mut Bindings,
    work: &mut WorkList,
    subject: Node,
    units: u32,
    visits: u32,
) -> Result<Outcome, Answer> {
    let mut last = 0;
    let run = Stepper::start(table, store, bindings, work, Entry::FIRST, subject, units)?;
    assert_eq!((run.units(), run.units_used()), (units, 0));
    Ok(run.finish(visits, |used| {
        assert_eq!(used, last + visits);
        last = used;
    }))
}

#[test]
fn by_any_steps_it_is_the_run() -> Result<(), Box<dyn std::error::Error>> {
    let mut work = WorkList::new();
    for strategy in strategies() {
        let table = Table::of(&strategy)?;
        for units in [0, 1, 2, 5, 9, 30, 5_000] {
            for room in [0, 1, 2, 30] {
                let (store, subject) = small(room)?;
                let mut whole = (store.clone(), Bindings::new());
                let end = run(
                    &table,
                    &mut whole.0,
                    &mut whole.1,
                    Entry::FIRST,
                    subject,
                    units,
                );
                for visits in [1, 2, 3, 7, 100, u32::MAX] {
                    let mut parts = (store.clone(), Bindings::new());
                    let (store, bindings) = (&mut parts.0, &mut parts.1);
                    let ended =
                        stepped(&table, store, bindings, &mut work, subject, units, visits)?;
                    assert_eq!(ended, end);
                    assert_eq!(parts, whole);
                }
            }
        }
    }
    Ok(())
}

#[test]
fn a_signature_is_asked_at_the_start() -> Result<(), Box<dyn std::error::Error>> {
    let mut work = WorkList::new();
    let [x, y, ..] = VARS;
    let table = Table::of(&rule(con(5, [var(x), var(y)]), con(5, [var(y), var(x)])))?;
    for (signature, refused) in [
        (Signature::of(&[(1, 0), (2, 0), (5, 2)])?, None),
        (
            Signature::of(&[(1, 0), (5, 2)])?,
            Some(Answer::DisobeyingNode(1)),
        ),
        (
            Signature::of(&[(1, 0), (2, 0), (5, 3)])?,
            Some(Answer::DisobeyingEntry(4)),
        ),
    ] {
        let (mut store, subject) = small(9)?;
        let before = store.clone();
        let mut bindings = Bindings::new();
        let start = Entry::FIRST;
        let began = Stepper::start_signed(
            &table,
            &mut store,
            &mut bindings,
            &mut work,
            &signature,
            start,
            subject,
            100,
        );
        match refused {
            Some(answer) => {
                assert_eq!(began.err(), Some(answer));
                assert_eq!(store, before);
            }
            None => {
                let end = began?.finish(1, |_| ());
                let mut whole = before;
                let mut own = Bindings::new();
                assert_eq!(
                    end,
                    run_signed(&table, &mut whole, &mut own, &signature, start, subject, 100)
                );
                assert_eq!(store, whole);
            }
        }
    }
    Ok(())
}

#[test]
fn a_run_may_be_left() -> Result<(), Box<dyn std::error::Error>> {
    let (mut store, subject) = small(30)?;
    let before = store.clone();
    let table = Table::of(&bottom_up(attempt(rule(con(1, []), con(3, [])))))?;
    let (mut bindings, mut work) = (Bindings::new(), WorkList::new());
    for visits in 0..20 {
        let run = Stepper::start(
            &table,
            &mut store,
            &mut bindings,
            &mut work,
            Entry::FIRST,
            subject,
            1_000,
        )?;
        assert!(matches!(run.step(visits), Step::Unfinished(_)));
        assert_eq!(store.mark(), before.mark());
        let nodes = 8 * before.mark() as usize;
        assert_eq!(store.words()[..nodes], before.words()[..nodes]);
        assert_eq!(bindings, Bindings::new());
    }
    // The same work list, as it was left, serves a run to its end.
    let end = stepped(
        &table,
        &mut store,
        &mut bindings,
        &mut work,
        subject,
        1_000,
        3,
    )?;
    let mut whole = before;
    assert_eq!(
        end,
        run(
            &table,
            &mut whole,
            &mut Bindings::new(),
            Entry::FIRST,
            subject,
            1_000
        )
    );
    assert_eq!(store, whole);
    Ok(())
}

#[test]
fn the_words_of_start_and_step() {
    let (table, mut store, mut bindings) = ([0u32; 8], [0u32; 8], [0u32; 64]);
    let mut work = vec![5; WORK_WORDS + 1];
    // A list that is too short, and a start that is bad: nothing is written.
    for words in [0, 1, 80, 48 * 4_096, WORK_WORDS - 1] {
        let refused = words::start(&table, &store, &bindings, &mut work[..words], 1, 0, 0, 9);
        assert_eq!(refused, [2, 0, 0, 1, 0]);
    }
    assert_eq!(
        words::start(&table, &store, &bindings, &mut work, 1, 1, 0, 9),
        [5, 0, 0, 1, 0]
    );
    assert!(work.iter().all(|&word| word == 5));
    // ID: one visit.
    assert_eq!(
        words::start(&table, &store, &bindings, &mut work, 1, 0, 0, 9),
        [25, 0, 0, 1, 0]
    );
    for _ in 0..3 {
        assert_eq!(
            words::step(&table, &mut store, &mut bindings, &mut work, 0),
            [25, 0, 0, 1, 0]
        );
    }
    assert_eq!(
        words::step(&table, &mut store, &mut bindings, &mut work, 1),
        [0, 0, 0, 1, 1]
    );
    assert!(work.iter().all(|&word| word == 0));
    assert_eq!(
        words::step(&table, &mut store, &mut bindings, &mut work, 1),
        [27, 0, 0, 0, 0]
    );
    // Lengths come before that.
    assert_eq!(
        words::step(&[], &mut store, &mut bindings, &mut work, 1),
        [2, 0, 0, 0, 0]
    );
    assert_eq!(
        words::step(&table, &mut store, &mut bindings[..63], &mut work, 1),
        [2, 0, 0, 0, 0]
    );
    assert_eq!(
        words::step(&table, &mut store[..7], &mut bindings, &mut work, 1),
        [2, 0, 0, 0, 0]
    );
    assert_eq!(
        words::step(
            &table,
            &mut store,
            &mut bindings,
            &mut work[..WORK_WORDS - 1],
            1
        ),
        [2, 0, 0, 0, 0]
    );
}

/// A small generator of numbers.
struct Random(u64);

impl Random {
    fn next(&mut self) -> u64 {
        self.0 ^= self.0 << 13;
        self.0 ^= self.0 >> 7;
        self.0 ^= self.0 << 17;
        self.0
    }
}

/// The premise is broken in every way: a step still ends, and gives an answer of the list. What it may write are the three slices.
#[test]
fn a_step_on_garbage_ends() -> Result<(), Box<dyn std::error::Error>> {
    let mut random = Random(0x8_8888_8888);
    let mut tables: Vec<Vec<u32>> = vec![];
    for strategy in strategies() {
        tables.push(Table::of(&strategy)?.words().to_vec());
    }
    let mut work = vec![0u32; WORK_WORDS];
    let mut seen = [0; 28];
    for round in 0..400 {
        let mut table = tables[round % tables.len()].clone();
        let mut store: Vec<u32> = (0..128).map(|_| (random.next() % 9) as u32).collect();
        let mut bindings = vec![0u32; 64];
        // A run that was begun, or no run at all; then words are changed anywhere.
        let (given, subject) = small(12)?;
        if round % 3 > 0 {
            let numbers = words::start(
                &table,
                given.words(),
                &bindings,
                &mut work,
                given.mark(),
                0,
                subject.number(),
                1_000,
            );
            assert_eq!(numbers[0], 25);
            store = given.words().to_vec();
            words::step(
                &table,
                &mut store,
                &mut bindings,
                &mut work,
                (random.next() % 40) as u32,
            );
        }
        for _ in 0..random.next() % 60 {
            let word = [
                0,
                1,
                7,
                255,
                4_095,
                4_096,
                u32::MAX,
                (random.next() >> 40) as u32,
            ][random.next() as usize % 8];
            // Most of what a run holds stands in its first frames or behind the last.
            let at = match random.next() % 3 {
                0 => random.next() as usize % 400,
                1 => WORK_WORDS - 1 - random.next() as usize % 200,
                _ => random.next() as usize % WORK_WORDS,
            };
            work[at] = word;
            let at = random.next() as usize % table.len();
            if round % 2 == 0 {
                table[at] = word;
            }
        }
        for _ in 0..4 {
            let visits = [0, 1, 50, 100_000][random.next() as usize % 4];
            let numbers = words::step(&table, &mut store, &mut bindings, &mut work, visits);
            assert!(
                [0, 1, 6, 7, 8, 12, 25, 27].contains(&numbers[0]),
                "{numbers:?}"
            );
            seen[numbers[0] as usize] += 1;
        }
    }
    assert!(seen[25] > 0 && seen[27] > 0);
    Ok(())
}
