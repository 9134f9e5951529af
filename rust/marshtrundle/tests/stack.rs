//! 4,096 levels of each recursive form, on a thread of exactly the stated stack.
use marshtrundle::{
    free_variables, run_counted, run_indexed, run_indexed_counted, run_many, with_stack, words,
    Answer, Entry, Profile, Stepper, WorkList, STACK,
};

mod common;

/// 1.3 MiB, which is enough for a run with counts: 80 words for each of 4,096 levels, a word a level, and some 8 KiB.
const COUNTED: usize = (13 << 20) / 10;

#[test]
fn the_stated_stack_is_two_mebibytes() {
    assert_eq!(STACK, 2 * 1024 * 1024);
}

#[test]
fn what_fits_is_done_on_the_stated_stack() {
    for mut deep in (0..).map_while(common::fitting) {
        let end = with_stack(|| deep.run()).unwrap();
        assert_eq!(end.answer, deep.answer, "{}", deep.name);
        if let Some(units) = deep.units {
            assert_eq!(end.units, units, "{}", deep.name);
        }
    }
}

#[test]
fn one_level_more_is_refused_on_the_stated_stack() {
    for mut deep in (0..).map_while(common::too_deep) {
        let end = with_stack(|| deep.run()).unwrap();
        assert_eq!(end.answer, deep.answer, "{}", deep.name);
        if let Some(units) = deep.units {
            assert_eq!(end.units, units, "{}", deep.name);
        }
    }
}

#[test]
fn many_subjects_take_no_more_stack() {
    for mut deep in (0..).map_while(common::fitting) {
        let subjects = [deep.subject; 2];
        let (table, bindings) = (&deep.table, &deep.bindings);
        let store = &mut deep.store;
        let outcomes =
            with_stack(|| run_many(table, store, bindings, Entry::FIRST, &subjects, 4_000_000));
        let first = outcomes.unwrap().unwrap().next().unwrap();
        assert_eq!(first.answer, deep.answer, "{}", deep.name);
    }
}

#[test]
fn with_an_index_every_form_takes_no_more_stack() {
    for mut deep in (0..).map_while(common::fitting) {
        let (table, subject) = (&deep.table, deep.subject);
        let (store, bindings) = (&mut deep.store, &mut deep.bindings);
        let end = with_stack(|| {
            run_indexed(
                table,
                store,
                bindings,
                None,
                Entry::FIRST,
                subject,
                4_000_000,
            )
        });
        let end = end.unwrap();
        // Three of the stores have two equal terms side by side, which an index refuses.
        if deep.name.starts_with("a comparison") || deep.name.ends_with("first of two") {
            assert!(matches!(end.answer, Answer::TwinNode(_)), "{}", deep.name);
            continue;
        }
        assert_eq!(end.answer, deep.answer, "{}", deep.name);
        if let Some(units) = deep.units {
            assert_eq!(end.units, units, "{}", deep.name);
        }
    }
}

/// A run with counts of every form, what fits and one level more, on a thread of so many bytes. With an index it is what fits, without the
/// three forms whose store has two equal nodes.
fn every_form_counted(stack: usize, indexed: bool) {
    let more = (0..).map_while(|k| common::too_deep(k).filter(|_| !indexed));
    for mut deep in (0..).map_while(common::fitting).chain(more) {
        let twins = deep.name.starts_with("a comparison") || deep.name.ends_with("first of two");
        if indexed && twins {
            continue;
        }
        let thread = std::thread::Builder::new().stack_size(stack);
        let ended = thread.spawn(move || {
            let mut profile = Profile::of(&deep.table);
            let run = if indexed {
                run_indexed_counted
            } else {
                run_counted
            };
            let end = run(
                &deep.table,
                &mut deep.store,
                &mut deep.bindings,
                None,
                &mut profile,
                Entry::FIRST,
                deep.subject,
                4_000_000,
            );
            assert_eq!(end.answer, deep.answer, "{}", deep.name);
            assert_eq!(u64::from(end.units), profile.units(), "{}", deep.name);
            if let Some(units) = deep.units {
                assert_eq!(end.units, units, "{}", deep.name);
            }
        });
        ended.unwrap().join().unwrap();
    }
}

#[test]
fn with_counts_every_form_takes_no_more_stack() {
    every_form_counted(STACK, false);
    every_form_counted(STACK, true);
}

#[test]
fn with_counts_every_form_takes_the_same_1_3_mebibytes() {
    every_form_counted(COUNTED, false);
    every_form_counted(COUNTED, true);
}

#[test]
fn the_other_functions_take_64_kibibytes_at_most() {
    for deep in (0..).map_while(common::too_deep) {
        let thread = std::thread::Builder::new().stack_size(64 << 10);
        let answers = thread.spawn(move || {
            let free = free_variables(&deep.table, Entry::FIRST).map(|_| ());
            [free, deep.table.check(), deep.store.check()]
        });
        assert_eq!(answers.unwrap().join().unwrap(), [Ok(()); 3]);
    }
}

#[test]
fn in_steps_every_form_takes_64_kibibytes_at_most() {
    for deep in (0..)
        .map_while(common::fitting)
        .chain((0..).map_while(common::too_deep))
    {
        let thread = std::thread::Builder::new().stack_size(64 << 10);
        let name = deep.name;
        let (answer, units) = (deep.answer, deep.units);
        let mut deep = Box::new(deep);
        let mut work = WorkList::new();
        let ended = thread.spawn(move || {
            let subject = deep.subject;
            let (table, store, bindings) = (&deep.table, &mut deep.store, &mut deep.bindings);
            let run = Stepper::start(
                table,
                store,
                bindings,
                &mut work,
                Entry::FIRST,
                subject,
                4_000_000,
            );
            run.map(|run| run.finish(1_000, |_| ()))
        });
        let end = ended.unwrap().join().unwrap().unwrap();
        assert_eq!(end.answer, answer, "{name}");
        if let Some(units) = units {
            assert_eq!(end.units, units, "{name}");
        }
    }
}

#[test]
fn the_functions_for_rules_take_256_kibibytes_at_most() {
    let thread = std::thread::Builder::new().stack_size(256 << 10);
    let answers = thread.spawn(|| {
        let mut table = vec![0; 8 * 20];
        let good = words::translate_rules(&mut table, 0, b"5\t2\tv0\tv1\t5\t2\tv1\tv0\n");
        let far = words::translate_rules(&mut table, 10, b"5\t2\tv64\tv65\tv64\n");
        let mut buffer = [0; 64];
        let line = words::write_rule(&table, 10, 0, &mut buffer);
        [good[0], far[0], line[0]]
    });
    assert_eq!(answers.unwrap().join().unwrap(), [0, 20, 0]);
}
