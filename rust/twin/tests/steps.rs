//! 02, wish 8: a run that can be set aside.

mod common;
use common::*;
use twin::calls::{CallCase, SIGNATURE, STEPS, WORK};
use twin::generate::stepped_case;
use twin::{start_run, step_run, with_big_stack, Lent, Outcome};

/// The words that a work list must have: 80 a level, 4,096 levels.
const WORK_WORDS: usize = 327_680;

/// A run's memory.
#[derive(Clone, Debug, PartialEq)]
struct Memory {
    table: Vec<u32>,
    store: Vec<u32>,
    bindings: Vec<u32>,
    work: Vec<u32>,
}

impl Memory {
    /// The small store with garbage above the mark and in the work list.
    fn small(rows: &[(u32, u64, &[u32])]) -> Memory {
        let mut store = small_store();
        store[24..].fill(77);
        Memory {
            table: table(rows),
            store,
            bindings: vec![0; 64],
            work: vec![9; WORK_WORDS + 3],
        }
    }

    /// Starts at entry 0 with three nodes in use and subject 2.
    fn start(&mut self, units: u32) -> Outcome {
        self.start_at(3, 0, 2, units, None)
    }

    fn start_at(
        &mut self,
        mark: u32,
        start: u32,
        subject: u32,
        units: u32,
        signature: Option<&[u32]>,
    ) -> Outcome {
        start_run(
            &self.table,
            &mut self.store,
            &mut self.bindings,
            mark,
            start,
            subject,
            units,
            signature,
            &mut self.work,
        )
    }

    fn step(&mut self, visits: u32) -> Outcome {
        step_run(
            &self.table,
            &mut self.store,
            &mut self.bindings,
            visits,
            &mut self.work,
        )
    }

    fn work_is_zero(&self) -> bool {
        self.work.iter().all(|&word| word == 0)
    }
}

/// The numbers of an unfinished run on the small store.
fn unfinished(units: u32) -> Outcome {
    outcome(25, 0, 2, 3, units)
}

/// S6: LEFT(SEQ(MATCH x, FAIL), ID), six units.
const S6: [(u32, u64, &[u32]); 6] = [
    (LEFT, 0, &[1, 2]),
    (SEQ, 0, &[3, 4]),
    (ID, 0, &[]),
    (MATCH, 0, &[5]),
    (FAIL, 0, &[]),
    (PVAR, 0, &[]),
];

#[test]
fn the_start_does_no_visit() {
    for units in [0, 1, 1_000] {
        let mut memory = Memory::small(&S6);
        assert_eq!(memory.start(units), unfinished(0));
        assert!(!memory.work_is_zero());
    }
}

#[test]
fn a_step_does_the_stated_number_of_visits() {
    let mut memory = Memory::small(&S6);
    memory.start(1_000);
    for units in 1..6 {
        assert_eq!(memory.step(1), unfinished(units));
    }
    assert_eq!(memory.step(1), outcome(0, 0, 2, 3, 6));
    assert!(memory.work_is_zero());
    assert_eq!(memory.store, small_store());
    assert_eq!(memory.bindings, vec![0; 64]);
    // Two at a time, and all at once.
    memory.start(1_000);
    assert_eq!(memory.step(2), unfinished(2));
    assert_eq!(memory.step(2), unfinished(4));
    assert_eq!(memory.step(2), outcome(0, 0, 2, 3, 6));
    memory.start(1_000);
    assert_eq!(memory.step(u32::MAX), outcome(0, 0, 2, 3, 6));
    assert!(memory.work_is_zero());
}

#[test]
fn a_step_of_none_does_nothing() {
    let mut memory = Memory::small(&S6);
    memory.start(1_000);
    assert_eq!(memory.step(0), unfinished(0));
    assert_eq!(memory.step(3), unfinished(3));
    assert_eq!(memory.step(0), unfinished(3));
    assert_eq!(memory.step(0), unfinished(3));
    assert_eq!(memory.step(9), outcome(0, 0, 2, 3, 6));
}

#[test]
fn a_step_ends_before_the_next_limit_test() {
    // Four units: after the fourth visit the answer is 25, and the next step of
    // one visit or more finds that all units are used.
    let mut memory = Memory::small(&S6);
    memory.start(4);
    assert_eq!(memory.step(4), unfinished(4));
    assert_eq!(memory.step(0), unfinished(4));
    assert_eq!(memory.step(1), outcome(6, 0, 2, 3, 4));
    assert!(memory.work_is_zero());
    memory.start(4);
    assert_eq!(memory.step(5), outcome(6, 0, 2, 3, 4));
    memory.start(0);
    assert_eq!(memory.step(0), unfinished(0));
    assert_eq!(memory.step(1), outcome(6, 0, 2, 3, 0));
    // The same for the nesting.
    let endless: [(u32, u64, &[u32]); 2] = [(REC, 0, &[1]), (CALL, 0, &[0])];
    with_big_stack(move || {
        let mut memory = Memory::small(&endless);
        memory.start(5_000);
        assert_eq!(memory.step(4_096), unfinished(4_096));
        assert_eq!(memory.step(1), outcome(8, 0, 2, 3, 4_096));
        assert!(memory.work_is_zero());
    });
}

#[test]
fn what_follows_the_last_visit_is_done() {
    // BUILD 9(): after the second visit the node is made and the run is done.
    let build: [(u32, u64, &[u32]); 2] = [(BUILD, 0, &[1]), (PCON, 9, &[])];
    let mut memory = Memory::small(&build);
    memory.start(2);
    assert_eq!(memory.step(1), unfinished(1));
    assert_eq!(memory.step(1), outcome(0, 0, 3, 4, 2));
    let rows: [(u32, &[u32]); 4] = [(1, &[]), (2, &[]), (5, &[0, 1]), (9, &[])];
    assert_eq!(memory.store, store(&rows, 64));
    // The same without room, and with an unbound variable.
    let mut memory = Memory::small(&build);
    memory.store.truncate(24);
    memory.start(2);
    assert_eq!(memory.step(2), outcome(7, 0, 2, 3, 2));
    let unbound: [(u32, u64, &[u32]); 2] = [(BUILD, 0, &[1]), (PVAR, 40, &[])];
    let mut memory = Memory::small(&unbound);
    memory.start(9);
    assert_eq!(memory.step(2), outcome(12, 40, 2, 3, 2));
    // A failed run has its place: S4.
    let twice: [(u32, u64, &[u32]); 3] = [(MATCH, 0, &[1]), (PCON, 5, &[2, 2]), (PVAR, 0, &[])];
    let mut memory = Memory::small(&twice);
    memory.start(9);
    assert_eq!(memory.step(4), unfinished(4));
    assert_eq!(memory.step(1), outcome(1, 2, 2, 3, 5));
    assert!(memory.work_is_zero());
}

#[test]
fn a_step_on_zeros() {
    let mut memory = Memory::small(&S6);
    memory.work.fill(0);
    let before = memory.clone();
    assert_eq!(memory.step(1), outcome(27, 0, 0, 0, 0));
    assert_eq!(memory.step(0), outcome(27, 0, 0, 0, 0));
    assert_eq!(memory, before);
    // After the end of a run the work list is zero, so a step more gives 27.
    memory.start(1_000);
    memory.step(1_000);
    let before = memory.clone();
    assert_eq!(memory.step(5), outcome(27, 0, 0, 0, 0));
    assert_eq!(memory, before);
    // Another start runs again.
    assert_eq!(memory.start(1_000), unfinished(0));
    assert_eq!(memory.step(1_000), outcome(0, 0, 2, 3, 6));
}

#[test]
fn the_start_refuses_and_writes_nothing() {
    let refused = |mut memory: Memory, numbers: [u32; 3], signature: Option<&[u32]>, end| {
        let before = memory.clone();
        let [mark, start, subject] = numbers;
        let after = memory.start_at(mark, start, subject, 9, signature);
        let (answer, place) = end;
        assert_eq!(after, outcome(answer, place, subject, mark, 0));
        assert_eq!(memory, before);
    };
    let good = || Memory::small(&S6);
    refused(good(), [3, 5, 2], None, (5, 0));
    refused(good(), [3, 6, 2], None, (5, 0));
    refused(good(), [3, 0, 3], None, (5, 0));
    let small = [7, 0, 0, 7, 7, 2];
    refused(good(), [3, 0, 3], Some(&small), (5, 0));
    refused(good(), [3, 0, 3], Some(&small[..5]), (11, 2));
    let mut cong = good();
    cong.table.extend(table(&[(CONG, 3, &[])]));
    refused(cong.clone(), [3, 0, 3], Some(&small[..5]), (10, 6));
    cong.store[7] = 1;
    refused(cong.clone(), [3, 0, 3], Some(&small[..5]), (4, 0));
    cong.table[8] = 16 * 20;
    refused(cong.clone(), [3, 0, 3], Some(&small[..5]), (16, 0));
    refused(cong.clone(), [3, 0, 3], Some(&[8]), (2, 0));
    refused(cong.clone(), [65, 0, 3], None, (2, 0));
    // The work list: 80 words for each of 4,096 levels.
    for length in [0, 80, 48 * 4_096, WORK_WORDS - 1] {
        let mut short = cong.clone();
        short.work.resize(length, 9);
        refused(short, [3, 0, 3], None, (2, 0));
        let mut short = good();
        short.work.resize(length, 9);
        refused(short, [3, 0, 2], None, (2, 0));
    }
    let mut exact = good();
    exact.work.resize(WORK_WORDS, 9);
    assert_eq!(exact.start(9), unfinished(0));
    for length in [63, 65] {
        let mut other = good();
        other.bindings.resize(length, 0);
        refused(other, [3, 0, 2], None, (2, 0));
    }
}

#[test]
fn a_step_refuses_bad_lengths_first() {
    let bad = |change: fn(&mut Memory)| {
        for garbage in [0, 1] {
            let mut memory = Memory::small(&S6);
            memory.work.fill(garbage);
            change(&mut memory);
            let before = memory.clone();
            assert_eq!(memory.step(1), outcome(2, 0, 0, 0, 0));
            assert_eq!(memory, before);
        }
    };
    bad(|memory| memory.table.clear());
    bad(|memory| memory.table.push(0));
    bad(|memory| memory.store.push(0));
    bad(|memory| memory.bindings.push(0));
    bad(|memory| memory.work.truncate(WORK_WORDS - 1));
}

#[test]
fn a_step_on_garbage_ends() {
    // The premise is broken: some answer, whatever it is.
    for garbage in [1, 2, 77, u32::MAX] {
        let mut memory = Memory::small(&S6);
        memory.work.fill(garbage);
        let after = with_big_stack(move || memory.step(1_000));
        assert_ne!(after.answer, 27);
    }
}

#[test]
fn generated_any_step_counts_give_the_first_engine() {
    let seen = with_big_stack(|| {
        let mut seen = [0; 100];
        for number in 0..600 {
            let case = stepped_case(71, number);
            assert_eq!(CallCase::parse(&case.line()).as_ref(), Ok(&case));
            let label = &case.run.label;
            let signature = case.words(SIGNATURE);
            let mut memory = Memory {
                table: case.run.table.clone(),
                store: case.run.store.clone(),
                bindings: case.run.bindings.clone(),
                work: case.words(WORK).expect("a work list is lent"),
            };
            let mut plain = case.run.clone();
            let lent = Lent {
                signature: signature.as_deref(),
                index: None,
            };
            let expected = plain.run_lent(lent);
            let before = memory.clone();
            let (mark, start, subject, units) = (
                case.run.mark,
                case.run.start,
                case.run.subject,
                case.run.units,
            );
            let first = memory.start_at(mark, start, subject, units, signature.as_deref());
            if first.answer != 25 {
                seen[first.answer as usize] += 1;
                assert_eq!(memory, before, "{}", label);
                if memory.work.len() >= WORK_WORDS {
                    assert_eq!(first, expected, "{}", label);
                }
                continue;
            }
            let mut steps = case.words(STEPS).expect("steps are lent").into_iter();
            let mut done = 0;
            let last = loop {
                let visits = steps.next().unwrap_or(u32::MAX);
                let after = memory.step(visits);
                if after.answer != 25 {
                    break after;
                }
                done += visits;
                assert_eq!(after, outcome(25, 0, subject, mark, done), "{}", label);
            };
            seen[last.answer as usize] += 1;
            assert_eq!(last, expected, "{}", label);
            assert_eq!(memory.store, plain.store, "{}", label);
            assert_eq!(memory.bindings, plain.bindings, "{}", label);
            assert!(memory.work_is_zero(), "{}", label);
        }
        seen
    });
    for answer in [0, 1, 2, 4, 5, 6, 7, 8, 12] {
        assert!(seen[answer] > 3, "{} {}", answer, seen[answer]);
    }
}

#[test]
fn a_line_and_its_answer() {
    // SEQ(ID, MATCH x) on 1() in steps of 2 and 0, then to its end.
    let table = "0 0 66 0 2 1 0 3 2 0 16 225 0 18 3 0 24 288";
    let line = format!(
        "p 1 0 0 9 5 0 32 0 1 16 5 2 64 0 6 327680 7 9 2 0 8 {} 1 0 1 9 0 2 p1",
        table
    );
    let after = CallCase::parse(&line).unwrap().answer();
    let steps = "25 0 0 1 0 / 25 0 0 1 2 / 25 0 0 1 2 / 0 0 0 1 4 / 27 0 0 0 0";
    assert_eq!(after, format!("p1 {} : 0=1 : 0=1 : 0", steps));
    // A refused start on a work list of zeros: one step.
    let line = "p 1 0 1 9 5 0 8 0 1 8 0 2 64 0 6 327680 0 9 1 4 1 1 0 1 p2";
    let after = CallCase::parse(line).unwrap().answer();
    assert_eq!(after, "p2 5 0 1 1 0 / 27 0 0 0 0 : : 0=1 : 0");
    let line = "p 1 0 1 9 5 0 8 0 1 8 0 2 64 0 6 4 1 9 1 4 1 1 0 1 p3";
    let after = CallCase::parse(line).unwrap().answer();
    assert_eq!(after, "p3 2 0 1 1 0 : : 0=1 : 0=1 1=1 2=1 3=1");
}
