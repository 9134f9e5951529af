//! 02, wish 11: strategies without free variables at different places, none
//! inside another, run in every order.

mod common;
use common::*;
use twin::free_variables;
use twin::generate::run_case;

/// A place and the entry of the strategy that is run there.
type Task = (Vec<u32>, u32);

/// The table with the tasks in front of it, as SEQs nested to the right; each
/// strategy stands under the PATHs of its place, the first outermost. No task
/// is ID.
fn in_order(words: &[u32], tasks: &[Task]) -> Vec<u32> {
    let mut front: Vec<[u32; 8]> = Vec::new();
    let paths: usize = tasks.iter().map(|(place, _)| place.len()).sum();
    let before = (2 * tasks.len() + 1 + paths) as u32;
    for (place, entry) in tasks {
        let seq = front.len();
        front.push([16 * SEQ + 2, 0, seq as u32 + 1, 0, 0, 0, 0, 0]);
        // A REC stands over each task, so that an empty place has an entry too.
        let next = |front: &Vec<[u32; 8]>, last: bool| match last {
            true => before + entry,
            false => front.len() as u32 + 1,
        };
        let first = next(&front, place.is_empty());
        front.push([16 * REC + 1, 0, first, 0, 0, 0, 0, 0]);
        for (index, &position) in place.iter().enumerate() {
            let operand = next(&front, index + 1 == place.len());
            front.push([16 * PATH + 1, position, operand, 0, 0, 0, 0, 0]);
        }
        front[seq][3] = front.len() as u32;
    }
    front.push([16 * ID, 0, 0, 0, 0, 0, 0, 0]);
    assert_eq!(front.len() as u32, before);
    let mut all = front.concat();
    for row in words.chunks(8) {
        let mut row = row.to_vec();
        let count = (row[0] % 16) as usize;
        let first = twin::checks::first_operand(row[0] / 16);
        for operand in &mut row[first..first + count] {
            *operand += before;
        }
        all.extend(row);
    }
    all
}

/// All orderings of a list.
fn orderings<T: Clone>(list: &[T]) -> Vec<Vec<T>> {
    if list.is_empty() {
        return vec![Vec::new()];
    }
    let mut all = Vec::new();
    for index in 0..list.len() {
        let mut rest = list.to_vec();
        let first = rest.remove(index);
        for mut tail in orderings(&rest) {
            tail.insert(0, first.clone());
            all.push(tail);
        }
    }
    all
}

/// A term written out, so that equal terms are equal texts.
fn written(store: &[u32], node: u32) -> String {
    let row = &store[8 * node as usize..8 * node as usize + 8];
    let children: Vec<String> = row[2..2 + row[1] as usize]
        .iter()
        .map(|&child| written(store, child))
        .collect();
    format!("{}({})", row[0], children.join(","))
}

/// What of a run is compared: the answer, the term and the bindings. The place
/// is not (02, wish 10).
fn ending(after: &After) -> (u32, String, Vec<u32>) {
    let term = written(&after.store, after.outcome.subject);
    (after.outcome.answer, term, after.bindings.clone())
}

/// 6(1(), 7(2(), 1()), 2()) with the subject at node 3.
fn terms() -> Vec<u32> {
    store(&[(1, &[]), (2, &[]), (7, &[1, 0]), (6, &[0, 2, 1])], 200)
}

/// Entry 0 is the rule 1() to 2(), entry 5 the rule x to 9(x, x), entry 12 FAIL.
fn rules() -> Vec<u32> {
    table(&[
        (SEQ, 0, &[1, 2]),
        (MATCH, 0, &[3]),
        (BUILD, 0, &[4]),
        (PCON, 1, &[]),
        (PCON, 2, &[]),
        (SCOPE, 1, &[6]),
        (SEQ, 0, &[7, 8]),
        (MATCH, 0, &[9]),
        (BUILD, 0, &[10]),
        (PVAR, 0, &[]),
        (PCON, 9, &[11, 11]),
        (PVAR, 0, &[]),
        (FAIL, 0, &[]),
    ])
}

/// Runs the tasks in every order; the endings.
fn endings(words: &[u32], tasks: &[Task]) -> Vec<(u32, String, Vec<u32>)> {
    let mut bindings = vec![0; 64];
    bindings[0] = 2;
    orderings(tasks)
        .iter()
        .map(|order| {
            let words = in_order(words, order);
            let after = run_with(&words, terms(), bindings.clone(), 4, 0, 3, 1_000);
            ending(&after)
        })
        .collect()
}

#[test]
fn three_places_in_all_six_orders() {
    for entry in [0, 5, 12] {
        assert_eq!(free_variables(&rules(), entry), (0, 0, 0));
    }
    let mut start = vec![0; 64];
    start[0] = 2;
    // At the first child, inside the second, and at the third.
    let tasks = [(vec![1], 0), (vec![2, 2], 5), (vec![3], 5)];
    let all = endings(&rules(), &tasks);
    assert_eq!(all.len(), 6);
    for end in &all {
        let term = "6(2(),7(2(),9(1(),1())),9(2(),2()))".to_string();
        assert_eq!(*end, (0, term, start.clone()));
    }
    // Places below one node.
    let tasks = [(vec![2, 1], 5), (vec![2, 2], 0), (vec![1], 5)];
    for end in endings(&rules(), &tasks) {
        let term = "6(9(1(),1()),7(9(2(),2()),2()),2())".to_string();
        assert_eq!(end, (0, term, start.clone()));
    }
    // One strategy fails: every ordering fails.
    for failing in [(vec![3], 12), (vec![3], 0), (vec![3, 1], 5)] {
        let tasks = [(vec![1], 0), (vec![2, 2], 5), failing];
        let all = endings(&rules(), &tasks);
        assert_eq!(all.len(), 6);
        for end in all {
            assert_eq!(end, (1, written(&terms(), 3), start.clone()));
        }
    }
}

#[test]
fn none_one_and_two_places() {
    let mut start = vec![0; 64];
    start[0] = 2;
    let whole = written(&terms(), 3);
    assert_eq!(endings(&rules(), &[]), [(0, whole, start.clone())]);
    let all = endings(&rules(), &[(vec![], 5)]);
    let twice = format!("9({0},{0})", written(&terms(), 3));
    assert_eq!(all, [(0, twice, start.clone())]);
    let all = endings(&rules(), &[(vec![1], 0), (vec![3], 5)]);
    let term = "6(2(),7(2(),1()),9(2(),2()))".to_string();
    assert_eq!(all, vec![(0, term, start); 2]);
}

#[test]
fn a_place_inside_another_or_a_free_variable_can_tell() {
    // Inside: 1() to 2() below, and x to 9(x, x) above, at the same place.
    let all = endings(&rules(), &[(vec![1], 0), (vec![1], 5)]);
    assert_eq!((all[0].0, all[1].0), (0, 1));
    // A free variable: MATCH x at two places with equal terms is done in both
    // orders, but the bindings are not those of the start, and differ.
    assert_eq!(free_variables(&rules(), 7), (0, 0, 1));
    let tasks = [(vec![1], 7), (vec![2, 2], 7)];
    let same = store(&[(1, &[]), (1, &[]), (7, &[0, 1]), (6, &[0, 2, 1])], 200);
    let ends: Vec<After> = orderings(&tasks)
        .iter()
        .map(|order| {
            let words = in_order(&rules(), order);
            run_with(&words, same.clone(), vec![0; 64], 4, 0, 3, 1_000)
        })
        .collect();
    assert_eq!((ends[0].outcome.answer, ends[1].outcome.answer), (0, 0));
    assert_eq!((ends[0].bindings[0], ends[1].bindings[0]), (1, 2));
}

#[test]
fn generated_strategies_at_three_places() {
    let (done, failed) = twin::with_big_stack(|| {
        let mut done = 0;
        let mut failed = 0;
        for index in 0..900 {
            let case = run_case(18, index);
            let mut fresh = case.store.clone();
            let mut bindings = case.bindings.clone();
            let run =
                |words: &[u32], store: &mut Vec<u32>, bindings: &mut Vec<u32>, start, units| {
                    twin::run(
                        words,
                        store,
                        bindings,
                        case.mark,
                        start,
                        case.subject,
                        units,
                    )
                };
            let asked = run(&case.table, &mut fresh, &mut bindings, case.start, 0);
            if asked.answer != 6 || case.store.len() > 512 || case.table.len() > 400 {
                continue;
            }
            let children = case.store[8 * case.subject as usize + 1];
            if children < 3 {
                continue;
            }
            let closed: Vec<u32> = (0..case.table.len() as u32 / 8)
                .filter(|&entry| {
                    let (answer, _, mask) = free_variables(&case.table, entry);
                    answer == 0 && mask == 0
                })
                .collect();
            if closed.is_empty() {
                continue;
            }
            for round in 0..closed.len().min(6) {
                let pick = |step: usize| closed[(round + step * round) % closed.len()];
                let tasks = [(vec![1], pick(0)), (vec![2], pick(1)), (vec![3], pick(2))];
                let ends = |tasks: &[Task]| {
                    let mut store = case.store.clone();
                    store.resize(8 * 400, 0);
                    let mut bindings = case.bindings.clone();
                    let words = in_order(&case.table, tasks);
                    let outcome = run(&words, &mut store, &mut bindings, 0, 4_000);
                    (outcome.answer, written(&store, outcome.subject), bindings)
                };
                // Each alone has a derivation.
                let alone = tasks
                    .iter()
                    .all(|task| ends(std::slice::from_ref(task)).0 < 2);
                if !alone {
                    continue;
                }
                let all: Vec<_> = orderings(&tasks).iter().map(|order| ends(order)).collect();
                for end in &all {
                    assert_eq!(*end, all[0], "{} {:?}", case.label, tasks);
                    assert!(end.0 < 2, "{} {:?}", case.label, tasks);
                    assert_eq!(end.2, case.bindings, "{}", case.label);
                }
                done += u32::from(all[0].0 == 0);
                failed += u32::from(all[0].0 == 1);
            }
        }
        (done, failed)
    });
    assert!(done > 40 && failed > 40, "{} {}", done, failed);
}
