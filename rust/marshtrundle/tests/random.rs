//! Random words: every call ends, and every answer keeps the laws that document 01 states for it.
use marshtrundle::{with_stack, words};

/// A generator of numbers that needs nothing: xorshift.
struct Random(u64);

impl Random {
    fn next(&mut self) -> u64 {
        self.0 ^= self.0 << 13;
        self.0 ^= self.0 >> 7;
        self.0 ^= self.0 << 17;
        self.0
    }

    fn below(&mut self, limit: u64) -> u32 {
        (self.next() % limit.max(1)) as u32
    }
}

/// A table in good form but for what `damage` changes in it.
fn table(r: &mut Random, entries: u32, damage: bool) -> Vec<u32> {
    let mut words = vec![];
    let patterns = 2 + entries / 4;
    let first_pattern = entries - patterns;
    let rec = r.below(u64::from(first_pattern));
    for e in 0..entries {
        let later = |r: &mut Random, from: u32, to: u32| from + r.below(u64::from(to - from));
        let mut row = [0; 8];
        let kind = match e {
            _ if e == rec => 7,
            _ if e + 1 == entries => 18,
            _ if e >= first_pattern => 18 + r.below(2),
            _ if e + 1 == first_pattern => r.below(2),
            _ => r.below(18),
        };
        let count = match kind {
            0 | 1 | 18 => 0,
            4..=6 => 2,
            10 | 19 => r.below(4),
            _ => 1,
        };
        // The last strategy has no strategy behind it.
        let kind = if e + 1 == first_pattern && kind == 7 {
            14
        } else {
            kind
        };
        row[0] = 16 * kind + count;
        row[1] = match kind {
            9 => 1 + r.below(6),
            10 | 19 => r.below(4),
            16 => r.next() as u32,
            18 => [r.below(4), 30 + r.below(4), r.below(64)][r.below(3) as usize],
            _ => 0,
        };
        let from = if kind == 16 { 3 } else { 2 };
        if kind == 16 {
            row[2] = r.next() as u32;
        }
        for word in &mut row[from..from + count as usize] {
            *word = match kind {
                8 => rec,
                14 | 15 => later(r, first_pattern, entries),
                19 => later(r, e + 1, entries),
                _ => later(r, e + 1, first_pattern),
            };
        }
        words.extend(row);
    }
    if damage {
        let at = r.below(words.len() as u64) as usize;
        words[at] = r.next() as u32 >> r.below(32);
    }
    words
}

fn store(r: &mut Random, nodes: u32, room: u32, damage: bool) -> Vec<u32> {
    let mut words = vec![];
    for k in 0..nodes {
        let count = if k == 0 { 0 } else { r.below(4) };
        let mut row = [r.below(4), count, 0, 0, 0, 0, 0, 0];
        for word in &mut row[2..2 + count as usize] {
            *word = r.below(u64::from(k));
        }
        words.extend(row);
    }
    words.extend((0..8 * room).map(|_| r.next() as u32));
    if damage {
        let at = r.below(words.len() as u64) as usize;
        words[at] = r.next() as u32 >> r.below(32);
    }
    words
}

/// Makes the run with counts beside the run that gave these numbers and left these words, and holds the counts to their laws.
fn counted(
    table: &[u32],
    given: &[u32],
    bound: &[u32],
    [mark, start, subject, units]: [u32; 4],
    end: [u32; 5],
    left: (&[u32], &[u32]),
) {
    let (mut store, mut bindings) = (given.to_vec(), bound.to_vec());
    let mut counts = vec![7; 4 * (table.len() / 8)];
    let seven = words::run_counted(
        table,
        &mut store,
        &mut bindings,
        mark,
        start,
        subject,
        units,
        &mut counts,
        None,
    );
    assert_eq!(seven[..5], end);
    assert_eq!((&store[..], &bindings[..]), left);
    let cut_off = matches!(end[0], 6 | 7 | 8 | 12);
    let mut visits = u64::from(seven[5]) + u64::from(seven[6]);
    for (four, entry) in counts.chunks(4).zip(table.chunks(8)) {
        let [began, won, lost, flying] = [four[0] - 7, four[1] - 7, four[2] - 7, four[3] - 7];
        visits += began;
        assert_eq!(began, won + lost + flying);
        assert!(cut_off || flying == 0);
        assert!(entry[0] / 16 < 18 || began == 0);
    }
    assert_eq!(visits, u64::from(end[4]));
}

/// Makes the run twice and holds the answer to its laws. Gives the answer back.
fn tried(table: &[u32], given: &[u32], bound: &[u32], numbers: [u32; 4]) -> usize {
    let [mark, start, subject, units] = numbers;
    let (mut store, mut bindings) = (given.to_vec(), bound.to_vec());
    let end = words::run(
        table,
        &mut store,
        &mut bindings,
        mark,
        start,
        subject,
        units,
    );
    let [answer, place, new_subject, new_mark, used] = end;
    let (mut again, mut bound_again) = (given.to_vec(), bound.to_vec());
    let same = words::run(
        table,
        &mut again,
        &mut bound_again,
        mark,
        start,
        subject,
        units,
    );
    assert_eq!((end, &store, &bindings), (same, &again, &bound_again));
    assert!(matches!(answer, 0..=2 | 4..=8 | 12..=17) && used <= units);
    counted(table, given, bound, numbers, end, (&store, &bindings));
    // The place of 12 is a variable that the table names.
    let named = |v| {
        table
            .chunks(8)
            .any(|entry| entry[0] == 16 * 18 && entry[1] == v)
    };
    assert!(answer != 12 || place < 64 && named(place));
    if answer != 0 {
        assert_eq!((new_subject, new_mark), (subject, mark));
        assert_eq!(bindings, bound);
    }
    if matches!(answer, 2 | 4 | 5 | 13..=17) {
        assert_eq!((store.as_slice(), used), (given, 0));
    } else {
        let kept = 8 * mark as usize;
        assert_eq!(store[..kept], given[..kept]);
        assert!(store[8 * new_mark as usize..].iter().all(|&word| word == 0));
        assert_eq!(words::check_store(&store, new_mark), [0, 0]);
        assert!(new_subject < new_mark);
        assert!(bindings.iter().all(|&word| word <= new_mark));
    }
    match words::check_table(table) {
        [0, 0] => assert!(answer < 13),
        bad if answer != 2 => assert_eq!([answer, place], bad),
        _ => {}
    }
    let [told, at, mask] = words::free_variables(table, start);
    assert!(told == 0 || matches!(told, 2 | 5 | 13..=17) && mask == 0);
    assert!(told > 12 || at == 0);
    answer as usize
}

#[test]
fn words_without_any_form() {
    with_stack(|| {
        let mut r = Random(0x9e37_79b9_7f4a_7c15);
        for _ in 0..3_000 {
            let mut words = |limit: u64| -> Vec<u32> {
                let (length, shift) = (r.below(limit), r.below(32));
                (0..length).map(|_| r.next() as u32 >> shift).collect()
            };
            let (table, store, mut bindings) = (words(80), words(80), words(40));
            if r.below(2) == 0 {
                bindings.resize(32, 0);
            }
            let numbers = [r.below(12), r.below(12), r.below(12), r.below(1_000)];
            tried(&table, &store, &bindings, numbers);
        }
    })
    .unwrap();
}

#[test]
fn words_in_good_form_and_damaged_ones() {
    let seen = with_stack(|| {
        let mut r = Random(0xd1b5_4a32_d192_ed03);
        let mut seen = [0; 18];
        for case in 0..8_000 {
            let entries = 4 + r.below(40);
            let table = table(&mut r, entries, case % 5 == 0);
            let (nodes, room) = (1 + r.below(12), r.below(30));
            let store = store(&mut r, nodes, room, case % 7 == 0);
            let mut bindings = vec![0; 64];
            for _ in 0..r.below(6) {
                let limit = if case % 11 == 0 { nodes + 2 } else { nodes + 1 };
                bindings[r.below(64) as usize] = r.below(u64::from(limit));
            }
            let units = [r.below(30), r.below(3_000), 40_000][r.below(3) as usize];
            let start = r.below(u64::from(entries / 2));
            let subject = r.below(u64::from(nodes));
            seen[tried(&table, &store, &bindings, [nodes, start, subject, units])] += 1;
        }
        seen
    })
    .unwrap();
    // All answers but 2, which needs a bad length, come up.
    assert_eq!(seen[2], 0, "{seen:?}");
    for answer in [0, 1, 4, 5, 6, 7, 8, 12, 13, 14, 15, 16, 17] {
        assert!(seen[answer] > 10, "{seen:?}");
    }
}
