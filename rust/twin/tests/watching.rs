//! What a watcher sees of the visits that apply an entry: in which order they begin and end, on which term, and with which bindings.

use twin::checks::VARIABLES;
use twin::engine::{run_watched, Sight, Watcher, Way};

/// What was seen, a line for each event.
#[derive(Default)]
struct Seen(Vec<String>);

impl Watcher for Seen {
    fn applied(&mut self, entry: u32, term: u32, sight: Sight<'_>) {
        let constructor = sight.store[8 * term as usize];
        self.0.push(format!(
            "{} on {}, x {}",
            entry, constructor, sight.bindings[0]
        ));
    }

    fn ended(&mut self, entry: u32, way: Way, sight: Sight<'_>) {
        self.0
            .push(format!("{} {:?}, x {}", entry, way, sight.bindings[0]));
    }
}

/// Runs entry 0 of a table on 5(1, 2), which is node 2, in a store of so many nodes.
fn seen(table: &[[u32; 8]], nodes: usize, units: u32) -> Vec<String> {
    let mut store = vec![1, 0, 0, 0, 0, 0, 0, 0, 2, 0, 0, 0, 0, 0, 0, 0];
    store.extend([5, 2, 0, 1, 0, 0, 0, 0]);
    store.resize(8 * nodes, 0);
    let mut seen = Seen::default();
    run_watched(
        &table.concat(),
        &mut store,
        &mut [0; VARIABLES],
        3,
        0,
        2,
        units,
        &mut seen,
    );
    seen.0
}

/// LEFT of (SEQ of MATCH x, FAIL) and ID: a failure has no bindings of its own, and what is tried next begins without them.
#[test]
fn a_branch_that_binds_and_fails() {
    let table = [
        [6 * 16 + 2, 0, 1, 4, 0, 0, 0, 0],
        [4 * 16 + 2, 0, 2, 3, 0, 0, 0, 0],
        [14 * 16 + 1, 0, 5, 0, 0, 0, 0, 0],
        [16, 0, 0, 0, 0, 0, 0, 0],
        [0, 0, 0, 0, 0, 0, 0, 0],
        [18 * 16, 0, 0, 0, 0, 0, 0, 0],
    ];
    assert_eq!(
        seen(&table, 3, 99),
        [
            "0 on 5, x 0",
            "1 on 5, x 0",
            "2 on 5, x 0",
            "2 Success(2), x 3",
            "3 on 5, x 3",
            "3 Failure, x 3",
            "1 Failure, x 3",
            "4 on 5, x 0",
            "4 Success(2), x 0",
            "0 Success(2), x 0",
        ]
    );
}

/// ALL of ID: children are terms of their own, and a visit that finds no room was under way.
#[test]
fn children_and_a_cut_off() {
    let table = [[11 * 16 + 1, 0, 1, 0, 0, 0, 0, 0], [0; 8]];
    let children = [
        "0 on 5, x 0",
        "1 on 1, x 0",
        "1 Success(0), x 0",
        "1 on 2, x 0",
        "1 Success(1), x 0",
    ];
    let whole = seen(&table, 4, 99);
    assert_eq!(whole[..5], children);
    assert_eq!(whole[5..], ["0 Success(3), x 0"]);
    let full = seen(&table, 3, 99);
    assert_eq!(full[..5], children);
    assert_eq!(full[5..], ["0 InFlight, x 0"]);
    // A visit that is not made is not seen.
    assert_eq!(seen(&table, 4, 1), ["0 on 5, x 0", "0 InFlight, x 0"]);
}
