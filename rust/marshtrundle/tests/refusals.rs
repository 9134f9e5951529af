//! Every refusal: its number, its place, and that nothing is written.
use marshtrundle::strategy::*;
use marshtrundle::{
    free_variables, run, words, Answer, Bindings, Entry, Fault, Node, Store, Table, VARS,
};

const ID: [u32; 8] = [0; 8];
/// A PVAR entry.
const PVAR: [u32; 8] = [18 * 16, 0, 0, 0, 0, 0, 0, 0];

/// A run over words that are all there: one ID, one node in a store of two, 32 bindings. Each part can be changed.
struct Input {
    table: Vec<u32>,
    store: Vec<u32>,
    bindings: Vec<u32>,
    mark: u32,
    start: u32,
    subject: u32,
}

fn input() -> Input {
    let mut store = vec![0; 16];
    store[8..].fill(77);
    Input {
        table: ID.to_vec(),
        store,
        bindings: vec![0; 64],
        mark: 1,
        start: 0,
        subject: 0,
    }
}

impl Input {
    /// Runs, and holds the answer to what it must be. A refused run writes nothing, not even in the room.
    fn gives(mut self, answer: u32, place: u32) {
        let (store, bindings) = (self.store.clone(), self.bindings.clone());
        let numbers = words::run(
            &self.table,
            &mut self.store,
            &mut self.bindings,
            self.mark,
            self.start,
            self.subject,
            99,
        );
        assert_eq!(numbers[..2], [answer, place]);
        if (2..=5).contains(&answer) || answer > 12 {
            assert_eq!(numbers[2..], [self.subject, self.mark, 0]);
            assert_eq!((self.store, self.bindings), (store, bindings));
        }
    }
}

#[test]
fn the_input_itself_is_done() {
    input().gives(0, 0);
}

#[test]
fn two_lengths_and_the_mark() {
    for length in [0, 1, 7, 9, 15, 32_769, 32_776] {
        let table = vec![0; length];
        assert_eq!(words::check_table(&table), [2, 0]);
        assert_eq!(words::free_variables(&table, 0), [2, 0, 0]);
        Input { table, ..input() }.gives(2, 0);
    }
    for length in [1, 7, 9, 17, 1_048_577, 1_048_584] {
        let store = vec![0; length];
        assert_eq!(words::check_store(&store, 0), [2, 0]);
        let mark = 0;
        Input {
            store,
            mark,
            ..input()
        }
        .gives(2, 0);
    }
    for length in [0, 1, 32, 63, 65, 128] {
        let bindings = vec![0; length];
        Input {
            bindings,
            ..input()
        }
        .gives(2, 0);
    }
    for mark in [3, 4, 131_072, 131_073, u32::MAX] {
        assert_eq!(words::check_store(&input().store, mark), [2, 0]);
        Input { mark, ..input() }.gives(2, 0);
    }
}

#[test]
fn two_of_everything_empty() {
    assert_eq!(words::check_table(&[]), [2, 0]);
    assert_eq!(words::check_store(&[], 0), [0, 0]);
    assert_eq!(words::check_store(&[], 1), [2, 0]);
    assert_eq!(words::free_variables(&[], 0), [2, 0, 0]);
    assert_eq!(
        words::run(&[], &mut [], &mut [], 0, 0, 0, 0),
        [2, 0, 0, 0, 0]
    );
    assert_eq!(
        words::run(&[], &mut [], &mut [], 1, 2, 3, 4),
        [2, 0, 3, 1, 0]
    );
    // A store without nodes is well formed, but it has no subject.
    assert_eq!(
        words::run(&ID, &mut [], &mut [0; 64], 0, 0, 0, 9),
        [5, 0, 0, 0, 0]
    );
}

#[test]
fn the_largest_sizes_are_taken() {
    let table = vec![0; 32_768];
    let store = vec![0; 1_048_576];
    assert_eq!(words::check_table(&table), [0, 0]);
    assert_eq!(words::check_store(&store, 131_072), [0, 0]);
    let (mark, subject, start) = (131_072, 131_071, 4_095);
    Input {
        table,
        store,
        mark,
        subject,
        start,
        ..input()
    }
    .gives(0, 0);
}

/// A table with ID at entries 0, 2 and 3, a REC at 4, and the entry under test at 1.
fn with_entry(entry: [u32; 8]) -> Vec<u32> {
    let rec = [7 * 16 + 1, 0, 5, 0, 0, 0, 0, 0];
    [ID, entry, ID, ID, rec, ID, PVAR, PVAR].concat()
}

#[test]
fn thirteen_to_seventeen_every_way_in_which_an_entry_is_bad() {
    use Fault::*;
    // The entry, its fault, the first word that shows it.
    let bad: &[([u32; 8], Fault, usize)] = &[
        ([20 * 16, 0, 0, 0, 0, 0, 0, 0], Kind, 0), // no such kind
        ([u32::MAX; 8], Kind, 0),                  // no such kind
        ([1, 0, 2, 0, 0, 0, 0, 0], Kind, 0),       // ID with an operand
        ([2 * 16, 0, 0, 0, 0, 0, 0, 0], Kind, 0),  // TEST without one
        ([4 * 16 + 1, 0, 2, 0, 0, 0, 0, 0], Kind, 0), // SEQ with one
        ([10 * 16 + 7, 0, 2, 2, 2, 2, 2, 2], Kind, 0), // CONG with seven
        ([0, 1, 0, 0, 0, 0, 0, 0], Argument, 1),   // an argument that is not named
        ([9 * 16 + 1, 0, 2, 0, 0, 0, 0, 0], Argument, 1), // PATH 0
        ([9 * 16 + 1, 7, 2, 0, 0, 0, 0, 0], Argument, 1), // PATH 7
        ([10 * 16, 65_536, 0, 0, 0, 0, 0, 0], Argument, 1), // CONG of no constructor
        ([18 * 16, 64, 0, 0, 0, 0, 0, 0], Argument, 1), // PVAR of no variable
        ([16 * 16 + 1, 3, 2, 0, 0, 0, 0, 0], Operand, 3), // SCOPE with its operand in word 2
        ([16 * 16 + 1, 3, 9, 6, 0, 0, 0, 0], Sort, 3), // SCOPE of a pattern
        ([16 * 16 + 1, 3, 9, 2, 0, 0, 0, 1], Word, 7), // SCOPE with an unused word
        ([19 * 16, 65_536, 0, 0, 0, 0, 0, 0], Argument, 1), // PCON of no constructor
        ([2 * 16 + 1, 0, 1, 0, 0, 0, 0, 0], Operand, 2), // an operand that is the entry itself
        ([2 * 16 + 1, 0, 0, 0, 0, 0, 0, 0], Operand, 2), // an operand below it
        ([2 * 16 + 1, 0, 8, 0, 0, 0, 0, 0], Operand, 2), // an operand outside the table
        ([2 * 16 + 1, 0, u32::MAX, 0, 0, 0, 0, 0], Operand, 2), // an operand far outside
        ([2 * 16 + 1, 0, 6, 0, 0, 0, 0, 0], Sort, 2), // TEST of a pattern
        ([14 * 16 + 1, 0, 2, 0, 0, 0, 0, 0], Sort, 2), // MATCH of a strategy
        ([19 * 16 + 1, 0, 2, 0, 0, 0, 0, 0], Sort, 2), // PCON of a strategy
        ([8 * 16 + 1, 0, 2, 0, 0, 0, 0, 0], Sort, 2), // CALL of no REC
        ([8 * 16 + 1, 0, 8, 0, 0, 0, 0, 0], Operand, 2), // CALL outside the table
        ([0, 0, 1, 0, 0, 0, 0, 0], Word, 2),       // an unused word
        ([2 * 16 + 1, 0, 2, 0, 0, 0, 0, 9], Word, 7), // an unused word behind the operands
        ([20 * 16, 9, 9, 9, 9, 9, 9, 9], Kind, 0), // and everything else
        ([2 * 16 + 1, 1, 9, 9, 9, 9, 9, 9], Argument, 1), // and the operand, and unused words
        ([4 * 16 + 2, 0, 6, 8, 9, 9, 9, 9], Operand, 3), // a pattern first, then outside the table
        ([4 * 16 + 2, 0, 2, 6, 9, 9, 9, 9], Sort, 3), // a pattern, and unused words
        ([8 * 16 + 1, 0, 1, 0, 0, 0, 0, 0], Sort, 2), // CALL of itself
    ];
    for &(entry, fault, word) in bad {
        let table = with_entry(entry);
        let answer = fault.number();
        assert_eq!(words::check_table(&table), [answer, 1], "{entry:?}");
        assert_eq!(
            words::free_variables(&table, 0),
            [answer.into(), 1, 0],
            "{entry:?}"
        );
        let whole = Table::from_words(table.clone());
        assert_eq!(whole.check(), Err(Answer::BadEntry(1, fault)));
        let shown = whole.explain(Answer::BadEntry(1, fault)).expect("a word");
        assert_eq!((shown.word, shown.found), (word, entry[word]), "{entry:?}");
        Input { table, ..input() }.gives(answer, 1);
    }
    let good: &[[u32; 8]] = &[
        [8 * 16 + 1, 0, 4, 0, 0, 0, 0, 0],                // CALL of the REC
        [16 * 16 + 1, u32::MAX, u32::MAX, 2, 0, 0, 0, 0], // SCOPE of all variables
        [10 * 16 + 6, 65_535, 2, 2, 3, 3, 4, 5],          // CONG of six
        [19 * 16 + 2, 65_535, 6, 7, 0, 0, 0, 0],          // PCON of patterns
    ];
    for &entry in good {
        assert_eq!(words::check_table(&with_entry(entry)), [0, 0], "{entry:?}");
    }
}

#[test]
fn four_every_way_in_which_a_node_is_bad() {
    let bad: &[[u32; 8]] = &[
        [65_536, 0, 0, 0, 0, 0, 0, 0], // no such constructor
        [0, 7, 0, 0, 0, 0, 0, 0],      // seven children
        [0, 1, 1, 0, 0, 0, 0, 0],      // a child that is the node itself
        [0, 1, 2, 0, 0, 0, 0, 0],      // a child above it
        [0, 0, 1, 0, 0, 0, 0, 0],      // an unused word
        [0, 1, 0, 0, 0, 0, 0, 1],      // an unused word behind the children
        [u32::MAX; 8],
    ];
    for &node in bad {
        let store = [[0; 8], node, [0; 8], [9; 8]].concat();
        assert_eq!(words::check_store(&store, 3), [4, 1], "{node:?}");
        assert_eq!(words::check_store(&store, 1), [0, 0], "{node:?}");
        let from = Store::from_words(store.clone(), 3);
        assert_eq!(from.check(), Err(Answer::BadNode(1)));
        // Reading a term of a bad store ends, too.
        let _ = from.term(Node::from_number(1)).unwrap().to_string();
        let mark = 3;
        Input {
            store,
            mark,
            ..input()
        }
        .gives(4, 1);
    }
}

#[test]
fn five_start_subject_and_bindings() {
    for start in [1, 4_096, u32::MAX] {
        assert_eq!(words::free_variables(&ID, start), [5, 0, 0]);
        Input { start, ..input() }.gives(5, 0);
    }
    let table = PVAR.to_vec();
    assert_eq!(words::free_variables(&table, 0), [5, 0, 0]);
    Input { table, ..input() }.gives(5, 0);
    for subject in [1, 2, u32::MAX] {
        Input { subject, ..input() }.gives(5, 0);
    }
    for word in [2, 3, u32::MAX] {
        for variable in [0, 31] {
            let mut bindings = vec![0; 64];
            bindings[variable] = word;
            Input {
                bindings,
                ..input()
            }
            .gives(5, 0);
        }
    }
    let bindings = vec![1; 64];
    Input {
        bindings,
        ..input()
    }
    .gives(0, 0);
}

#[test]
fn the_order_is_2_then_13_to_17_then_4_and_5() {
    let worst = || Input {
        table: [u32::MAX; 8].to_vec(),
        store: vec![u32::MAX; 8],
        bindings: vec![u32::MAX; 64],
        mark: 1,
        start: 9,
        subject: 9,
    };
    Input { mark: 2, ..worst() }.gives(2, 0);
    worst().gives(13, 0);
    Input {
        table: ID.to_vec(),
        ..worst()
    }
    .gives(4, 0);
    Input {
        table: ID.to_vec(),
        store: vec![0; 8],
        ..worst()
    }
    .gives(5, 0);
}

#[test]
fn refusals_by_the_safe_types() {
    let table = Table::of(&seq(match_(var(VARS[0])), id())).unwrap();
    let mut store = Store::new();
    let leaf = store.node(1, &[]).unwrap();
    let mut bindings = Bindings::new();
    let nowhere = Node::from_number(7);
    let mut answer = |table: &Table, start, subject, bindings: &mut Bindings| {
        run(table, &mut store, bindings, start, subject, 9).answer
    };
    let first = Entry::FIRST;
    assert_eq!(
        answer(&Table::default(), first, leaf, &mut bindings),
        Answer::RefusedSizes
    );
    assert_eq!(
        answer(&table, Entry::from_number(3), leaf, &mut bindings),
        Answer::BadStart
    );
    assert_eq!(
        answer(&table, Entry::from_number(9), leaf, &mut bindings),
        Answer::BadStart
    );
    assert_eq!(
        answer(&table, first, nowhere, &mut bindings),
        Answer::BadStart
    );
    bindings.bind(VARS[3], nowhere);
    assert_eq!(answer(&table, first, leaf, &mut bindings), Answer::BadStart);
    bindings.unbind(VARS[3]);
    assert_eq!(answer(&table, first, leaf, &mut bindings), Answer::Done);
    assert_eq!(
        free_variables(&table, Entry::from_number(3)),
        Err(Answer::BadStart)
    );
    assert_eq!(
        free_variables(&Table::default(), first),
        Err(Answer::RefusedSizes)
    );
}
