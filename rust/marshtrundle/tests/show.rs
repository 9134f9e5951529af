//! What is shown: terms, strategies and tables as text and as graphs, differences; files of names.
use marshtrundle::job::Job;
use marshtrundle::show::{Names, Show};
use marshtrundle::strategy::*;
use marshtrundle::{Bindings, Entry, Node, Store, Table, TableBuilder, VARS};

fn read(store: &mut Store, text: &str) -> Node {
    Names::new().read_term(store, text).unwrap()
}

const PRUNER: &str = include_str!("../../../examples/pruner.job");
const PRUNER_NAMES: &str = include_str!("../../../examples/pruner.names");
const PRUNER_PAGE: &str = include_str!("../../../examples/pruner.md");

/// The definitions that the pruner's page writes by hand, and what the table says.
#[test]
fn the_pruner_is_shown_as_its_page_writes_it() {
    let names = Names::read(PRUNER_NAMES).unwrap();
    let job = Job::read(PRUNER.as_bytes()).unwrap();
    let shown = Show::new(&names).table(&job.table);
    let by_name = |text: &str| -> Vec<(String, String)> {
        let mut lines: Vec<(String, String)> = text
            .lines()
            .filter_map(|line| line.trim().split_once(" = "))
            .map(|(name, body)| (name.trim().to_owned(), body.trim().to_owned()))
            .collect();
        lines.sort();
        lines
    };
    let page = PRUNER_PAGE.split("## The strategy").nth(1).unwrap();
    let page = page.split("README.md").next().unwrap();
    let written = by_name(page);
    assert_eq!(written.len(), 6);
    for (name, body) in &by_name(&shown) {
        // The page names a recursion's call by another word than the recursion.
        let body = body
            .replace("rec prune(", "rec again(")
            .replace("; prune)", "; again)")
            .replace("rec walk(", "rec down(")
            .replace("CELL(id, walk)", "CELL(id, down)");
        match written.iter().find(|(other, _)| other == name) {
            Some((_, other)) => {
                let seek = "rec seek(names <+ one(seek))";
                assert_eq!(&body, &other.replace(seek, "seek"), "{name}");
            }
            None => assert_eq!(
                (name.as_str(), body.as_str()),
                ("seek", "rec seek(names <+ one(seek))")
            ),
        }
    }
    assert_eq!(by_name(&shown).len(), 7);
}

#[test]
fn a_job_is_read_and_written_back() {
    let mut job = Job::read(PRUNER.as_bytes()).unwrap();
    assert_eq!(job.to_string(), PRUNER);
    let end = job.run();
    assert_eq!(
        job.answer(&end),
        include_str!("../../../examples/pruner.answer")
    );
    let names = Names::read(PRUNER_NAMES).unwrap();
    let show = Show::new(&names);
    let subject = job.store.term(end.subject).unwrap();
    let before = job.store.term(Node::from_number(34)).unwrap();
    assert_eq!(
        show.difference(before, subject),
        "at 1.2.2.2.2.2: CELL(FUN(layout, RETURN), CELL(FUN(report, CALLS(layout)), END)), then END\n"
    );
    assert_eq!(show.bindings(&job.store, &job.bindings), "m = main");
}

#[test]
fn bad_text_is_named_by_line() {
    for (text, fault) in [
        ("", "line 1: there is no line"),
        (
            "job\t1\t0\t0\t1",
            "line 1: the line does not end in a line feed",
        ),
        (
            "jab\t1\t0\t0\t1\n",
            "line 1: it begins with 'jab', and the first line with 'job'",
        ),
        ("job\t1\t0\t0\n", "line 1: it has 3 numbers, expected 4"),
        ("job\t1\t0\t0\t131073\n", "line 1: 131073 is above 131072"),
        (
            "job\t4294967296\t0\t0\t1\n",
            "line 1: 4294967296 is above 4294967295",
        ),
        (
            "job\t1\t0\t0\t1\r\n",
            "line 1: it ends in a carriage return; a line ends in a line feed alone",
        ),
        (
            "job\t1\t0\t0\t1\n\n",
            "line 2: it begins with '', and not with e, n or b",
        ),
        (
            "job\t1\t0\t0\t1\nn\t1\ne\t0\t0\n",
            "line 3: 'e' stands after 'n'",
        ),
        ("job\t1\t0\t0\t1\ne\t256\t0\n", "line 2: 256 is above 255"),
        (
            "job\t1\t0\t0\t1\ne\t0\t0\t1\t1\t1\t1\t1\t1\t1\n",
            "line 2: it has 9 numbers, expected 2 to 8",
        ),
        (
            "job\t1\t0\t0\t1\nn\t\n",
            "line 2: a field is empty: fields are parted by one tab",
        ),
        (
            "job\t1\t0\t0\t1\nn\t01\n",
            "line 2: '01' has a leading zero",
        ),
        ("job\t1\t0\t0\t1\nn\t-1\n", "line 2: '-1' is no number"),
        ("job\t1\t0\t0\t1\nb\t64\t0\n", "line 2: 64 is above 63"),
        (
            "job\t1\t0\t0\t1\nb\t0\t131072\n",
            "line 2: 131072 is above 131071",
        ),
        (
            "job\t1\t0\t0\t1\nb\t3\t0\nb\t3\t0\n",
            "line 3: variable 3 does not rise",
        ),
    ] {
        let found = Job::read(text.as_bytes()).unwrap_err();
        assert_eq!(found.to_string(), fault);
        assert_eq!(
            found.answer(),
            format!("answer\t9\t{}\t0\t0\t0\n", found.line)
        );
    }
    assert_eq!(Job::read(b"job\t1\t0\t0\t1\n\xff\n").unwrap_err().line, 2);
}

/// A job may fill the table and the store.
#[test]
fn a_job_may_be_large() {
    let mut text = "job\t4294967295\t0\t131071\t131072\n".to_owned();
    text.push_str(&"e\t0\t0\n".repeat(4_096));
    text.push_str(&"n\t1\n".repeat(131_072));
    let mut job = Job::read(text.as_bytes()).unwrap();
    let end = job.run();
    assert_eq!((end.answer.number(), end.units), (0, 1));
    // More nodes than room is answer 2, and the mark is as given.
    let mut job = Job::read(b"job\t1\t0\t0\t1\ne\t0\t0\nn\t1\nn\t1\n").unwrap();
    let end = job.run();
    assert_eq!(job.answer(&end), "answer\t2\t0\t0\t2\t0\n");
}

#[test]
fn a_shared_term_is_as_long_as_its_nodes() {
    let names = Names::new();
    let mut store = Store::new();
    let mut term = store.node(1, &[]).unwrap();
    for _ in 0..23 {
        term = store.node(5, &[term, term]).unwrap();
    }
    let term = store.term(term).unwrap();
    let text = Show::new(&names).term(term);
    assert!(text.len() < 400, "{} bytes", text.len());
    assert!(text.starts_with("5(#22=5(#21=5("), "{text}");
    assert!(text.ends_with("#1=5(1, 1), #1), #2), #3), #4), #5), #6), #7), #8), #9), #10), #11), #12), #13), #14), #15), #16), #17), #18), #19), #20), #21), #22)"), "{text}");
}

#[test]
fn limits_cut_and_deep_terms_do_not_overflow() {
    let names = Names::new();
    let show = Show::new(&names);
    let mut store = Store::new();
    let wide = read(&mut store, "9(1, 2(3), 4(5(6)))");
    let wide = store.term(wide).unwrap();
    assert_eq!(show.term(wide), "9(1, 2(3), 4(5(6)))");
    assert_eq!(show.depth(2).term(wide), "9(1, 2(..), 4(..))");
    assert_eq!(show.depth(0).term(wide), "..");
    assert_eq!(show.length(3).term(wide), "9(1, 2(..), ..)");
    let mut store = Store::new();
    let mut deep = store.node(1, &[]).unwrap();
    for _ in 0..100_000 {
        deep = store.node(2, &[deep]).unwrap();
    }
    let deep = store.term(deep).unwrap();
    assert!(show
        .term(deep)
        .ends_with(&format!("2(..{}", ")".repeat(100))));
    assert_eq!(show.in_full().term(deep).len(), 100_000 * 3 + 1);
    let nested = (0..4_000).fold(id(), |s, _| not(s));
    let table = Table::of(&nested).unwrap();
    assert_eq!(
        show.in_full().strategy(&table, Entry::FIRST).len(),
        4_000 * 5 + 2
    );
    assert!(show.strategy(&table, Entry::FIRST).contains(".."));
}

#[test]
fn every_operator_has_its_notation() {
    let names =
        Names::read("constructor 5 PAIR\nconstructor 6 NIL\nvariable 0 x\nvariable 1 y").unwrap();
    let show = Show::new(&names);
    let [x, y, z, ..] = VARS;
    let text = |s: Strategy| show.strategy(&Table::of(&s).unwrap(), Entry::FIRST);
    assert_eq!(text(test(id())), "test(id)");
    assert_eq!(text(not(fail())), "not(fail)");
    assert_eq!(
        text(seq(id(), seq(fail(), test(id())))),
        "id ; fail ; test(id)"
    );
    assert_eq!(
        text(seq(seq(id(), fail()), test(id()))),
        "(id ; fail) ; test(id)"
    );
    assert_eq!(text(choice(id(), fail())), "id + fail");
    assert_eq!(
        text(left(choice(id(), fail()), seq(id(), fail()))),
        "(id + fail) <+ (id ; fail)"
    );
    assert_eq!(text(rec(|again| seq(id(), again))), "rec s0(id ; s0)");
    assert_eq!(text(path(2, id())), "2(id)");
    assert_eq!(text(cong(5, [id(), fail()])), "PAIR(id, fail)");
    assert_eq!(text(cong(6, [])), "NIL");
    assert_eq!(text(all(one(some(id())))), "all(one(some(id)))");
    assert_eq!(text(match_(con(5, [var(x), con(6, [])]))), "?PAIR(x, NIL)");
    assert_eq!(text(build(con(7, [var(z)]))), "!7(v2)");
    assert_eq!(
        text(scope([x, y], where_(match_(var(x))))),
        "{x, y: where(?x)}"
    );
}

/// What is used twice is a definition of its own, and names of a builder are used.
#[test]
fn definitions_and_entries() {
    let names = Names::new();
    let mut builder = TableBuilder::new();
    builder.define("walk", seq(all(call("walk")), call("step")));
    builder.define("step", left(not(one(id())), fail()));
    let twice = not(one(id()));
    builder.add("start", seq(twice.clone(), left(twice, call("walk"))));
    let table = builder.build().unwrap();
    let names = names.with_table(&table);
    let shown = Show::new(&names).table(&table);
    let mut lines: Vec<&str> = shown.lines().collect();
    lines.sort_unstable();
    assert_eq!(lines.len(), 4, "{shown}");
    let own = lines
        .iter()
        .find(|line| line.ends_with("= not(one(id))"))
        .unwrap();
    let own = own.split(' ').next().unwrap();
    assert!(
        lines.contains(&"walk = rec walk(all(walk) ; step)"),
        "{shown}"
    );
    assert!(
        lines.contains(&format!("step = rec step({own} <+ fail)").as_str()),
        "{shown}"
    );
    assert!(
        lines.contains(&format!("start = {own} ; ({own} <+ walk)").as_str()),
        "{shown}"
    );
    let entries = Show::new(&names).entries(&table);
    assert_eq!(entries.lines().count(), table.entries());
    assert!(entries.starts_with("0\tREC\t"), "{entries}");
}

/// A table that does not pass its check is shown all the same.
#[test]
fn a_bad_table_is_shown() {
    let names = Names::new();
    let show = Show::new(&names);
    for (words, text) in [
        ([[66, 0, 1, 9, 0, 0, 0, 0], [0; 8]].concat(), "id ; <9>"),
        ([[33, 0, 0, 0, 0, 0, 0, 0], [0; 8]].concat(), "test(<0>)"),
        ([[320, 0, 0, 0, 0, 0, 0, 0], [0; 8]].concat(), "<kind 20>"),
    ] {
        let table = Table::from_words(words);
        assert_eq!(show.strategy(&table, Entry::FIRST), text);
        assert_eq!(show.entries(&table).lines().count(), 2);
    }
    assert_eq!(show.strategy(&Table::from_words([]), Entry::FIRST), "<0>");
}

#[test]
fn graphs_have_each_node_once() {
    let names = Names::read("constructor 5 PAIR\nentry 0 top").unwrap();
    let show = Show::new(&names);
    let mut store = Store::new();
    let one = store.node(1, &[]).unwrap();
    let pair = store.node(5, &[one, one]).unwrap();
    let graph = show.term_graph(store.term(pair).unwrap());
    assert_eq!(
        graph,
        "digraph {\n  node [shape=box, fontname=monospace];\n  n1 [label=\"PAIR\"];\n  n1 -> n0 [label=\"1\", style=solid];\n  \
         n1 -> n0 [label=\"2\", style=solid];\n  n0 [label=\"1\"];\n}\n"
    );
    assert!(show
        .length(1)
        .term_graph(store.term(pair).unwrap())
        .contains("cut off"));
    let table = Table::of(&rec(|again| {
        seq(match_(con(5, [var(VARS[3])])), path(2, again))
    }))
    .unwrap();
    let graph = show.table_graph(&table);
    assert!(graph.contains("n0 [label=\"0 top REC\"];"), "{graph}");
    assert!(graph.contains("label=\"1\", style=dashed"), "{graph}");
    assert!(
        graph.contains("PCON PAIR") && graph.contains("PVAR v3") && graph.contains("PATH 2"),
        "{graph}"
    );
    assert_eq!(graph.matches("[label=").count(), table.entries() + 7);
}

#[test]
fn differences_have_their_places() {
    let names = Names::new();
    let show = Show::new(&names);
    let mut store = Store::new();
    let mut differ = |one: &str, other: &str| {
        let (one, other) = (read(&mut store, one), read(&mut store, other));
        show.difference(store.term(one).unwrap(), store.term(other).unwrap())
    };
    assert_eq!(differ("9(1, 2(3))", "9(1, 2(3))"), "");
    assert_eq!(
        differ("9(1, 2(3))", "9(4, 2(5))"),
        "at 1: 1, then 4\nat 2.1: 3, then 5\n"
    );
    assert_eq!(
        differ("9(1, 2(3))", "9(1)"),
        "at the top: 9(1, 2(3)), then 9(1)\n"
    );
    // Two towers of twenty levels that differ at every leaf: a million places, of which so many are shown.
    let mut store = Store::new();
    let mut towers = vec![];
    for leaf in [1, 2] {
        let mut tower = store.node(leaf, &[]).unwrap();
        for _ in 0..20 {
            tower = store.node(5, &[tower, tower]).unwrap();
        }
        towers.push(tower);
    }
    let (one, other) = (
        store.term(towers[0]).unwrap(),
        store.term(towers[1]).unwrap(),
    );
    assert_eq!(show.length(7).differences(one, other).len(), 7);
}

#[test]
fn terms_are_read_and_written_back() {
    let names = Names::read("constructor 5 PAIR\nconstructor 6 it's").unwrap();
    let mut store = Store::new();
    for text in ["7", "PAIR(7, 8)", "PAIR(PAIR(1, 2, it's), 3(4(9)))"] {
        let node = names.read_term(&mut store, text).unwrap();
        assert_eq!(Show::new(&names).term(store.term(node).unwrap()), text);
    }
    let shared = names.read_term(&mut store, "PAIR(7, 8)").unwrap();
    let twice = store.node(5, &[shared, shared]).unwrap();
    let text = Show::new(&names)
        .unshared()
        .term(store.term(twice).unwrap());
    assert_eq!(text, "PAIR(PAIR(7, 8), PAIR(7, 8))");
    let node = names.read_term(&mut store, " PAIR (1,\n\t2 )\n");
    assert_eq!(
        node.unwrap_err().to_string(),
        "line 1: '(' does not belong there"
    );
    let node = names.read_term(&mut store, " PAIR(1,\n\t2 )\n").unwrap();
    assert_eq!(store.term(node).unwrap().to_string(), "5(1, 2)");
    for (text, fault) in [
        ("", "line 1: the term is not whole"),
        ("PAIR(1", "line 1: the term is not whole"),
        ("PAIR()", "line 1: ')' does not belong there"),
        ("PAIR(1 2)", "line 1: '2' does not belong there"),
        ("PAIR(1,, 2)", "line 1: ',' does not belong there"),
        ("PAIR(1, )", "line 1: ')' does not belong there"),
        ("PAIR(,1)", "line 1: ',' does not belong there"),
        ("1\n2", "line 2: '2' does not belong there"),
        ("1)", "line 1: ')' does not belong there"),
        ("PAIR(1, ..)", "line 1: '..' names no constructor"),
        ("65536", "line 1: '65536' names no constructor"),
        (
            "5(1, 2, 3, 4, 5, 6, 7)",
            "line 1: 7 children; at most 6 are allowed",
        ),
    ] {
        assert_eq!(
            names.read_term(&mut store, text).unwrap_err().to_string(),
            fault,
            "{text}"
        );
    }
}

#[test]
fn names_say_what_is_wrong() {
    for (text, fault) in [
        (
            "constructor 5",
            "line 1: expected 'constructor', 'variable' or 'entry', a number and a name",
        ),
        ("\n# x\nconstructor five A", "line 3: 'five' is no number"),
        (
            "constructors 5 A",
            "line 1: 'constructors' is none of 'constructor', 'variable', 'entry'",
        ),
        (
            "constructor 65536 A",
            "line 1: constructor 65536 is above 65535",
        ),
        ("variable 64 x", "line 1: variable 64 is above 63"),
        ("entry 4096 x", "line 1: entry 4096 is above 4095"),
        (
            "variable 1 (x)",
            "line 1: '(x)' is no name: a letter, then letters, digits and _ ' . -",
        ),
        (
            "variable 1 x\nvariable 1 y",
            "line 2: variable 1 has a name already",
        ),
    ] {
        assert_eq!(Names::read(text).unwrap_err().to_string(), fault);
    }
    assert_eq!(Names::read("").unwrap(), Names::new());
    let store = Store::new();
    let mut bindings = Bindings::new();
    bindings.bind(VARS[2], Node::from_number(7));
    assert_eq!(
        Show::new(&Names::new()).bindings(&store, &bindings),
        "v2 = no term"
    );
}
