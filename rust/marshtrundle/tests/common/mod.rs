//! Runs that go 4,096 levels deep, one for each recursive form.
use marshtrundle::strategy::*;
use marshtrundle::{run, Answer, Bindings, Entry, Node, Outcome, Store, Table, Var, VARS};

/// A run that is ready to be made.
pub struct Deep {
    pub name: &'static str,
    pub table: Table,
    pub store: Store,
    pub bindings: Bindings,
    pub subject: Node,
    /// How it must end.
    pub answer: Answer,
    /// The units that it must use, where they are plain to see.
    pub units: Option<u32>,
}

impl Deep {
    pub fn run(&mut self) -> Outcome {
        run(
            &self.table,
            &mut self.store,
            &mut self.bindings,
            Entry::FIRST,
            self.subject,
            4_000_000,
        )
    }
}

/// A term of `depth` nodes, one below the other: 7(7(.. 7(0))), or with five constants before the deep child.
fn chain(store: &mut Store, depth: usize, wide: bool) -> Node {
    let leaf = store.node(0, &[]).unwrap();
    let mut term = leaf;
    for _ in 1..depth {
        term = if wide {
            store
                .node(7, &[leaf, leaf, leaf, leaf, leaf, term])
                .unwrap()
        } else {
            store.node(7, &[term]).unwrap()
        };
    }
    term
}

fn wrapped(count: usize, wrap: impl Fn(Strategy) -> Strategy, core: Strategy) -> Strategy {
    (0..count).fold(core, |s, _| wrap(s))
}

/// The two mixes that take most: a SCOPE inside another form takes a frame of the loop, which one inside a SCOPE does not.
fn cong_of_scope(s: Strategy) -> Strategy {
    cong(7, [scope([VARS[0]], s)])
}

fn some_of_scope(s: Strategy) -> Strategy {
    some(scope([VARS[0]], s))
}

fn nested(count: usize, wide: bool, core: Pattern) -> Pattern {
    (0..count).fold(core, |p, _| {
        if wide {
            let leaf = con(0, []);
            let [a, b, c, d, e] = [leaf.clone(), leaf.clone(), leaf.clone(), leaf.clone(), leaf];
            con(7, [a, b, c, d, e, p])
        } else {
            con(7, [p])
        }
    })
}

/// The same down the first of two children, where a frame is taken for each level: the last child takes none.
fn nested_first(count: usize, core: Pattern) -> Pattern {
    (0..count).fold(core, |p, _| con(7, [p, con(0, [])]))
}

/// A run on a term that goes down the first of two children.
fn deep_first(name: &'static str, strategy: &Strategy, answer: Answer) -> Deep {
    let mut run = deep(name, strategy, false, answer);
    let leaf = run.store.node(0, &[]).unwrap();
    run.subject = (1..4_200).fold(leaf, |term, _| run.store.node(7, &[term, leaf]).unwrap());
    run
}

fn deep(name: &'static str, strategy: &Strategy, wide: bool, answer: Answer) -> Deep {
    let mut store = Store::new();
    let subject = chain(&mut store, 4_200, wide);
    store.room(100_000).unwrap();
    Deep {
        name,
        table: Table::of(strategy).unwrap(),
        store,
        bindings: Bindings::new(),
        subject,
        answer,
        units: None,
    }
}

/// A form that can be put around a strategy: its name, whether it runs on the wide chain, whether every visit is one level
/// deeper than the last, and how 4,095 of them around the core end.
type Form = (&'static str, bool, bool, fn(Strategy) -> Strategy, Answer);

const FORMS: [Form; 21] = [
    ("REC", false, true, |s| rec(|_| s), Answer::Done),
    (
        "SEQ, first operand",
        false,
        true,
        |s| seq(s, id()),
        Answer::Done,
    ),
    (
        "SEQ, second operand",
        false,
        false,
        |s| seq(id(), s),
        Answer::Done,
    ),
    (
        "LEFT, first operand",
        false,
        true,
        |s| left(s, id()),
        Answer::Done,
    ),
    (
        "LEFT, second operand",
        false,
        false,
        |s| left(fail(), s),
        Answer::Done,
    ),
    (
        "CHOICE, first operand",
        false,
        true,
        |s| choice(s, id()),
        Answer::Done,
    ),
    (
        "CHOICE, second operand",
        false,
        false,
        |s| choice(fail(), s),
        Answer::Done,
    ),
    ("TEST", false, true, test, Answer::Done),
    ("NOT", false, true, not, Answer::Failed(None)),
    ("WHERE", false, true, where_, Answer::Done),
    (
        "SCOPE of an unbound variable",
        false,
        true,
        |s| scope([VARS[0]], s),
        Answer::Done,
    ),
    ("PATH 1", false, true, |s| path(1, s), Answer::Done),
    ("PATH 6", true, true, |s| path(6, s), Answer::Done),
    (
        "CONG of one child",
        false,
        true,
        |s| cong(7, [s]),
        Answer::Done,
    ),
    (
        "CONG of six children",
        true,
        false,
        |s| cong(7, [id(), id(), id(), id(), id(), s]),
        Answer::Done,
    ),
    ("ALL of one child", false, true, all, Answer::Done),
    ("ALL of six children", true, false, all, Answer::Done),
    ("ONE of one child", false, true, one, Answer::Done),
    ("ONE of six children", true, false, one, Answer::Done),
    ("SOME of one child", false, true, some, Answer::Done),
    ("SOME of six children", true, false, some, Answer::Done),
];

/// The run that fits with this number, from 0: 4,096 levels.
pub fn fitting(number: usize) -> Option<Deep> {
    if let Some(&(name, wide, straight, form, answer)) = FORMS.get(number) {
        // A table with LEFT or CHOICE of FAIL has one entry that is no level.
        let count = if straight || wide || name.starts_with("SEQ") {
            4_095
        } else {
            4_094
        };
        let mut run = deep(name, &wrapped(count, form, id()), wide, answer);
        let alone = straight && !name.ends_with("operand");
        run.units = alone.then_some(4_096);
        return Some(run);
    }
    let x = VARS[0];
    let rest = [
        ("a nested pattern", match_(nested(4_094, false, var(x)))),
        (
            "a nested pattern of six",
            match_(nested(4_093, true, var(x))),
        ),
        ("a nested build", build(nested(4_094, false, con(8, [])))),
        (
            "a nested build of six",
            build(nested(4_093, true, con(8, []))),
        ),
    ];
    match number - FORMS.len() {
        4 => Some(comparison("a comparison", 4_094, false, Answer::Done)),
        5 => Some(comparison(
            "a comparison down the first of two",
            4_094,
            true,
            Answer::Done,
        )),
        6 => Some(deep_first(
            "a nested pattern down the first of two",
            &match_(nested_first(4_093, var(x))),
            Answer::Done,
        )),
        7 => Some(deep(
            "CONG and SCOPE in turn",
            &wrapped(2_047, cong_of_scope, id()),
            false,
            Answer::Done,
        )),
        8 => Some(deep(
            "SOME and SCOPE in turn",
            &wrapped(2_047, some_of_scope, id()),
            false,
            Answer::Done,
        )),
        other => rest
            .get(other)
            .map(|(name, s)| deep(name, s, name.contains("six"), Answer::Done)),
    }
}

/// The run that does not fit with this number, from 0: all 4,096 levels stand when the next visit is refused.
pub fn too_deep(number: usize) -> Option<Deep> {
    if let Some(&(name, wide, straight, form, _)) = FORMS.get(number) {
        let endless = rec(|again| wrapped(4_090, form, again));
        let mut run = deep(name, &endless, wide, Answer::TooDeep);
        run.units = straight.then_some(4_096);
        return Some(run);
    }
    let six = (number - FORMS.len()) % 2 == 1;
    let pattern = nested(4_089, six, con(8, []));
    let (name, endless) = match number - FORMS.len() {
        0 => ("REC and CALL", rec(|again| again)),
        1 => return Some(hiding()),
        2 => return Some(comparison("a comparison", 4_095, false, Answer::TooDeep)),
        3 => {
            return Some(comparison(
                "a comparison down the first of two",
                4_095,
                true,
                Answer::TooDeep,
            ))
        }
        4 => (
            "a nested pattern",
            rec(|again| left(match_(pattern), again)),
        ),
        5 => (
            "a nested pattern of six",
            rec(|again| left(match_(pattern), again)),
        ),
        6 => ("a nested build", rec(|again| seq(build(pattern), again))),
        7 => (
            "a nested build of six",
            rec(|again| seq(build(pattern), again)),
        ),
        8 => {
            let pattern = nested_first(4_089, con(8, []));
            return Some(deep_first(
                "a nested pattern down the first of two",
                &rec(|again| left(match_(pattern), again)),
                Answer::TooDeep,
            ));
        }
        9 => {
            return Some(deep(
                "CONG and SCOPE in turn",
                &rec(|again| wrapped(2_045, cong_of_scope, again)),
                false,
                Answer::TooDeep,
            ))
        }
        10 => {
            return Some(deep(
                "SOME and SCOPE in turn",
                &rec(|again| wrapped(2_045, some_of_scope, again)),
                false,
                Answer::TooDeep,
            ))
        }
        _ => return None,
    };
    Some(deep(name, &endless, six, Answer::TooDeep))
}

/// Two equal terms of this depth at different nodes, one bound, the other matched with the variable. The last child pair
/// takes no frame, so one form goes down the first of two.
fn comparison(name: &'static str, depth: usize, first: bool, answer: Answer) -> Deep {
    let mut run = deep(name, &match_(var(VARS[0])), false, answer);
    let term = |store: &mut Store| {
        if !first {
            return chain(store, depth, false);
        }
        let leaf = store.node(0, &[]).unwrap();
        (1..depth).fold(leaf, |term, _| store.node(7, &[term, leaf]).unwrap())
    };
    let bound = term(&mut run.store);
    run.subject = term(&mut run.store);
    run.bindings.bind(VARS[0], bound);
    run.units = (!first).then_some(4_096);
    run
}

/// Scopes that hide a bound variable, as dense as can be: one MATCH binds all variables, then a scope for each hides it.
fn hiding() -> Deep {
    let rows: Vec<Pattern> = VARS
        .chunks(6)
        .map(|row| con(9, row.iter().copied().map(var)))
        .collect();
    let binds = match_(con(9, rows.chunks(6).map(|part| con(9, part.to_vec()))));
    let cycle = |s: Strategy| {
        let scopes = VARS.iter().fold(s, |s, &v: &Var| scope([v], s));
        seq(binds.clone(), scopes)
    };
    let endless = rec(|again| wrapped(61, cycle, again));
    let mut run = deep(
        "SCOPE of a bound variable",
        &endless,
        false,
        Answer::TooDeep,
    );
    let leaf = run.store.node(0, &[]).unwrap();
    let rows: Vec<Node> = VARS
        .chunks(6)
        .map(|row| run.store.node(9, &vec![leaf; row.len()]).unwrap())
        .collect();
    let parts: Vec<Node> = rows
        .chunks(6)
        .map(|part| run.store.node(9, part).unwrap())
        .collect();
    run.subject = run.store.node(9, &parts).unwrap();
    run
}
