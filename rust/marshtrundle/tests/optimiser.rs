//! The rules of examples/optimiser.rs one by one: where each applies, with what, and where it does not.
#[path = "../examples/optimiser.rs"]
mod optimiser;

use marshtrundle::strategy::Strategy;
use optimiser::*;

fn gives(s: &Strategy, from: &str, to: &str) {
    assert_eq!(rewritten(s, from).unwrap().as_deref(), Some(to));
}

fn fails(s: &Strategy, from: &str) {
    assert_eq!(rewritten(s, from).unwrap(), None);
}

const VALUE: &str = "Simple(Const(int, seven))";

#[test]
fn hoist_takes_declarations_out() {
    gives(
        &hoist1(),
        "Let(Vdec(int, x, Let(Vdec(int, y, Simple(Var(z))), Simple(Var(y)))), Simple(Var(x)))",
        "Let(Vdec(int, y, Simple(Var(z))), Let(Vdec(int, x, Simple(Var(y))), Simple(Var(x))))",
    );
    fails(
        &hoist1(),
        &format!("Let(Vdec(int, x, {VALUE}), Simple(Var(x)))"),
    );
    gives(
        &hoist2(),
        "Let(Vdec(int, x, Letrec(Nil, Simple(Var(y)))), Simple(Var(x)))",
        "Letrec(Nil, Let(Vdec(int, x, Simple(Var(y))), Simple(Var(x))))",
    );
    fails(&hoist2(), "Letrec(Nil, Simple(Var(x)))");
}

#[test]
fn dead1_drops_what_is_unused_and_safe() {
    gives(
        &dead1(),
        &format!("Let(Vdec(int, x, {VALUE}), Simple(Var(y)))"),
        "Simple(Var(y))",
    );
    // It is used, deep inside.
    fails(
        &dead1(),
        &format!("Let(Vdec(int, x, {VALUE}), Papp(plus, Cons(Var(y), Cons(Var(x), Nil))))"),
    );
    // It calls, or it assigns.
    fails(
        &dead1(),
        "Let(Vdec(int, x, App(Var(f), Nil)), Simple(Var(y)))",
    );
    fails(
        &dead1(),
        "Let(Vdec(int, x, Papp(assign, Nil)), Simple(Var(y)))",
    );
    gives(
        &dead1(),
        "Let(Vdec(int, x, Papp(plus, Nil)), Simple(Var(y)))",
        "Simple(Var(y))",
    );
}

#[test]
fn dead2_drops_functions_that_the_body_does_not_use() {
    let functions =
        "Cons(Fdec(int, f, Nil, App(Var(g), Nil)), Cons(Fdec(int, g, Nil, App(Var(f), Nil)), Nil))";
    gives(&dead2(), &format!("Letrec({functions}, {VALUE})"), VALUE);
    fails(&dead2(), &format!("Letrec({functions}, App(Var(g), Nil))"));
    fails(&dead2(), VALUE);
}

#[test]
fn prop_replaces_a_name_wherever_it_is_used() {
    gives(
        &prop(),
        "Let(Vdec(int, x, Simple(Var(z))), Papp(plus, Cons(Var(x), Cons(Var(y), Cons(Var(x), Nil)))))",
        "Let(Vdec(int, x, Simple(Var(z))), Papp(plus, Cons(Var(z), Cons(Var(y), Cons(Var(z), Nil)))))",
    );
    fails(&prop(), "Let(Vdec(int, x, Simple(Var(z))), Simple(Var(y)))");
    fails(&prop(), "Let(Vdec(int, x, Record(Nil)), Simple(Var(x)))");
}

#[test]
fn select_takes_the_element() {
    let record = "Record(Cons(Var(p), Cons(Var(q), Cons(Var(r), Nil))))";
    let text = |body: &str| format!("Let(Vdec(int, x, {record}), {body})");
    gives(
        &select(),
        &text("Select(One, Var(x))"),
        &text("Simple(Var(p))"),
    );
    gives(
        &select(),
        &text("Select(Succ(Succ(One)), Var(x))"),
        &text("Simple(Var(r))"),
    );
    fails(&select(), &text("Select(Succ(Succ(Succ(One))), Var(x))"));
    fails(&select(), &text("Select(One, Var(y))"));
}

#[test]
fn inline1_takes_small_bodies_everywhere() {
    let function = "Cons(Fdec(int, f, Cons(p, Cons(q, Nil)), Papp(plus, Cons(Var(p), Cons(Var(q), Cons(Var(r), Nil))))), Nil)";
    let text = |body: &str| format!("Letrec({function}, {body})");
    let called = "App(Var(f), Cons(Var(x), Cons(Const(int, eight), Nil)))";
    let done = "Papp(plus, Cons(Var(x), Cons(Const(int, eight), Cons(Var(r), Nil))))";
    let twice = |e: &str| text(&format!("Let(Vdec(int, y, {e}), {e})"));
    gives(&inline1(), &twice(called), &twice(done));
    // Another function, too few arguments, a body that declares something.
    fails(
        &inline1(),
        &text("App(Var(g), Cons(Var(x), Cons(Var(y), Nil)))"),
    );
    fails(&inline1(), &text("App(Var(f), Cons(Var(x), Nil))"));
    let large = format!("Letrec(Cons(Fdec(int, f, Nil, Let(Vdec(int, x, {VALUE}), {VALUE})), Nil), App(Var(f), Nil))");
    fails(&inline1(), &large);
    gives(
        &inline2(),
        &large,
        &large.replace(
            "App(Var(f), Nil)",
            &format!("Let(Vdec(int, x, {VALUE}), {VALUE})"),
        ),
    );
}

#[test]
fn inline2_takes_one_call() {
    let text = |first: &str| {
        format!("Letrec(Cons(Fdec(int, f, Nil, {VALUE}), Nil), Let(Vdec(int, x, {first}), App(Var(f), Nil)))")
    };
    gives(&inline2(), &text("App(Var(f), Nil)"), &text(VALUE));
    fails(
        &inline2(),
        &format!("Letrec(Cons(Fdec(int, f, Nil, {VALUE}), Nil), {VALUE})"),
    );
}

#[test]
fn the_program_folds_up() {
    gives(
        &optimise(),
        PROGRAM,
        "Papp(plus, Cons(Const(int, eight), Cons(Const(int, eight), Nil)))",
    );
    // A function with a large body that is called twice stays; it is inlined nowhere.
    let stays = "Letrec(Cons(Fdec(int, g, Cons(p, Nil), Let(Vdec(int, q, App(Var(r), Nil)), Simple(Var(p)))), Nil), \
         Let(Vdec(int, x, App(Var(g), Cons(Const(int, seven), Nil))), App(Var(g), Cons(Var(x), Nil))))";
    gives(&optimise(), stays, stays);
}
