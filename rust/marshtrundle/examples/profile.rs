//! Where the units of the optimiser go, over the functions of a module, before and after a tuning. examples/profile.md is its page.
//!
//! Without words it prints both profiles as tables; with the word `svg` it writes them as one picture.
use marshtrundle::show::{Names, Show};
use marshtrundle::strategy::*;
use marshtrundle::{
    run_counted, with_stack, Bindings, BuildError, Profile, Store, Table, TableBuilder,
};

#[path = "optimiser.rs"]
#[allow(dead_code)] // the rules alone are taken
mod optimiser;
use optimiser::{optimise_by, rules, LET, LETREC, NAMES, PROGRAM};

type Failure = Box<dyn std::error::Error + Send + Sync>;

/// The functions of the module. The first is the optimiser's program; each other one is a sum of the one before and of a call.
fn functions() -> Vec<String> {
    let mut body = PROGRAM.to_owned();
    let mut functions = vec![];
    for argument in ["p", "q", "r", "x", "y", "z"].repeat(2) {
        functions.push(body.clone());
        let call = format!("App(Var(g), Cons(Var({argument}), Cons(Const(int, eight), Nil)))");
        body = format!("Papp(plus, Cons({body}, Cons({call}, Nil)))");
    }
    functions
}

/// On a declaration, and on nothing else.
fn is_declaration() -> Strategy {
    left(cong(LET, [id(), id()]), cong(LETREC, [id(), id()]))
}

/// The optimiser as a table in which its rules have names. Tuned, it tries no rule where there is no declaration.
pub fn table(tuned: bool) -> Result<Table, BuildError> {
    let rules = rules();
    let mut builder = TableBuilder::new();
    let declaration = is_declaration();
    if tuned {
        let guarded = |s| seq(test(declaration.clone()), s);
        builder.add("optimise", optimise_by(&rules, guarded));
        builder.add("is a declaration", declaration.clone());
    } else {
        builder.add("optimise", optimise_by(&rules, |s| s));
    }
    let [hoist1, hoist2] = rules.hoist;
    let [dead1, dead2] = rules.dead;
    let [inline1, inline2] = rules.inline;
    for (name, rule) in [
        ("Hoist1", hoist1),
        ("Hoist2", hoist2),
        ("Dead1", dead1),
        ("Dead2", dead2),
        ("Inl1", inline1),
        ("Inl2", inline2),
        ("Select", rules.select),
        ("Prop", rules.prop),
    ] {
        builder.add(name, rule);
    }
    builder.build()
}

/// What the optimiser makes of each function, and the profile of all runs together.
pub fn profiled(table: &Table) -> Result<(Vec<String>, Profile), Failure> {
    let names = Names::read(NAMES)?;
    let start = table.entry("optimise").ok_or("no optimiser")?;
    let mut profile = Profile::of(table);
    let mut optimised = vec![];
    for function in functions() {
        let mut store = Store::new();
        let subject = names.read_term(&mut store, &function)?;
        store.most_room();
        let mut bindings = Bindings::new();
        let end = run_counted(
            table,
            &mut store,
            &mut bindings,
            None,
            &mut profile,
            start,
            subject,
            u32::MAX,
        );
        let new = store.term(end.done()?).ok_or("no term")?;
        optimised.push(Show::new(&names).in_full().unshared().term(new));
    }
    Ok((optimised, profile))
}

/// Both profiles, with the tables that they are of. The tuning changes nothing that the optimiser does.
fn both() -> Result<[(Table, Profile); 2], Failure> {
    let (plain, tuned) = (table(false)?, table(true)?);
    let (before, after) = (profiled(&plain)?, profiled(&tuned)?);
    if before.0 != after.0 {
        return Err("the tuned optimiser gives another term".into());
    }
    Ok([(plain, before.1), (tuned, after.1)])
}

/// Both profiles as tables.
pub fn tables() -> Result<String, Failure> {
    let names = Names::new();
    let show = Show::new(&names);
    let [before, after] = both()?.map(|(table, profile)| show.profile(&table, &profile));
    Ok(format!("Before: {before}\nAfter: {after}"))
}

/// Both profiles as one picture.
pub fn picture() -> Result<String, Failure> {
    let [(plain, before), (tuned, after)] = both()?;
    let names = Names::new();
    Ok(Show::new(&names).profile_svg(&[("Before", &plain, &before), ("After", &tuned, &after)]))
}

#[allow(dead_code)] // the tests take the two texts
fn main() -> Result<(), Failure> {
    let text = match std::env::args().nth(1).as_deref() {
        None => with_stack(tables)??,
        Some("svg") => with_stack(picture)??,
        Some(_) => return Err("usage: profile [svg]".into()),
    };
    print!("{text}");
    Ok(())
}
