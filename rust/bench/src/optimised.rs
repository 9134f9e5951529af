//! An engine in safe Rust, written for speed.
//!
//! It answers as the other two do: the same checks, the same five numbers, the
//! same words of store and bindings. What makes it fast:
//!
//! - The table is decoded once into entries of fixed form, 4,096 of them, so
//!   that an entry's number needs no test.
//! - An operand is a link: the entry where its chain of RECs and CALLs ends,
//!   and the visits up to and including that one. They are counted in one step.
//! - A state and an answer are one word of 64 bits: term and units left.
//! - Bindings have a mask. A caught failure puts back the mask and the mark,
//!   and copies nothing.
//! - Operands in a last position go round a loop.
//! - An alternative that begins with a test of the subject's constructor and
//!   count is skipped where they differ, its visits counted in one step.
//! - A walk over one or two children keeps them in registers.

#![forbid(unsafe_code)]

use std::convert::TryFrom;

/// The words of one entry, and of one node.
const WIDTH: usize = 8;
/// The most entries of a table.
const ENTRIES: usize = 4_096;
/// The most nodes of a store.
const NODES: usize = 131_072;
/// The number of variables.
const VARIABLES: usize = 64;
/// The deepest nesting.
const NESTING: u32 = 4_096;

const ID: u8 = 0;
const TEST: u8 = 2;
const NOT: u8 = 3;
const SEQ: u8 = 4;
const CHOICE: u8 = 5;
const LEFT: u8 = 6;
const REC: u8 = 7;
const CALL: u8 = 8;
const PATH: u8 = 9;
const CONG: u8 = 10;
const ALL: u8 = 11;
const ONE: u8 = 12;
const SOME: u8 = 13;
const MATCH: u8 = 14;
const BUILD: u8 = 15;
const SCOPE: u8 = 16;
const WHERE: u8 = 17;
const PVAR: u8 = 18;
const PCON: u8 = 19;

/// The least and the most operands of each kind.
const OPERANDS: [(u32, u32); 20] = [
    (0, 0),
    (0, 0),
    (1, 1),
    (1, 1),
    (2, 2),
    (2, 2),
    (2, 2),
    (1, 1),
    (1, 1),
    (1, 1),
    (0, 6),
    (1, 1),
    (1, 1),
    (1, 1),
    (1, 1),
    (1, 1),
    (1, 1),
    (1, 1),
    (0, 0),
    (0, 6),
];

/// The least and the greatest argument of each kind.
const ARGUMENTS: [(u32, u32); 20] = [
    (0, 0),
    (0, 0),
    (0, 0),
    (0, 0),
    (0, 0),
    (0, 0),
    (0, 0),
    (0, 0),
    (0, 0),
    (1, 6),
    (0, 65_535),
    (0, 0),
    (0, 0),
    (0, 0),
    (0, 0),
    (0, 0),
    (0, u32::MAX),
    (0, 0),
    (0, 63),
    (0, 65_535),
];

// ---- answers in one word

/// What stands above the units left where there is no term.
const FAILED: u64 = 0xffff_ffff;
const NO_UNITS: u64 = 0xffff_fffe;
const NO_ROOM: u64 = 0xffff_fffd;
const NO_NESTING: u64 = 0xffff_fffc;
/// The first of 64, one for each variable that BUILD may find unbound.
const UNBOUND: u64 = NO_NESTING - 64;

#[inline(always)]
fn done(term: u32, left: u32) -> u64 {
    u64::from(term) << 32 | u64::from(left)
}

#[inline(always)]
fn failed(left: u32) -> u64 {
    FAILED << 32 | u64::from(left)
}

#[inline(always)]
fn no_room(left: u32) -> u64 {
    NO_ROOM << 32 | u64::from(left)
}

#[inline(always)]
fn term_of(state: u64) -> u32 {
    (state >> 32) as u32
}

#[inline(always)]
fn left_of(state: u64) -> u32 {
    state as u32
}

#[inline(always)]
fn is_done(state: u64) -> bool {
    state < UNBOUND << 32
}

#[inline(always)]
fn is_failed(state: u64) -> bool {
    state >= FAILED << 32
}

/// The cut-off where visits in a row, each one deeper, need more units or more
/// nesting than there is. Units are looked at first.
#[cold]
#[inline(never)]
fn cut(left: u32, deep: u32) -> u64 {
    if left <= deep {
        NO_UNITS << 32
    } else {
        NO_NESTING << 32 | u64::from(left - deep)
    }
}

// ---- the table, decoded

/// One entry in the form that the run reads.
#[derive(Clone, Copy, Default)]
struct Entry {
    kind: u8,
    /// The number of operands.
    count: u8,
    /// For LEFT and CHOICE: the visits of the first operand up to the head that
    /// it tests first of all; 0 where it tests none.
    guard: u16,
    /// The argument; for CONG, PCON, and MATCH of a PCON the head; for LEFT and
    /// CHOICE the head that the first operand tests.
    argument: u32,
    /// The operands as links: visits × 65,536 + entry. For patterns the visits
    /// are 1. For LEFT and CHOICE the third is the pattern at which the first
    /// operand gives up, or 0 where it tests its head by a CONG. For SCOPE the
    /// sixth is the upper word of the mask.
    links: [u32; 6],
}

/// The place of a failed run in which no match failed.
const NO_MISS: u32 = 4_096;

type Table = [Entry; ENTRIES];

/// Constructor and count in one word.
#[inline(always)]
fn head(constructor: u32, count: u32) -> u32 {
    count << 16 | constructor
}

#[inline(always)]
fn entry(table: &Table, link: u32) -> &Entry {
    &table[link as usize % ENTRIES]
}

fn row(words: &[u32], number: u32) -> &[u32] {
    let first = WIDTH * number as usize;
    &words[first..first + WIDTH]
}

fn kind_in(words: &[u32], number: u32) -> u8 {
    (row(words, number)[0] / 16) as u8
}

/// The link to an operand: RECs and CALLs are passed over. A chain that never
/// ends is longer than the nesting, so that whoever follows it is cut off.
fn link(words: &[u32], operand: u32) -> u32 {
    let mut target = operand;
    let mut visits = 1;
    while visits <= NESTING && matches!(kind_in(words, target), REC | CALL) {
        target = row(words, target)[2];
        visits += 1;
    }
    visits << 16 | target
}

/// The head that a strategy tests before all else, and the visits up to that
/// test. Where the head differs, the strategy fails after them. Last the pattern
/// at which a match then gives up, or 0, which is no operand's number.
fn guard(words: &[u32], strategy: u32) -> Option<(u32, u32, u32)> {
    let mut at = strategy;
    let mut visits = 1;
    while visits < 64 {
        let here = row(words, at);
        match kind_in(words, at) {
            CONG => return Some((visits, head(here[1], here[0] % 16), 0)),
            MATCH => {
                let pattern = row(words, here[2]);
                if kind_in(words, here[2]) != PCON {
                    return None;
                }
                let head = head(pattern[1], pattern[0] % 16);
                return Some((visits + 1, head, here[2]));
            }
            SCOPE => at = here[3],
            SEQ | TEST | WHERE | REC | CALL => at = here[2],
            _ => return None,
        }
        visits += 1;
    }
    None
}

/// The word at which the operands of a kind begin: a scope's mask has two words.
#[inline(always)]
fn operands_from(kind: u8) -> usize {
    if kind == SCOPE {
        3
    } else {
        2
    }
}

/// A scope's mask.
#[inline(always)]
fn mask_in(e: &Entry) -> u64 {
    u64::from(e.links[5]) << 32 | u64::from(e.argument)
}

/// The entries of a table that has passed its check.
fn decode(words: &[u32], skipping: bool) -> Box<Table> {
    let mut table: Box<Table> =
        match Box::try_from(vec![Entry::default(); ENTRIES].into_boxed_slice()) {
            Ok(table) => table,
            Err(_) => unreachable!("the length is that of the type"),
        };
    for (number, here) in words.chunks_exact(WIDTH).enumerate() {
        let new = &mut table[number];
        new.kind = (here[0] / 16) as u8;
        new.count = (here[0] % 16) as u8;
        new.argument = here[1];
        let from = operands_from(new.kind);
        for (to, &operand) in new
            .links
            .iter_mut()
            .zip(&here[from..from + new.count as usize])
        {
            *to = link(words, operand);
        }
        match new.kind {
            SCOPE => new.links[5] = here[2],
            CONG | PCON => new.argument = head(here[1], here[0] % 16),
            MATCH if kind_in(words, here[2]) == PCON => {
                let pattern = row(words, here[2]);
                new.argument = head(pattern[1], pattern[0] % 16);
                new.guard = 1;
            }
            LEFT | CHOICE if skipping => {
                if let Some((visits, head, pattern)) = guard(words, here[2]) {
                    new.guard = visits as u16;
                    new.argument = head;
                    new.links[2] = pattern;
                }
            }
            _ => {}
        }
    }
    table
}

// ---- the run

/// What a run changes.
struct Machine<'a> {
    store: &'a mut [u32],
    /// The mark in nodes.
    mark: u32,
    /// Bit v where variable v is bound.
    mask: u64,
    /// The node of each bound variable; the others mean nothing.
    bound: [u32; VARIABLES],
    /// The pattern at which the last match that failed gave up.
    miss: u32,
}

impl<'a> Machine<'a> {
    /// The result of a match; where it failed, it gave up at this pattern.
    #[inline(always)]
    fn gave_up(&mut self, pattern: u32, got: u64) -> u64 {
        if got >> 32 == FAILED {
            self.miss = pattern % 65_536;
        }
        got
    }

    #[inline(always)]
    fn node(&self, term: u32) -> &[u32; WIDTH] {
        let first = WIDTH * term as usize;
        match <&[u32; WIDTH]>::try_from(&self.store[first..first + WIDTH]) {
            Ok(words) => words,
            Err(_) => unreachable!("eight words"),
        }
    }

    #[inline(always)]
    fn head(&self, term: u32) -> u32 {
        let words = self.node(term);
        head(words[0], words[1])
    }

    /// Makes a node and gives it with the units left.
    #[inline(always)]
    fn make(&mut self, words: [u32; WIDTH], left: u32) -> u64 {
        let first = WIDTH * self.mark as usize;
        match self.store.get_mut(first..first + WIDTH) {
            None => no_room(left),
            Some(place) => {
                place.copy_from_slice(&words);
                self.mark += 1;
                done(self.mark - 1, left)
            }
        }
    }
}

/// Follows a link from a state with so much nesting left, and gives the state
/// that comes of it or the failure.
fn apply(table: &Table, m: &mut Machine, link: u32, state: u64, deep: u32) -> u64 {
    let mut link = link;
    let mut state = state;
    let mut deep = deep;
    loop {
        let visits = link >> 16;
        let left = left_of(state);
        if left < visits || deep < visits {
            return cut(left, deep);
        }
        deep -= visits;
        state -= u64::from(visits);
        let e = entry(table, link);
        match e.kind {
            ID => return state,
            SEQ => {
                let got = apply(table, m, e.links[0], state, deep);
                if !is_done(got) {
                    return got;
                }
                state = got;
                link = e.links[1];
            }
            LEFT | CHOICE => {
                let skipped = u32::from(e.guard);
                if skipped != 0
                    && m.head(term_of(state)) != e.argument
                    && left_of(state) >= skipped
                    && deep >= skipped
                {
                    if e.links[2] != 0 {
                        m.miss = e.links[2];
                    }
                    state -= u64::from(skipped);
                    link = e.links[1];
                    continue;
                }
                let mark = m.mark;
                let mask = m.mask;
                let got = apply(table, m, e.links[0], state, deep);
                if !is_failed(got) {
                    return got;
                }
                m.mark = mark;
                m.mask = mask;
                state = done(term_of(state), left_of(got));
                link = e.links[1];
            }
            ALL => {
                let term = term_of(state);
                let words = m.node(term);
                let constructor = words[0];
                match words[1] {
                    0 => return state,
                    1 => {
                        let child = words[2];
                        let got = apply(table, m, e.links[0], done(child, left_of(state)), deep);
                        if !is_done(got) {
                            return got;
                        }
                        let new = [constructor, 1, term_of(got), 0, 0, 0, 0, 0];
                        return m.make(new, left_of(got));
                    }
                    2 => {
                        let child = words[2];
                        let got = apply(table, m, e.links[0], done(child, left_of(state)), deep);
                        if !is_done(got) {
                            return got;
                        }
                        let first = term_of(got);
                        let child = m.node(term)[3];
                        let got = apply(table, m, e.links[0], done(child, left_of(got)), deep);
                        if !is_done(got) {
                            return got;
                        }
                        let new = [constructor, 2, first, term_of(got), 0, 0, 0, 0];
                        return m.make(new, left_of(got));
                    }
                    _ => return walk(table, m, e, state, deep),
                }
            }
            MATCH => {
                let left = left_of(state);
                if left == 0 || deep == 0 {
                    return cut(left, deep);
                }
                let term = term_of(state);
                if e.guard == 0 {
                    let variable = entry(table, e.links[0]).argument;
                    let got = meet(m, variable, term, term, left - 1, deep - 1);
                    return m.gave_up(e.links[0], got);
                }
                if m.head(term) != e.argument {
                    return m.gave_up(e.links[0], failed(left - 1));
                }
                let got = fits(table, m, e.links[0], term, left - 1, deep - 1);
                if !is_done(got) {
                    return got;
                }
                return done(term, left_of(got));
            }
            BUILD => return build(table, m, e.links[0], left_of(state), deep),
            SCOPE => {
                let mask = mask_in(e);
                if m.mask & mask != 0 {
                    return hiding(table, m, e, state, deep);
                }
                let got = apply(table, m, e.links[0], state, deep);
                m.mask &= !mask;
                return got;
            }
            ONE => {
                let term = term_of(state);
                let count = m.node(term)[1] as usize;
                let mark = m.mark;
                let mask = m.mask;
                let mut left = left_of(state);
                for position in 0..count {
                    let child = m.node(term)[(2 + position) % WIDTH];
                    let got = apply(table, m, e.links[0], done(child, left), deep);
                    if !is_failed(got) {
                        return replaced(m, term, 2 + position, got);
                    }
                    m.mark = mark;
                    m.mask = mask;
                    left = left_of(got);
                }
                return failed(left);
            }
            PATH => {
                let term = term_of(state);
                let words = m.node(term);
                if e.argument > words[1] {
                    return failed(left_of(state));
                }
                let word = 1 + e.argument as usize;
                let child = words[word % WIDTH];
                let got = apply(table, m, e.links[0], done(child, left_of(state)), deep);
                return replaced(m, term, word, got);
            }
            CONG => {
                if m.head(term_of(state)) != e.argument {
                    return failed(left_of(state));
                }
                if e.count == 0 {
                    return state;
                }
                return walk(table, m, e, state, deep);
            }
            SOME => return walk(table, m, e, state, deep),
            WHERE => {
                let got = apply(table, m, e.links[0], state, deep);
                if !is_done(got) {
                    return got;
                }
                return done(term_of(state), left_of(got));
            }
            TEST => {
                let mark = m.mark;
                let mask = m.mask;
                let got = apply(table, m, e.links[0], state, deep);
                if !is_done(got) {
                    return got;
                }
                m.mark = mark;
                m.mask = mask;
                return done(term_of(state), left_of(got));
            }
            NOT => {
                let mark = m.mark;
                let mask = m.mask;
                let got = apply(table, m, e.links[0], state, deep);
                if is_failed(got) {
                    m.mark = mark;
                    m.mask = mask;
                    return done(term_of(state), left_of(got));
                }
                if is_done(got) {
                    return failed(left_of(got));
                }
                return got;
            }
            // FAIL alone: RECs and CALLs lie inside links, patterns stand here
            // nowhere.
            _ => return failed(left_of(state)),
        }
    }
}

/// The end of ONE and PATH: a copy of the term with one child replaced, where
/// there is one.
#[inline(always)]
fn replaced(m: &mut Machine, term: u32, word: usize, got: u64) -> u64 {
    if !is_done(got) {
        return got;
    }
    let mut new = *m.node(term);
    new[word % WIDTH] = term_of(got);
    m.make(new, left_of(got))
}

/// The child walker of SOME, CONG, and ALL over three children or more.
#[inline(never)]
fn walk(table: &Table, m: &mut Machine, e: &Entry, state: u64, deep: u32) -> u64 {
    let term = term_of(state);
    let mut left = left_of(state);
    let mut new = *m.node(term);
    let count = new[1] as usize;
    let mut succeeded = e.kind != SOME;
    for position in 0..count {
        let operand = if e.kind == CONG { position } else { 0 };
        let child = m.node(term)[(2 + position) % WIDTH];
        let mark = m.mark;
        let mask = m.mask;
        let got = apply(table, m, e.links[operand % 6], done(child, left), deep);
        if is_done(got) {
            new[(2 + position) % WIDTH] = term_of(got);
            succeeded = true;
        } else {
            if !is_failed(got) || e.kind != SOME {
                return got;
            }
            m.mark = mark;
            m.mask = mask;
        }
        left = left_of(got);
    }
    if !succeeded {
        return failed(left);
    }
    m.make(new, left)
}

/// SCOPE where some masked variable is bound: its node is put back, on failure
/// too.
#[inline(never)]
fn hiding(table: &Table, m: &mut Machine, e: &Entry, state: u64, deep: u32) -> u64 {
    let mask = mask_in(e);
    let hidden = m.mask & mask;
    let outer = m.bound;
    m.mask &= !mask;
    let got = apply(table, m, e.links[0], state, deep);
    let mut rest = hidden;
    while rest != 0 {
        let variable = rest.trailing_zeros() as usize % VARIABLES;
        m.bound[variable] = outer[variable];
        rest &= rest - 1;
    }
    m.mask = m.mask & !mask | hidden;
    got
}

/// A variable meets a term, after its own visit: it is bound, or the terms are
/// compared. On success the given result comes back with the units left.
#[inline(always)]
fn meet(m: &mut Machine, variable: u32, term: u32, result: u32, left: u32, deep: u32) -> u64 {
    let place = variable as usize % VARIABLES;
    let bit = 1u64 << (variable % 64);
    if m.mask & bit == 0 {
        m.bound[place] = term;
        m.mask |= bit;
        return done(result, left);
    }
    let got = same(m.store, m.bound[place], term, left, deep);
    if !is_done(got) {
        return got;
    }
    done(result, left_of(got))
}

/// The children of a PCON whose head agrees with the term's, after its own
/// visit. The nesting is what is left for the children.
fn fits(table: &Table, m: &mut Machine, pattern: u32, term: u32, left: u32, deep: u32) -> u64 {
    let p = entry(table, pattern);
    let mut left = left;
    for position in 0..usize::from(p.count) {
        if left == 0 || deep == 0 {
            return cut(left, deep);
        }
        left -= 1;
        let child = m.node(term)[(2 + position) % WIDTH];
        let link = p.links[position % 6];
        let q = entry(table, link);
        if q.kind == PVAR {
            let got = meet(m, q.argument, child, 0, left, deep - 1);
            if !is_done(got) {
                return m.gave_up(link, got);
            }
            left = left_of(got);
        } else {
            if m.head(child) != q.argument {
                return m.gave_up(link, failed(left));
            }
            if q.count != 0 {
                let got = fits(table, m, link, child, left, deep - 1);
                if !is_done(got) {
                    return got;
                }
                left = left_of(got);
            }
        }
    }
    done(0, left)
}

/// Whether two terms are equal: pair by pair, the last child pair in a loop.
fn same(store: &[u32], one: u32, other: u32, left: u32, deep: u32) -> u64 {
    let mut one = one;
    let mut other = other;
    let mut left = left;
    let mut deep = deep;
    loop {
        if left == 0 || deep == 0 {
            return cut(left, deep);
        }
        left -= 1;
        deep -= 1;
        let first = WIDTH * one as usize;
        let a = &store[first..first + WIDTH];
        let first = WIDTH * other as usize;
        let b = &store[first..first + WIDTH];
        if a[0] != b[0] || a[1] != b[1] {
            return failed(left);
        }
        let count = a[1] as usize;
        if count == 0 {
            return done(0, left);
        }
        for position in 2..1 + count {
            let got = same(store, a[position % WIDTH], b[position % WIDTH], left, deep);
            if !is_done(got) {
                return got;
            }
            left = left_of(got);
        }
        one = a[(1 + count) % WIDTH];
        other = b[(1 + count) % WIDTH];
    }
}

/// Builds one pattern position.
fn build(table: &Table, m: &mut Machine, pattern: u32, left: u32, deep: u32) -> u64 {
    if left == 0 || deep == 0 {
        return cut(left, deep);
    }
    let left = left - 1;
    let deep = deep - 1;
    let p = entry(table, pattern);
    if p.kind == PVAR {
        return held(m, p.argument, left);
    }
    let constructor = p.argument % 65_536;
    match p.count {
        0 => m.make([constructor, 0, 0, 0, 0, 0, 0, 0], left),
        1 => {
            let got = built(table, m, p.links[0], left, deep);
            if !is_done(got) {
                return got;
            }
            m.make([constructor, 1, term_of(got), 0, 0, 0, 0, 0], left_of(got))
        }
        2 => {
            let got = built(table, m, p.links[0], left, deep);
            if !is_done(got) {
                return got;
            }
            let first = term_of(got);
            let got = built(table, m, p.links[1], left_of(got), deep);
            if !is_done(got) {
                return got;
            }
            let new = [constructor, 2, first, term_of(got), 0, 0, 0, 0];
            m.make(new, left_of(got))
        }
        _ => build_many(table, m, p, left, deep),
    }
}

/// A child of a pattern that is built: a variable is taken on the spot.
#[inline(always)]
fn built(table: &Table, m: &mut Machine, pattern: u32, left: u32, deep: u32) -> u64 {
    let p = entry(table, pattern);
    if p.kind == PVAR && left != 0 && deep != 0 {
        return held(m, p.argument, left - 1);
    }
    build(table, m, pattern, left, deep)
}

/// The node of a variable, after its visit.
#[inline(always)]
fn held(m: &Machine, variable: u32, left: u32) -> u64 {
    if m.mask >> (variable % 64) & 1 == 0 {
        return (UNBOUND + u64::from(variable % 64)) << 32 | u64::from(left);
    }
    done(m.bound[variable as usize % VARIABLES], left)
}

/// A PCON of three children or more, after its own visit.
#[inline(never)]
fn build_many(table: &Table, m: &mut Machine, p: &Entry, left: u32, deep: u32) -> u64 {
    let mut new = [0; WIDTH];
    new[0] = p.argument % 65_536;
    new[1] = u32::from(p.count);
    let mut left = left;
    for position in 0..usize::from(p.count) {
        let got = built(table, m, p.links[position % 6], left, deep);
        if !is_done(got) {
            return got;
        }
        new[(2 + position) % WIDTH] = term_of(got);
        left = left_of(got);
    }
    m.make(new, left)
}

// ---- the checks

/// What is wrong with an entry, 13 to 17, or 0 where nothing is.
fn entry_fault(words: &[u32], number: usize) -> u32 {
    let entries = words.len() / WIDTH;
    let here = &words[WIDTH * number..WIDTH * number + WIDTH];
    let kind = (here[0] / 16) as usize;
    let count = here[0] % 16;
    if kind >= OPERANDS.len() {
        return 13;
    }
    let (least, most) = OPERANDS[kind];
    if count < least || count > most {
        return 13;
    }
    let (low, high) = ARGUMENTS[kind];
    if here[1] < low || here[1] > high {
        return 14;
    }
    let kind = kind as u8;
    let patterns = matches!(kind, MATCH | BUILD | PCON);
    let mut sorted = true;
    let from = operands_from(kind);
    for &operand in &here[from..from + count as usize] {
        if operand as usize >= entries || kind != CALL && operand as usize <= number {
            return 15;
        }
        let of_operand = words[WIDTH * operand as usize] / 16;
        sorted &= if kind == CALL {
            of_operand == u32::from(REC)
        } else if patterns {
            (18..20).contains(&of_operand)
        } else {
            of_operand < 18
        };
    }
    if !sorted {
        return 16;
    }
    if here[from + count as usize..].iter().any(|&word| word != 0) {
        return 17;
    }
    0
}

/// All tests of a node are made without a branch between them.
#[inline(always)]
fn good_node(here: &[u32], number: u32) -> bool {
    let count = here[1];
    let mut good = here[0] < 65_536 && count < 7;
    for position in 0..6 {
        let limit = if position < count { number } else { 1 };
        good &= here[2 + position as usize] < limit;
    }
    good
}

fn bad_table_length(table: &[u32]) -> bool {
    table.is_empty() || table.len() % WIDTH != 0 || table.len() > WIDTH * ENTRIES
}

fn bad_store_length(store: &[u32], mark: u32) -> bool {
    store.len() % WIDTH != 0 || store.len() > WIDTH * NODES || mark as usize > store.len() / WIDTH
}

fn lowest_bad_entry(table: &[u32]) -> Option<(u32, u32)> {
    (0..table.len() / WIDTH)
        .map(|number| (entry_fault(table, number), number as u32))
        .find(|&(fault, _)| fault != 0)
}

fn lowest_bad_node(store: &[u32], mark: u32) -> Option<u32> {
    store[..WIDTH * mark as usize]
        .chunks_exact(WIDTH)
        .zip(0u32..)
        .find(|&(here, number)| !good_node(here, number))
        .map(|(_, number)| number)
}

/// The table check: answer and place.
pub fn check_table(table: &[u32]) -> [u32; 2] {
    if bad_table_length(table) {
        return [2, 0];
    }
    lowest_bad_entry(table).map_or([0, 0], |(fault, number)| [fault, number])
}

/// The store check: answer and place.
pub fn check_store(store: &[u32], mark: u32) -> [u32; 2] {
    if bad_store_length(store, mark) {
        return [2, 0];
    }
    lowest_bad_node(store, mark).map_or([0, 0], |number| [4, number])
}

// ---- the public function

/// The run: answer, place, subject, mark and units used. It needs a big stack.
pub fn run(
    table: &[u32],
    store: &mut [u32],
    bindings: &mut [u32],
    mark: u32,
    start: u32,
    subject: u32,
    units: u32,
) -> [u32; 5] {
    run_by(table, store, bindings, mark, start, subject, units, true)
}

/// The run with every alternative tried, none skipped by its head.
pub fn run_trying(
    table: &[u32],
    store: &mut [u32],
    bindings: &mut [u32],
    mark: u32,
    start: u32,
    subject: u32,
    units: u32,
) -> [u32; 5] {
    run_by(table, store, bindings, mark, start, subject, units, false)
}

#[allow(clippy::too_many_arguments)]
fn run_by(
    table: &[u32],
    store: &mut [u32],
    bindings: &mut [u32],
    mark: u32,
    start: u32,
    subject: u32,
    units: u32,
    skipping: bool,
) -> [u32; 5] {
    if bad_table_length(table) || bad_store_length(store, mark) || bindings.len() != VARIABLES {
        return [2, 0, subject, mark, 0];
    }
    if let Some((fault, number)) = lowest_bad_entry(table) {
        return [fault, number, subject, mark, 0];
    }
    if let Some(number) = lowest_bad_node(store, mark) {
        return [4, number, subject, mark, 0];
    }
    let bad_start = start as usize >= table.len() / WIDTH || kind_in(table, start) >= PVAR;
    if bad_start || subject >= mark || bindings.iter().any(|&word| word > mark) {
        return [5, 0, subject, mark, 0];
    }

    let code = decode(table, skipping);
    let mut m = Machine {
        store,
        mark,
        mask: 0,
        bound: [0; VARIABLES],
        miss: NO_MISS,
    };
    for (variable, &word) in bindings.iter().enumerate() {
        if word != 0 {
            m.bound[variable] = word - 1;
            m.mask |= 1 << variable;
        }
    }
    let got = apply(
        &code,
        &mut m,
        link(table, start),
        done(subject, units),
        NESTING,
    );
    let used = units - left_of(got);
    let numbers = if is_done(got) {
        for (variable, word) in bindings.iter_mut().enumerate() {
            *word = if m.mask >> variable & 1 == 1 {
                m.bound[variable] + 1
            } else {
                0
            };
        }
        [0, 0, term_of(got), m.mark, used]
    } else {
        let (answer, place) = match got >> 32 {
            FAILED => (1, m.miss),
            NO_UNITS => (6, 0),
            NO_ROOM => (7, 0),
            NO_NESTING => (8, 0),
            variable => (12, (variable - UNBOUND) as u32),
        };
        [answer, place, subject, mark, used]
    };
    m.store[WIDTH * numbers[3] as usize..].fill(0);
    numbers
}
