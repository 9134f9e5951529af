//! Strategy tables that do something on given terms.
//!
//! Each strategy is made with a node in view, the focus: patterns are cut from
//! its term, paths lie inside it. So most matches succeed, and some do not.

use super::terms::{constant, Terms};
use crate::checks::{kind, row_of, sort_of, Sort, VARIABLES, WIDTH};
use crate::random::Random;

/// A table being made. An entry is opened before its operands are made, so
/// that their numbers lie above its own.
pub struct Plan<'a> {
    /// The source of choices.
    pub random: &'a mut Random,
    terms: &'a Terms,
    rows: Vec<[u32; WIDTH]>,
    recs: Vec<u32>,
    pool: [u32; 6],
    bound: Vec<u32>,
    most: usize,
}

/// Six variables for a case: the first, the last or any.
pub fn pool(random: &mut Random) -> [u32; 6] {
    match random.below(8) {
        0..=1 => [0, 1, 2, 3, 4, 5],
        2..=3 => [63, 62, 61, 60, 59, 58],
        // Pairs that a mask or a number cut to 32 bits would take for one.
        4..=5 => [0, 32, 1, 33, 31, 63],
        6 => [31, 32, 30, 33, 29, 34],
        _ => {
            let mut pool = [0; 6];
            for (place, name) in pool.iter_mut().enumerate() {
                *name = 10 * place as u32 + random.below(10);
            }
            pool
        }
    }
}

impl<'a> Plan<'a> {
    /// An empty table that is to have about `most` entries at most. It names
    /// mostly the variables of the pool; those listed are bound at the start.
    pub fn new(
        random: &'a mut Random,
        terms: &'a Terms,
        pool: [u32; 6],
        bound: Vec<u32>,
        most: usize,
    ) -> Plan<'a> {
        Plan {
            random,
            terms,
            rows: Vec::new(),
            recs: Vec::new(),
            pool,
            bound,
            most,
        }
    }

    /// The table's words. Now and then calls are turned to other RECs, which
    /// may stand anywhere.
    pub fn table(mut self) -> Vec<u32> {
        if self.random.chance(8) {
            let of_kind = |rows: &[[u32; WIDTH]], kind: u32| -> Vec<u32> {
                (0..rows.len() as u32)
                    .filter(|&entry| rows[entry as usize][0] / 16 == kind)
                    .collect()
            };
            let recs = of_kind(&self.rows, kind::REC);
            for call in of_kind(&self.rows, kind::CALL) {
                if self.random.chance(50) {
                    self.rows[call as usize][2] = self.random.pick(&recs);
                }
            }
        }
        self.rows.concat()
    }

    fn open(&mut self, kind: u32) -> u32 {
        let entry = self.rows.len() as u32;
        self.rows.push([0; WIDTH]);
        self.rows[entry as usize][0] = 16 * kind;
        entry
    }

    fn close(&mut self, entry: u32, argument: u64, operands: &[u32]) -> u32 {
        let kind = self.rows[entry as usize][0] / 16;
        self.rows[entry as usize] = row_of(kind, argument, operands);
        entry
    }

    fn leaf(&mut self, kind: u32) -> u32 {
        let entry = self.open(kind);
        self.close(entry, 0, &[])
    }

    /// CALL of a given REC.
    fn call(&mut self, rec: u32) -> u32 {
        let entry = self.open(kind::CALL);
        self.close(entry, 0, &[rec])
    }

    /// An entry with one strategy operand, which is made by `make`.
    fn over<F>(&mut self, kind: u32, argument: u64, make: F) -> u32
    where
        F: FnOnce(&mut Plan<'a>) -> u32,
    {
        let entry = self.open(kind);
        let operand = make(self);
        self.close(entry, argument, &[operand])
    }

    /// An entry with two operands.
    fn both<F, G>(&mut self, kind: u32, first: F, second: G) -> u32
    where
        F: FnOnce(&mut Plan<'a>) -> u32,
        G: FnOnce(&mut Plan<'a>) -> u32,
    {
        let entry = self.open(kind);
        let first = first(self);
        // Now and then both operands are one entry, or share a part.
        let second = if self.random.chance(6) {
            self.shared(entry).unwrap_or(first)
        } else {
            second(self)
        };
        self.close(entry, 0, &[first, second])
    }

    /// A finished strategy above an entry, if there is one.
    fn shared(&mut self, entry: u32) -> Option<u32> {
        let above: Vec<u32> = (entry + 1..self.rows.len() as u32)
            .filter(|&other| sort_of(self.rows[other as usize][0] / 16) == Some(Sort::Strategy))
            .collect();
        if above.is_empty() {
            return None;
        }
        Some(self.random.pick(&above))
    }

    /// A variable from a small pool, so that clashes are frequent.
    fn variable(&mut self) -> u32 {
        match self.random.below(30) {
            0 => self.random.below(VARIABLES as u32),
            _ => self.random.pick(&self.pool),
        }
    }

    /// A mask over the pool, or any mask.
    fn mask(&mut self) -> u64 {
        match self.random.below(12) {
            0 => 0,
            1 => self
                .random
                .pick(&[u64::MAX, u64::from(u32::MAX), u64::MAX << 32]),
            2 => self.random.bits(),
            _ => {
                let some = self.random.below(64);
                self.pooled(some)
            }
        }
    }

    /// The mask of those variables of the pool whose places `some` has.
    fn pooled(&self, some: u32) -> u64 {
        (0..6).fold(0, |mask, place| {
            mask | u64::from(some >> place & 1) << self.pool[place]
        })
    }

    /// A node at or below the focus.
    fn inside(&mut self, focus: u32) -> u32 {
        let mut node = focus;
        while !self.terms.children(node).is_empty() && self.random.chance(60) {
            let children = self.terms.children(node);
            node = children[self.random.below(children.len() as u32) as usize];
        }
        node
    }

    /// A child of the focus, or the focus where it has none.
    fn child(&mut self, focus: u32) -> u32 {
        let children = self.terms.children(focus);
        if children.is_empty() {
            return focus;
        }
        children[self.random.below(children.len() as u32) as usize]
    }

    /// A pattern cut from the focus. `met` lists the variables of this pattern
    /// with the nodes that they stand for.
    fn cut(&mut self, focus: u32, depth: u32, met: &mut Vec<(u32, u32)>) -> u32 {
        let terms = self.terms;
        let children = terms.children(focus);
        let variable = depth == 0
            || self
                .random
                .chance(if children.is_empty() { 35 } else { 22 });
        if variable {
            let class = terms.equal_to[focus as usize];
            let same = met
                .iter()
                .find(|&&(_, node)| terms.equal_to[node as usize] == class)
                .map(|&(name, _)| name);
            let name = match same {
                Some(name) if self.random.chance(60) => name,
                _ if !met.is_empty() && self.random.chance(6) => {
                    let index = self.random.below(met.len() as u32) as usize;
                    met[index].0
                }
                _ => {
                    // A name that this pattern has not used, if one is found.
                    let mut name = self.variable();
                    for _ in 0..6 {
                        if !met.iter().any(|&(other, _)| other == name) {
                            break;
                        }
                        name = self.variable();
                    }
                    name
                }
            };
            met.push((name, focus));
            let entry = self.open(kind::PVAR);
            return self.close(entry, u64::from(name), &[]);
        }
        let entry = self.open(kind::PCON);
        let mut constructor = terms.constructor(focus);
        let mut operands = Vec::new();
        for &child in children {
            // An operand may be an entry that stands there already.
            let operand = if operands.len() == 1 && self.random.chance(5) {
                operands[0]
            } else {
                self.cut(child, depth - 1, met)
            };
            operands.push(operand);
        }
        if self.random.chance(4) {
            constructor = constant(self.random);
        }
        if self.random.rarely(15) && !operands.is_empty() {
            operands.pop();
        }
        self.close(entry, u64::from(constructor), &operands)
    }

    /// MATCH of a pattern cut from the focus.
    fn matching(&mut self, focus: u32) -> u32 {
        let entry = self.open(kind::MATCH);
        let mut met = Vec::new();
        let depth = self.random.below(4);
        let pattern = self.cut(focus, depth, &mut met);
        for (name, _) in met {
            if !self.bound.contains(&name) {
                self.bound.push(name);
            }
        }
        self.close(entry, 0, &[pattern])
    }

    /// A pattern to build, mostly from variables that are bound by then.
    fn construction(&mut self, depth: u32) -> u32 {
        if depth == 0 || self.random.chance(45) {
            let constants = if self.bound.is_empty() { 75 } else { 25 };
            if self.random.chance(constants) {
                let entry = self.open(kind::PCON);
                let constructor = constant(self.random);
                return self.close(entry, u64::from(constructor), &[]);
            }
            let entry = self.open(kind::PVAR);
            let name = if self.bound.is_empty() || self.random.chance(3) {
                self.variable()
            } else {
                let bound = &self.bound;
                bound[self.random.below(bound.len() as u32) as usize]
            };
            return self.close(entry, u64::from(name), &[]);
        }
        let entry = self.open(kind::PCON);
        let count = match self.random.below(16) {
            0 => 6,
            1..=4 => 1,
            5..=12 => 2,
            _ => 3,
        };
        let operands: Vec<u32> = (0..count).map(|_| self.construction(depth - 1)).collect();
        let constructor = self.random.within(3, 5);
        self.close(entry, u64::from(constructor), &operands)
    }

    /// BUILD of something.
    fn building(&mut self) -> u32 {
        let entry = self.open(kind::BUILD);
        let depth = self.random.below(4);
        let pattern = self.construction(depth);
        self.close(entry, 0, &[pattern])
    }

    /// A rewrite rule: match, then build; often inside a scope.
    fn rule(&mut self, focus: u32) -> u32 {
        if self.random.chance(60) {
            let mask = if self.random.chance(80) {
                self.pooled(63)
            } else {
                self.mask()
            };
            let outer = self.bound.clone();
            let entry = self.over(kind::SCOPE, mask, |plan| {
                plan.bound.clear();
                plan.bare_rule(focus)
            });
            self.bound = outer;
            return entry;
        }
        self.bare_rule(focus)
    }

    /// A rule whose variables stay bound.
    fn bare_rule(&mut self, focus: u32) -> u32 {
        let entry = self.open(kind::SEQ);
        let first = self.matching(focus);
        let second = if self.random.chance(12) {
            // A condition between the two.
            self.both(
                kind::SEQ,
                |plan| {
                    plan.over(kind::WHERE, 0, |plan| {
                        plan.both(
                            kind::SEQ,
                            |plan| plan.building(),
                            |plan| plan.matching(focus),
                        )
                    })
                },
                |plan| plan.building(),
            )
        } else {
            self.building()
        };
        self.close(entry, 0, &[first, second])
    }

    /// A strategy that binds variables or makes nodes, and mostly succeeds.
    fn effect(&mut self, focus: u32) -> u32 {
        match self.random.below(5) {
            0 => self.over(kind::ALL, 0, |plan| plan.leaf(kind::ID)),
            1 => self.matching(focus),
            2 => {
                let child = self.child(focus);
                self.over(kind::SOME, 0, |plan| plan.bare_rule(child))
            }
            _ => self.bare_rule(focus),
        }
    }

    /// An effect that is then abandoned.
    fn doomed(&mut self, focus: u32) -> u32 {
        self.both(
            kind::SEQ,
            |plan| plan.effect(focus),
            |plan| match plan.random.below(4) {
                0 => plan.matching(focus),
                1 => plan.over(kind::PATH, 6, |plan| plan.leaf(kind::ID)),
                _ => plan.leaf(kind::FAIL),
            },
        )
    }

    /// MATCH of a pattern cut from some other term, so that it mostly fails.
    fn mismatching(&mut self) -> u32 {
        let other = self.random.below(self.terms.mark());
        self.matching(other)
    }

    /// Matches that fail and are caught, then one that is not, or FAIL.
    fn misses(&mut self, focus: u32) -> u32 {
        let caught = |plan: &mut Plan<'a>| match plan.random.below(4) {
            0 => plan.over(kind::NOT, 0, |plan| plan.mismatching()),
            1 => {
                let child = plan.child(focus);
                plan.both(
                    kind::LEFT,
                    |plan| plan.over(kind::SOME, 0, |plan| plan.matching(child)),
                    |plan| plan.leaf(kind::ID),
                )
            }
            _ => plan.both(
                kind::LEFT,
                |plan| plan.mismatching(),
                |plan| plan.leaf(kind::ID),
            ),
        };
        self.both(kind::SEQ, caught, |plan| match plan.random.below(5) {
            0 => plan.both(kind::SEQ, caught, |plan| plan.leaf(kind::FAIL)),
            1 => plan.over(kind::NOT, 0, |plan| plan.matching(focus)),
            2 => plan.over(kind::ALL, 0, |plan| plan.mismatching()),
            3 => plan.leaf(kind::FAIL),
            _ => plan.mismatching(),
        })
    }

    /// An effect, then a BUILD that names a variable that nothing binds, often
    /// after a part that makes nodes; around it something that catches failures.
    fn overlooked(&mut self, focus: u32) -> u32 {
        let build = |plan: &mut Plan<'a>| {
            let entry = plan.open(kind::BUILD);
            let pattern = plan.open(kind::PCON);
            let first = plan.construction(1);
            let second = plan.open(kind::PVAR);
            let name = plan.random.below(VARIABLES as u32);
            plan.close(second, u64::from(name), &[]);
            let operands = match plan.random.below(3) {
                0 => [second, first],
                _ => [first, second],
            };
            plan.close(pattern, 3, &operands);
            plan.close(entry, 0, &[pattern])
        };
        let both = |plan: &mut Plan<'a>| plan.both(kind::SEQ, |plan| plan.effect(focus), build);
        match self.random.below(8) {
            0 => self.over(kind::NOT, 0, both),
            1 => self.over(kind::TEST, 0, both),
            2 => self.over(kind::WHERE, 0, both),
            3 => self.over(kind::ONE, 0, build),
            4 => self.over(kind::SOME, 0, build),
            5 => {
                let mask = self.mask();
                self.over(kind::SCOPE, mask, both)
            }
            6 => self.both(kind::CHOICE, both, |plan| plan.leaf(kind::ID)),
            _ => self.both(kind::LEFT, both, |plan| plan.leaf(kind::ID)),
        }
    }

    /// A strategy that catches an abandoned effect.
    fn abandoning(&mut self, focus: u32, budget: u32) -> u32 {
        let child = self.child(focus);
        match self.random.below(7) {
            0 => self.over(kind::NOT, 0, |plan| plan.doomed(focus)),
            1 => self.over(kind::SOME, 0, |plan| {
                plan.both(
                    kind::SEQ,
                    |plan| plan.effect(child),
                    |plan| plan.strategy(child, 1),
                )
            }),
            2 => self.over(kind::ONE, 0, |plan| {
                plan.both(
                    kind::SEQ,
                    |plan| plan.effect(child),
                    |plan| plan.strategy(child, 1),
                )
            }),
            3 => self.over(kind::TEST, 0, |plan| plan.effect(focus)),
            4 => self.both(
                kind::CHOICE,
                |plan| plan.doomed(focus),
                |plan| plan.strategy(focus, budget),
            ),
            _ => self.both(
                kind::LEFT,
                |plan| plan.doomed(focus),
                |plan| plan.strategy(focus, budget),
            ),
        }
    }

    /// A traversal of the whole term with a rule for a part of it.
    fn traversal(&mut self, focus: u32) -> u32 {
        let part = self.inside(focus);
        let rec = self.open(kind::REC);
        let calls =
            |kind: u32| move |plan: &mut Plan<'a>| plan.over(kind, 0, |plan| plan.call(rec));
        let rule = |plan: &mut Plan<'a>| plan.rule(part);
        let tried = |plan: &mut Plan<'a>| plan.both(kind::LEFT, rule, |plan| plan.leaf(kind::ID));
        let again = |plan: &mut Plan<'a>| {
            plan.both(
                kind::LEFT,
                |plan| plan.both(kind::SEQ, rule, |plan| plan.call(rec)),
                |plan| plan.leaf(kind::ID),
            )
        };
        let body = match self.random.below(10) {
            0 => self.both(kind::SEQ, tried, calls(kind::ALL)),
            1 => self.both(kind::SEQ, calls(kind::ALL), tried),
            2 => self.both(kind::LEFT, rule, calls(kind::ONE)),
            3 => self.both(kind::LEFT, rule, calls(kind::SOME)),
            4 => self.both(kind::CHOICE, rule, calls(kind::ALL)),
            5 => self.both(kind::LEFT, calls(kind::ONE), rule),
            6 => self.both(kind::LEFT, calls(kind::SOME), rule),
            7 => again(self),
            8 => self.both(kind::SEQ, calls(kind::ALL), again),
            _ => self.both(kind::CHOICE, calls(kind::SOME), |plan| plan.leaf(kind::ID)),
        };
        self.close(rec, 0, &[body])
    }

    /// A strategy that does not end by itself, in some wrapping.
    pub fn looping(&mut self, focus: u32, wraps: u32) -> u32 {
        if wraps > 0 {
            let which = self.random.below(9);
            return match which {
                0 => self.over(kind::NOT, 0, |plan| plan.looping(focus, wraps - 1)),
                1 => self.over(kind::TEST, 0, |plan| plan.looping(focus, wraps - 1)),
                2 => {
                    let mask = self.mask();
                    self.over(kind::SCOPE, mask, |plan| plan.looping(focus, wraps - 1))
                }
                3..=5 => {
                    let child = self.child(focus);
                    let kinds = [kind::SOME, kind::ONE, kind::ALL];
                    self.over(kinds[which as usize - 3], 0, |plan| {
                        plan.looping(child, wraps - 1)
                    })
                }
                6 => self.both(
                    kind::SEQ,
                    |plan| plan.effect(focus),
                    |plan| plan.looping(focus, wraps - 1),
                ),
                _ => self.both(
                    kind::LEFT,
                    |plan| plan.looping(focus, wraps - 1),
                    |plan| plan.strategy(focus, 1),
                ),
            };
        }
        let rec = self.open(kind::REC);
        let call = |plan: &mut Plan<'a>| plan.call(rec);
        let body = match self.random.below(12) {
            0 => call(self),
            1 => self.over(kind::TEST, 0, call),
            2 => self.over(kind::NOT, 0, call),
            3 => self.over(kind::WHERE, 0, call),
            4 => {
                let mask = self.mask();
                self.over(kind::SCOPE, mask, |plan| {
                    plan.both(kind::SEQ, |plan| plan.matching(focus), call)
                })
            }
            5 => self.both(kind::LEFT, |plan| plan.doomed(focus), call),
            6 => self.both(kind::SEQ, |plan| plan.matching(focus), call),
            7 => self.both(
                kind::SEQ,
                |plan| plan.over(kind::TEST, 0, |plan| plan.effect(focus)),
                call,
            ),
            8 => self.both(
                kind::SEQ,
                |plan| plan.over(kind::NOT, 0, |plan| plan.doomed(focus)),
                call,
            ),
            9 => self.both(kind::CHOICE, |plan| plan.leaf(kind::FAIL), call),
            10 => self.both(
                kind::SEQ,
                |plan| {
                    plan.both(
                        kind::LEFT,
                        |plan| plan.doomed(focus),
                        |plan| plan.leaf(kind::ID),
                    )
                },
                call,
            ),
            _ => self.both(kind::SEQ, |plan| plan.leaf(kind::ID), call),
        };
        self.close(rec, 0, &[body])
    }

    /// A counter over a chain of bits: it goes four deeper with each step and
    /// stops when all bits are ones. Bits are 3 (zero) and 4 (one) with one
    /// child each, lowest first.
    pub fn counter(&mut self) -> u32 {
        let top = self.open(kind::SEQ);
        // The step is defined under a choice that never takes it.
        let holder = self.open(kind::LEFT);
        let id = self.leaf(kind::ID);
        let step = self.open(kind::REC);
        let rewrite = |plan: &mut Plan<'a>, from: u32, to: u32| {
            plan.over(kind::SCOPE, 1, |plan| {
                let seq = plan.open(kind::SEQ);
                let mut sides = Vec::new();
                for &(kind, constructor) in &[(kind::MATCH, from), (kind::BUILD, to)] {
                    let side = plan.over(kind, 0, |plan| {
                        let pattern = plan.open(kind::PCON);
                        let name = plan.open(kind::PVAR);
                        plan.close(pattern, u64::from(constructor), &[name])
                    });
                    sides.push(side);
                }
                plan.close(seq, 0, &sides)
            })
        };
        let body = self.open(kind::LEFT);
        let low = rewrite(self, 3, 4);
        let carry = self.open(kind::SEQ);
        let under = self.open(kind::CONG);
        let again = self.call(step);
        self.close(under, 4, &[again]);
        let back = rewrite(self, 4, 3);
        self.close(carry, 0, &[under, back]);
        self.close(body, 0, &[low, carry]);
        self.close(step, 0, &[body]);
        self.close(holder, 0, &[id, step]);
        let count = self.open(kind::REC);
        let choice = self.open(kind::LEFT);
        let both = self.open(kind::SEQ);
        let one = self.call(step);
        let more = self.call(count);
        self.close(both, 0, &[one, more]);
        let end = self.leaf(kind::ID);
        self.close(choice, 0, &[both, end]);
        self.close(count, 0, &[choice]);
        self.close(top, 0, &[holder, count])
    }

    /// A traversal of a chain that goes about three deeper with each node.
    pub fn descent(&mut self) -> u32 {
        let extra = self.random.below(4);
        if extra > 0 {
            let kinds = [kind::WHERE, kind::TEST, kind::REC];
            return self.over(kinds[extra as usize - 1], 0, |plan| plan.bare_descent());
        }
        self.bare_descent()
    }

    fn bare_descent(&mut self) -> u32 {
        let kinds = [kind::ALL, kind::SOME, kind::ONE];
        let way = self.random.pick(&kinds);
        let rec = self.open(kind::REC);
        let body = if way == kind::ALL {
            self.over(way, 0, |plan| plan.call(rec))
        } else {
            self.both(
                kind::LEFT,
                |plan| plan.over(way, 0, |plan| plan.call(rec)),
                |plan| plan.leaf(kind::ID),
            )
        };
        self.close(rec, 0, &[body])
    }

    /// MATCH of 5(x, x), under some wrappings.
    pub fn comparison(&mut self) -> u32 {
        let wraps = self.random.below(3);
        let mut outer = Vec::new();
        for _ in 0..wraps {
            outer.push(self.open(kind::WHERE));
        }
        let matching = self.open(kind::MATCH);
        let pattern = self.open(kind::PCON);
        let name = self.open(kind::PVAR);
        self.close(pattern, 5, &[name, name]);
        let mut inner = self.close(matching, 0, &[pattern]);
        while let Some(entry) = outer.pop() {
            inner = self.close(entry, 0, &[inner]);
        }
        inner
    }

    /// A strategy for the focus, about as big as the budget says.
    pub fn strategy(&mut self, focus: u32, budget: u32) -> u32 {
        let full = self.rows.len() >= self.most;
        if budget == 0 || full {
            return match self.random.weighed(&[40, 12, 12, 22, 14]) {
                0 => self.leaf(kind::ID),
                1 => self.leaf(kind::FAIL),
                2 if !self.recs.is_empty() => {
                    let recs = &self.recs;
                    let rec = recs[self.random.below(recs.len() as u32) as usize];
                    self.call(rec)
                }
                2 => self.leaf(kind::ID),
                3 => self.matching(focus),
                _ => self.building(),
            };
        }
        let less = budget - 1;
        let here = |plan: &mut Plan<'a>| plan.strategy(focus, less);
        let child = self.child(focus);
        let there = move |plan: &mut Plan<'a>| plan.strategy(child, less);
        let weights = [
            4,  // a leaf
            5,  // TEST
            4,  // NOT
            18, // SEQ
            5,  // CHOICE
            7,  // LEFT
            6,  // REC
            4,  // CALL
            7,  // PATH
            9,  // CONG
            6,  // ALL
            6,  // ONE
            7,  // SOME
            6,  // MATCH
            4,  // BUILD
            6,  // SCOPE
            5,  // WHERE
            10, // a rule
            10, // an abandoned effect
            9,  // a traversal
            3,  // an entry that nothing uses, then a strategy
            2,  // a BUILD whose variable is unbound, under a catcher
            4,  // matches that fail
        ];
        match self.random.weighed(&weights) {
            0 => self.strategy(focus, 0),
            1 => self.over(kind::TEST, 0, here),
            2 => self.over(kind::NOT, 0, here),
            3 => self.both(kind::SEQ, here, here),
            4 => self.both(kind::CHOICE, here, here),
            5 => self.both(kind::LEFT, here, here),
            6 => {
                let rec = self.open(kind::REC);
                self.recs.push(rec);
                let body = here(self);
                if self.random.chance(70) {
                    self.recs.retain(|&other| other != rec);
                }
                self.close(rec, 0, &[body])
            }
            7 if !self.recs.is_empty() => {
                let recs = &self.recs;
                let rec = recs[self.random.below(recs.len() as u32) as usize];
                self.call(rec)
            }
            8 => {
                let count = self.terms.children(focus).len() as u32;
                if count == 0 || self.random.chance(8) {
                    let position = self.random.within(1, 6);
                    return self.over(kind::PATH, u64::from(position), there);
                }
                let position = self.random.within(1, count);
                let child = self.terms.children(focus)[position as usize - 1];
                self.over(kind::PATH, u64::from(position), |plan| {
                    plan.strategy(child, less)
                })
            }
            9 => {
                let entry = self.open(kind::CONG);
                let terms = self.terms;
                let operands: Vec<u32> = terms
                    .children(focus)
                    .iter()
                    .map(|&child| {
                        let small = less.min(self.random.below(3));
                        self.strategy(child, small)
                    })
                    .collect();
                let constructor = if self.random.chance(5) {
                    constant(self.random)
                } else {
                    terms.constructor(focus)
                };
                self.close(entry, u64::from(constructor), &operands)
            }
            10 => self.over(kind::ALL, 0, there),
            11 => self.over(kind::ONE, 0, there),
            12 => self.over(kind::SOME, 0, there),
            13 => self.matching(focus),
            14 => self.building(),
            15 => {
                let mask = self.mask();
                self.over(kind::SCOPE, mask, here)
            }
            16 => self.over(kind::WHERE, 0, here),
            17 => self.rule(focus),
            18 => self.abandoning(focus, less),
            19 => self.traversal(focus),
            20 => {
                // The unused entry stands above or below what follows.
                self.strategy(focus, 0);
                here(self)
            }
            21 => self.overlooked(focus),
            22 => self.misses(focus),
            _ => self.leaf(kind::ID),
        }
    }
}
