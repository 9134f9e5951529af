//! Stores of terms with shared nodes and with equal terms at different nodes.

use crate::checks::WIDTH;
use crate::random::Random;
use std::collections::BTreeMap;

/// The nodes below the mark, and for each the lowest node equal to it.
pub struct Terms {
    /// The words of the nodes.
    pub words: Vec<u32>,
    /// For each node, the lowest node that is an equal term.
    pub equal_to: Vec<u32>,
    /// The first of each kind of term, by its words over first nodes.
    firsts: BTreeMap<[u32; WIDTH], u32>,
}

impl Terms {
    /// No terms.
    pub fn new() -> Terms {
        Terms {
            words: Vec::new(),
            equal_to: Vec::new(),
            firsts: BTreeMap::new(),
        }
    }

    /// The mark: the number of nodes.
    pub fn mark(&self) -> u32 {
        self.equal_to.len() as u32
    }

    /// The constructor of a node.
    pub fn constructor(&self, node: u32) -> u32 {
        self.words[WIDTH * node as usize]
    }

    /// The children of a node.
    pub fn children(&self, node: u32) -> &[u32] {
        let first = WIDTH * node as usize;
        let count = self.words[first + 1] as usize;
        &self.words[first + 2..first + 2 + count]
    }

    /// Adds a node.
    pub fn add(&mut self, constructor: u32, children: &[u32]) -> u32 {
        let node = self.mark();
        let mut row = [0; WIDTH];
        row[0] = constructor;
        row[1] = children.len() as u32;
        row[2..2 + children.len()].copy_from_slice(children);
        self.words.extend_from_slice(&row);
        for child in &mut row[2..2 + children.len()] {
            *child = self.equal_to[*child as usize];
        }
        let first = *self.firsts.entry(row).or_insert(node);
        self.equal_to.push(first);
        node
    }

    /// A node that is an equal term, maybe the node itself.
    fn an_equal(&self, random: &mut Random, node: u32) -> u32 {
        let class = self.equal_to[node as usize];
        let all: Vec<u32> = (0..self.mark())
            .filter(|&other| self.equal_to[other as usize] == class)
            .collect();
        random.pick(&all)
    }

    /// A random store of so many nodes. Later nodes lean on near earlier ones,
    /// so that the last reaches many.
    pub fn random(random: &mut Random, nodes: u32) -> Terms {
        let mut terms = Terms::new();
        let near = random.within(2, 8);
        let pair = random.within(1, 3);
        while terms.mark() < nodes {
            let mark = terms.mark();
            let leaf = mark < 2 || random.chance(12);
            if leaf {
                let constructor = constant(random);
                terms.add(constructor, &[]);
            } else if random.chance(20) {
                // A second node for a term that is there already.
                let twin = mark - 1 - random.below(near.min(mark));
                let constructor = terms.constructor(twin);
                let old: Vec<u32> = terms.children(twin).to_vec();
                let children: Vec<u32> = old
                    .iter()
                    .map(|&child| terms.an_equal(random, child))
                    .collect();
                terms.add(constructor, &children);
            } else {
                let count = match random.below(20) {
                    0..=5 => 1,
                    6..=14 => 2,
                    15..=17 => 3,
                    18 => random.within(4, 6),
                    _ => 0,
                };
                let children: Vec<u32> = (0..count)
                    .map(|_| {
                        if random.chance(75) {
                            mark - 1 - random.below(near.min(mark))
                        } else {
                            random.below(mark)
                        }
                    })
                    .collect();
                // Equal children now and then, for patterns that name a
                // variable twice.
                let children = if count > 1 && random.chance(30) {
                    let first = children[0];
                    children
                        .iter()
                        .map(|_| terms.an_equal(random, first))
                        .collect()
                } else {
                    children
                };
                let constructor = match random.below(40) {
                    0 => 65_535,
                    1 => 0,
                    2 => random.below(65_536),
                    _ => 3 + random.below(pair),
                };
                terms.add(constructor, &children);
            }
        }
        terms
    }
}

/// The constructor of a term without children.
pub fn constant(random: &mut Random) -> u32 {
    match random.below(20) {
        0 => 0,
        1 => 65_535,
        2 => 3,
        _ => random.within(1, 2),
    }
}
