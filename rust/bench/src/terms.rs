//! Terms in a store that grows.

#![forbid(unsafe_code)]

/// The words of one node.
pub const WIDTH: usize = 8;

/// The nodes made so far.
#[derive(Default)]
pub struct Terms {
    words: Vec<u32>,
    /// How many of them have children.
    inner: usize,
}

impl Terms {
    /// No nodes.
    pub fn new() -> Terms {
        Terms::default()
    }

    /// The number of nodes.
    pub fn mark(&self) -> usize {
        self.words.len() / WIDTH
    }

    /// The number of nodes with children.
    pub fn inner(&self) -> usize {
        self.inner
    }

    /// Makes a node.
    pub fn node(&mut self, constructor: u32, children: &[u32]) -> u32 {
        let number = self.mark() as u32;
        let first = self.words.len();
        self.words.resize(first + WIDTH, 0);
        self.words[first] = constructor;
        self.words[first + 1] = children.len() as u32;
        self.words[first + 2..first + 2 + children.len()].copy_from_slice(children);
        self.inner += usize::from(!children.is_empty());
        number
    }

    /// A balanced tree of a constructor with two children, over so many leaves
    /// without children, whose constructors go round seven.
    pub fn balanced(&mut self, constructor: u32, leaves: u32) -> u32 {
        if leaves == 1 {
            let leaf = self.mark() as u32 % 7;
            return self.node(leaf, &[]);
        }
        let left = self.balanced(constructor, leaves - leaves / 2);
        let right = self.balanced(constructor, leaves / 2);
        self.node(constructor, &[left, right])
    }

    /// The store of these nodes with room for so many.
    pub fn store(mut self, room: usize) -> Vec<u32> {
        assert!(self.mark() <= room);
        self.words.resize(WIDTH * room, 0);
        self.words
    }
}

/// Numbers that look random and are the same each time.
pub struct Dice {
    state: u64,
}

impl Dice {
    /// Dice with a seed.
    pub fn new(seed: u64) -> Dice {
        Dice {
            state: seed.wrapping_mul(0x9e37_79b9_7f4a_7c15) | 1,
        }
    }

    /// A number below the limit.
    pub fn below(&mut self, limit: u32) -> u32 {
        self.state ^= self.state << 13;
        self.state ^= self.state >> 7;
        self.state ^= self.state << 17;
        ((self.state >> 33) % u64::from(limit)) as u32
    }
}
