//! The run.
//!
//! One function applies an entry to a term. It calls itself for every operand,
//! one deeper. The bindings, the mark and the units used are fields of the
//! machine. A failure undoes nothing by itself: whoever catches it puts the
//! bindings and the mark back, and that happens in one function, `attempt`.

use crate::checks::{
    first_operand, kind, kind_of, mask_of, DONE, FAILED, NO_NESTING, NO_ROOM, NO_UNITS, UNBOUND,
    UNFINISHED, VARIABLES, WIDTH,
};
use crate::refusals::{refusal, Input};

/// The deepest nesting of a visit. 01: "if its nesting would exceed 4,096".
pub const NESTING: u32 = 4_096;

/// The place of a failed run in which no match failed. 02, wish 10: "or 4,096 if
/// none did".
pub const NO_MISS: u32 = 4_096;

/// 01: "A run returns five numbers: answer, place, subject, mark, units used."
#[derive(Clone, Copy, Debug, PartialEq, Eq)]
pub struct Outcome {
    /// 0 to 8 without 3 by 01's table, and 10 to 17, 21 and 24 by 02.
    pub answer: u32,
    /// The lowest bad entry for answers 10, 13 to 17 and 24, the lowest bad node for
    /// 4, 11 and 21, the variable for 12, the entry of the last match that failed for
    /// 1, else 0.
    pub place: u32,
    /// The new subject for answer 0, else as given.
    pub subject: u32,
    /// The new mark for answer 0, else as given.
    pub mark: u32,
    /// The visits counted; 0 for a refusal.
    pub units: u32,
}

impl Outcome {
    /// The five numbers in 01's order.
    pub fn numbers(&self) -> [u32; 5] {
        [self.answer, self.place, self.subject, self.mark, self.units]
    }
}

impl std::fmt::Display for Outcome {
    /// The five numbers, one space between.
    fn fmt(&self, to: &mut std::fmt::Formatter) -> std::fmt::Result {
        let numbers: Vec<String> = self.numbers().iter().map(u32::to_string).collect();
        to.write_str(&numbers.join(" "))
    }
}

/// How a visit that applies an entry ends.
#[derive(Clone, Copy, Debug, PartialEq, Eq)]
pub enum Way {
    /// It gave this term.
    Success(u32),
    /// It failed.
    Failure,
    /// The run was cut off while it was under way.
    InFlight,
}

/// What a watcher may look at: the store's words and the bindings, as they are.
#[derive(Clone, Copy)]
pub struct Sight<'a> {
    /// The store's words.
    pub store: &'a [u32],
    /// The bindings.
    pub bindings: &'a [u32],
}

/// Someone who looks on while a run goes. The unit type looks at nothing.
pub trait Watcher {
    /// A visit was counted: an entry of this kind, at this nesting.
    fn visited(&mut self, _kind: u32, _nesting: u32) {}
    /// That visit applies this entry to this term.
    fn applied(&mut self, _entry: u32, _term: u32, _sight: Sight<'_>) {}
    /// A visit that applied this entry came to its end.
    fn ended(&mut self, _entry: u32, _way: Way, _sight: Sight<'_>) {}
    /// A visit was counted: a pair of nodes, at this nesting.
    fn compared(&mut self, _nesting: u32) {}
    /// A comparison for a bound variable ended: the two nodes, and the verdict.
    fn judged(&mut self, _left: u32, _right: u32, _equal: bool) {}
    /// A match gave up at this pattern entry, of this kind.
    fn missed(&mut self, _pattern: u32, _kind: u32) {}
    /// A node was wanted that stands below the mark already.
    fn found(&mut self, _node: u32) {}
    /// A node was made, and the mark is now this.
    fn made(&mut self, _mark: u32) {}
    /// A failure was caught: nodes dropped, and whether bindings went back.
    fn caught(&mut self, _nodes: u32, _bindings: bool) {}
}

impl Watcher for () {}

/// What ends the whole run.
#[derive(Clone, Copy)]
enum Stop {
    Units,
    Room,
    Nesting,
    /// 02, wish 8: the step's visits are done.
    Pause,
    /// 02, wish 3: BUILD met this variable, and it is unbound.
    Unbound(u32),
}

/// How a strategy ends without a new state.
///
/// 01: "A strategy gives a new state or fails"; the third way ends the run.
enum End {
    Failed,
    CutOff(Stop),
}

/// A run under way.
struct Machine<'a, W> {
    table: &'a [u32],
    store: &'a mut [u32],
    /// 01: "Zero is unbound; otherwise the word is the node number plus one."
    bindings: [u32; VARIABLES],
    /// 01: "The mark is the number of nodes in use."
    mark: u32,
    used: u32,
    units: u32,
    /// 02, wish 10: the pattern entry at which the last match that failed gave
    /// up. Nothing takes it back: the last in time is meant, caught or not.
    miss: u32,
    /// 02, wish 8: the visits after which the run is set aside.
    pause: u64,
    /// 02, wish 12: whether a node that stands below the mark is not made again.
    shared: bool,
    watcher: &'a mut W,
}

impl<'a, W: Watcher> Machine<'a, W> {
    /// The eight words of an entry.
    fn entry(&self, entry: u32) -> &'a [u32] {
        let first = WIDTH * entry as usize;
        &self.table[first..first + WIDTH]
    }

    /// A copy of the eight words of a node.
    fn node(&self, node: u32) -> [u32; WIDTH] {
        let first = WIDTH * node as usize;
        let mut words = [0; WIDTH];
        words.copy_from_slice(&self.store[first..first + WIDTH]);
        words
    }

    /// The node below the mark that has these words, if there is one.
    ///
    /// 02, wish 12: "Room given back is forgotten by the index": the mark is the
    /// one of this moment.
    fn standing(&self, words: &[u32; WIDTH]) -> Option<u32> {
        let below = &self.store[..WIDTH * self.mark as usize];
        below
            .chunks(WIDTH)
            .position(|row| row == words)
            .map(|node| node as u32)
    }

    /// Makes a node and gives its number.
    ///
    /// 01: "A new node takes the number at the mark."; "Answer 7: a node is to
    /// be made and the mark equals the store's nodes." 02, wish 12: "a node that
    /// stands below the mark with the same words isn't made again." Where it is
    /// found no room is wanted.
    fn make(&mut self, words: [u32; WIDTH]) -> Result<u32, End> {
        if self.shared {
            if let Some(node) = self.standing(&words) {
                self.watcher.found(node);
                return Ok(node);
            }
        }
        let first = WIDTH * self.mark as usize;
        if first == self.store.len() {
            return Err(End::CutOff(Stop::Room));
        }
        self.store[first..first + WIDTH].copy_from_slice(&words);
        self.mark += 1;
        self.watcher.made(self.mark);
        Ok(self.mark - 1)
    }

    /// Asks for a visit.
    ///
    /// 01: "Before each visit: if all units are used, answer 6; else if its
    /// nesting would exceed 4,096, answer 8. A visit that passes both is
    /// counted."
    ///
    /// 02, wish 8: a step goes "up to the next one's limit test", so it ends
    /// before that test.
    fn visit(&mut self, nesting: u32) -> Result<(), End> {
        if u64::from(self.used) == self.pause {
            return Err(End::CutOff(Stop::Pause));
        }
        if self.used == self.units {
            return Err(End::CutOff(Stop::Units));
        }
        if nesting > NESTING {
            return Err(End::CutOff(Stop::Nesting));
        }
        self.used += 1;
        Ok(())
    }

    /// Applies an operand whose failure the run survives.
    ///
    /// 01: "a failure has no bindings of its own"; "Whenever an operand fails
    /// and the run goes on, [..] the mark returns to its value before that
    /// operand"; "Where an operand ends in 6, 7 or 8 nothing catches it, not
    /// even NOT or LEFT." 02 says the same of 12: "like 6, 7 and 8 caught by
    /// nothing".
    fn attempt(&mut self, entry: u32, term: u32, nesting: u32) -> Result<Option<u32>, End> {
        let bindings = self.bindings;
        let mark = self.mark;
        match self.apply(entry, term, nesting) {
            Ok(new) => Ok(Some(new)),
            Err(End::Failed) => {
                self.watcher
                    .caught(self.mark - mark, self.bindings != bindings);
                self.bindings = bindings;
                self.mark = mark;
                Ok(None)
            }
            Err(cut_off) => Err(cut_off),
        }
    }

    /// What a watcher may look at.
    fn sight(&mut self) -> (&mut W, Sight<'_>) {
        let sight = Sight {
            store: self.store,
            bindings: &self.bindings,
        };
        (self.watcher, sight)
    }

    /// Applies an entry as a strategy to a term and gives the new term.
    fn apply(&mut self, entry: u32, term: u32, nesting: u32) -> Result<u32, End> {
        self.visit(nesting)?;
        let kind = kind_of(self.table, entry);
        let (watcher, sight) = self.sight();
        watcher.visited(kind, nesting);
        watcher.applied(entry, term, sight);
        let end = self.by_its_rule(entry, term, nesting);
        let way = match end {
            Ok(new) => Way::Success(new),
            Err(End::Failed) => Way::Failure,
            Err(End::CutOff(_)) => Way::InFlight,
        };
        let (watcher, sight) = self.sight();
        watcher.ended(entry, way, sight);
        end
    }

    /// Does what the rule of an entry says, its visit being counted.
    ///
    /// 01: "Unless its rule says otherwise, a strategy fails as soon as an
    /// operand it runs fails": that is the `?` after `apply`.
    fn by_its_rule(&mut self, entry: u32, term: u32, nesting: u32) -> Result<u32, End> {
        // 01: "a visit asked for by another is one deeper."
        let deeper = nesting + 1;
        let row = self.entry(entry);
        let kind = row[0] / 16;
        let argument = row[1];
        let first = row[first_operand(kind)];
        let second = row[3];
        match kind {
            // 01: "ID gives the state back. FAIL fails."
            kind::ID => Ok(term),
            kind::FAIL => Err(End::Failed),

            // 01: "TEST succeeds when its operand does and restores term and
            // bindings."; "whenever TEST succeeds, the mark returns".
            kind::TEST => {
                let bindings = self.bindings;
                let mark = self.mark;
                self.apply(first, term, deeper)?;
                self.bindings = bindings;
                self.mark = mark;
                Ok(term)
            }

            // 01: "NOT succeeds when its operand fails and gives back the state
            // it began with, and otherwise fails."
            kind::NOT => match self.attempt(first, term, deeper)? {
                None => Ok(term),
                Some(_) => Err(End::Failed),
            },

            // 01: "WHERE restores the term and keeps the new bindings."
            kind::WHERE => {
                self.apply(first, term, deeper)?;
                Ok(term)
            }

            // 01: "SEQ runs the second operand on the first's state."
            kind::SEQ => {
                let between = self.apply(first, term, deeper)?;
                self.apply(second, between, deeper)
            }

            // 01: "CHOICE and LEFT both try the first, then the second from the
            // beginning state."
            kind::CHOICE | kind::LEFT => match self.attempt(first, term, deeper)? {
                Some(new) => Ok(new),
                None => self.apply(second, term, deeper),
            },

            // 01: "REC runs its body. CALL runs the REC it names."
            kind::REC | kind::CALL => self.apply(first, term, deeper),

            kind::PATH => self.path(argument, first, term, deeper),
            kind::CONG => self.congruence(row, term, deeper),
            kind::ALL => self.all(first, term, deeper),
            kind::ONE => self.one(first, term, deeper),
            kind::SOME => self.some(first, term, deeper),

            // 01: "MATCH walks pattern and term together, left to right."
            kind::MATCH => {
                self.meet(first, term, deeper)?;
                Ok(term)
            }

            // 01: "BUILD makes the pattern's term from the bindings".
            kind::BUILD => self.build(first, deeper),

            // 01: "SCOPE unbinds its masked variables, runs, and on success puts
            // their outer bindings back, unbound ones included; other new
            // bindings stay."
            kind::SCOPE => {
                let outer = self.bindings;
                let mask = mask_of(row);
                for (variable, word) in self.bindings.iter_mut().enumerate() {
                    if mask >> variable & 1 == 1 {
                        *word = 0;
                    }
                }
                let new = self.apply(first, term, deeper)?;
                for (variable, word) in self.bindings.iter_mut().enumerate() {
                    if mask >> variable & 1 == 1 {
                        *word = outer[variable];
                    }
                }
                Ok(new)
            }

            _ => unreachable!("the table check lets only strategies stand here"),
        }
    }

    /// 01: "PATH i fails when i exceeds the child count; otherwise it runs on
    /// that child."
    fn path(&mut self, position: u32, operand: u32, term: u32, nesting: u32) -> Result<u32, End> {
        let mut words = self.node(term);
        if position > words[1] {
            return Err(End::Failed);
        }
        let word = 1 + position as usize;
        words[word] = self.apply(operand, words[word], nesting)?;
        // 01: "PATH, CONG, ALL, ONE and SOME make one on success, even if
        // nothing changed, after their children".
        self.make(words)
    }

    /// 01: "CONG fails unless constructor and count agree; then operand j runs
    /// on child j."
    fn congruence(&mut self, row: &[u32], term: u32, nesting: u32) -> Result<u32, End> {
        let mut words = self.node(term);
        let count = row[0] % 16;
        if words[0] != row[1] || words[1] != count {
            return Err(End::Failed);
        }
        // 01: "a term without children is returned itself and no node is made."
        if count == 0 {
            return Ok(term);
        }
        // 01: "CONG, ALL and SOME go left to right, each child starting with
        // the bindings left by the last success."
        for word in 2..2 + count as usize {
            words[word] = self.apply(row[word], words[word], nesting)?;
        }
        self.make(words)
    }

    /// 01: "ALL needs every child to succeed."
    fn all(&mut self, operand: u32, term: u32, nesting: u32) -> Result<u32, End> {
        let mut words = self.node(term);
        let count = words[1] as usize;
        // 01: "a term without children is returned itself and no node is made."
        if count == 0 {
            return Ok(term);
        }
        for child in &mut words[2..2 + count] {
            *child = self.apply(operand, *child, nesting)?;
        }
        self.make(words)
    }

    /// 01: "ONE takes the leftmost child that succeeds."
    fn one(&mut self, operand: u32, term: u32, nesting: u32) -> Result<u32, End> {
        let mut words = self.node(term);
        let count = words[1] as usize;
        for word in 2..2 + count {
            if let Some(new) = self.attempt(operand, words[word], nesting)? {
                words[word] = new;
                return self.make(words);
            }
        }
        Err(End::Failed)
    }

    /// 01: "SOME runs on every child, keeps a child where it failed, and needs
    /// at least one success."
    fn some(&mut self, operand: u32, term: u32, nesting: u32) -> Result<u32, End> {
        let mut words = self.node(term);
        let count = words[1] as usize;
        let mut succeeded = false;
        for child in &mut words[2..2 + count] {
            if let Some(new) = self.attempt(operand, *child, nesting)? {
                *child = new;
                succeeded = true;
            }
        }
        if !succeeded {
            return Err(End::Failed);
        }
        self.make(words)
    }

    /// A match gives up at a pattern entry.
    ///
    /// 02, wish 10: "Let the matcher tell the pattern entry at which it gave up
    /// [..]. For a repeated variable it's the variable's entry."
    fn give_up(&mut self, pattern: u32) -> Result<(), End> {
        self.miss = pattern;
        self.watcher.missed(pattern, kind_of(self.table, pattern));
        Err(End::Failed)
    }

    /// Meets one pattern position with a term, for MATCH.
    fn meet(&mut self, pattern: u32, term: u32, nesting: u32) -> Result<(), End> {
        self.visit(nesting)?;
        let row = self.entry(pattern);
        self.watcher.visited(row[0] / 16, nesting);
        if row[0] / 16 == kind::PVAR {
            let variable = row[1] as usize;
            let word = self.bindings[variable];
            // 01: "An unbound variable is bound."
            if word == 0 {
                self.bindings[variable] = term + 1;
                return Ok(());
            }
            // 01: "A bound one needs an equal term."
            let equal = self.equal(word - 1, term, nesting + 1)?;
            self.watcher.judged(word - 1, term, equal);
            return if equal { Ok(()) } else { self.give_up(pattern) };
        }
        // 01: "PCON needs equal constructor and count."
        let words = self.node(term);
        let count = row[0] % 16;
        if words[0] != row[1] || words[1] != count {
            return self.give_up(pattern);
        }
        for word in 2..2 + count as usize {
            self.meet(row[word], words[word], nesting + 1)?;
        }
        Ok(())
    }

    /// Whether two terms are equal.
    ///
    /// 01: "Two terms are equal when constructors, counts and children are
    /// equal, whatever their node numbers."; "first the pair, then child pairs
    /// left to right, ending at the first difference"; "Equal node numbers save
    /// no pair visits."
    fn equal(&mut self, left: u32, right: u32, nesting: u32) -> Result<bool, End> {
        self.visit(nesting)?;
        self.watcher.compared(nesting);
        let left = self.node(left);
        let right = self.node(right);
        if left[0] != right[0] || left[1] != right[1] {
            return Ok(false);
        }
        for word in 2..2 + left[1] as usize {
            if !self.equal(left[word], right[word], nesting + 1)? {
                return Ok(false);
            }
        }
        Ok(true)
    }

    /// Builds one pattern position and gives its term, for BUILD.
    fn build(&mut self, pattern: u32, nesting: u32) -> Result<u32, End> {
        self.visit(nesting)?;
        let row = self.entry(pattern);
        self.watcher.visited(row[0] / 16, nesting);
        if row[0] / 16 == kind::PVAR {
            // 02, wish 3: "12 with the variable as its place, given exactly
            // where a run meets such a variable before a limit". The limits of
            // this visit were tested above. 01: "A bound variable is never
            // copied."
            return match self.bindings[row[1] as usize] {
                0 => Err(End::CutOff(Stop::Unbound(row[1]))),
                word => Ok(word - 1),
            };
        }
        // 01: "BUILD makes one for each PCON, after its children, left to
        // right."
        let count = row[0] % 16;
        let mut words = [0; WIDTH];
        words[0] = row[1];
        words[1] = count;
        for word in 2..2 + count as usize {
            words[word] = self.build(row[word], nesting + 1)?;
        }
        self.make(words)
    }
}

/// What a caller may lend to a run besides table, store and bindings.
#[derive(Default)]
pub struct Lent<'a> {
    /// 02, wish 2: "one word per constructor, the declared count or 7 for
    /// undeclared." `None` is no signature; an empty one refuses every
    /// constructor.
    pub signature: Option<&'a [u32]>,
    /// 02, wish 12: the memory of an index. Where it is lent the run is that of
    /// the variant with one node for one term. This implementation searches the
    /// store instead, so it looks at the index's length alone and leaves it zero.
    pub index: Option<&'a mut [u32]>,
}

/// Runs a strategy of the table on a term of the store.
///
/// Answers, places and what is written are those of 01's chapter "What comes
/// back". The nesting goes to 4,096, so call it on a big stack.
pub fn run(
    table: &[u32],
    store: &mut [u32],
    bindings: &mut [u32],
    mark: u32,
    start: u32,
    subject: u32,
    units: u32,
) -> Outcome {
    run_watched(table, store, bindings, mark, start, subject, units, &mut ())
}

/// Runs as [`run`] does, with a watcher looking on.
#[allow(clippy::too_many_arguments)]
pub fn run_watched<W: Watcher>(
    table: &[u32],
    store: &mut [u32],
    bindings: &mut [u32],
    mark: u32,
    start: u32,
    subject: u32,
    units: u32,
    watcher: &mut W,
) -> Outcome {
    let lent = Lent::default();
    run_lent(
        table, store, bindings, mark, start, subject, units, lent, watcher,
    )
}

/// Runs as [`run`] does, with something lent and a watcher looking on.
#[allow(clippy::too_many_arguments)]
pub fn run_lent<W: Watcher>(
    table: &[u32],
    store: &mut [u32],
    bindings: &mut [u32],
    mark: u32,
    start: u32,
    subject: u32,
    units: u32,
    lent: Lent,
    watcher: &mut W,
) -> Outcome {
    let refused = refusal(&Input {
        table,
        store,
        bindings,
        mark,
        start,
        subjects: &[subject],
        signature: lent.signature,
        index: lent.index.as_ref().map(|index| index.len()),
        counts: None,
        results: None,
        work: None,
    });
    if let Some((answer, place)) = refused {
        return Outcome {
            answer,
            place,
            subject,
            mark,
            units: 0,
        };
    }
    let index = lent.index;
    run_indexed(
        table, store, bindings, mark, start, subject, units, index, watcher,
    )
}

/// Runs an input that nothing refuses, in the indexed store where an index is
/// lent.
#[allow(clippy::too_many_arguments)]
pub(crate) fn run_indexed<W: Watcher>(
    table: &[u32],
    store: &mut [u32],
    bindings: &mut [u32],
    mark: u32,
    start: u32,
    subject: u32,
    units: u32,
    index: Option<&mut [u32]>,
    watcher: &mut W,
) -> Outcome {
    let shared = index.is_some();
    let outcome = run_accepted(
        table, store, bindings, mark, start, subject, units, shared, watcher,
    );
    // 02, wish 12: "The index is all zero on return from a run."
    if let Some(index) = index {
        index.fill(0);
    }
    outcome
}

/// Runs an input that nothing refuses.
#[allow(clippy::too_many_arguments)]
pub(crate) fn run_accepted<W: Watcher>(
    table: &[u32],
    store: &mut [u32],
    bindings: &mut [u32],
    mark: u32,
    start: u32,
    subject: u32,
    units: u32,
    shared: bool,
    watcher: &mut W,
) -> Outcome {
    let never = u64::MAX;
    run_paused(
        table, store, bindings, mark, start, subject, units, never, shared, watcher,
    )
}

/// Runs an input that nothing refuses up to the limit test of the visit after so
/// many, or to its end.
#[allow(clippy::too_many_arguments)]
pub(crate) fn run_paused<W: Watcher>(
    table: &[u32],
    store: &mut [u32],
    bindings: &mut [u32],
    mark: u32,
    start: u32,
    subject: u32,
    units: u32,
    pause: u64,
    shared: bool,
    watcher: &mut W,
) -> Outcome {
    // 01: "Subject and mark come back as given in all answers but 0."
    let given = |answer, place, units| Outcome {
        answer,
        place,
        subject,
        mark,
        units,
    };
    let mut own = [0; VARIABLES];
    own.copy_from_slice(bindings);
    let mut machine = Machine {
        table,
        store,
        bindings: own,
        mark,
        used: 0,
        units,
        miss: NO_MISS,
        pause,
        shared,
        watcher,
    };
    // 01: "The start is at nesting 1".
    let end = machine.apply(start, subject, 1);
    let used = machine.used;
    let miss = machine.miss;
    let outcome = match end {
        Ok(new) => {
            bindings.copy_from_slice(&machine.bindings);
            Outcome {
                answer: DONE,
                place: 0,
                subject: new,
                mark: machine.mark,
                units: used,
            }
        }
        // 01: "subject, mark, bindings as given"; the caller's bindings were
        // not touched. 02, wish 10: "let a failed run carry, as its place, that
        // of the last match that failed in it".
        Err(End::Failed) => given(FAILED, miss, used),
        Err(End::CutOff(Stop::Units)) => given(NO_UNITS, 0, used),
        Err(End::CutOff(Stop::Room)) => given(NO_ROOM, 0, used),
        Err(End::CutOff(Stop::Nesting)) => given(NO_NESTING, 0, used),
        // 02, wish 8: "an unfinished run answers 25, its other numbers as for 6."
        Err(End::CutOff(Stop::Pause)) => given(UNFINISHED, 0, used),
        // 02, wish 3: "leaving the same memory".
        Err(End::CutOff(Stop::Unbound(variable))) => given(UNBOUND, variable, used),
    };
    // 01: "In answers 0, 1, 6, 7 and 8 nodes below the given mark are unchanged
    // and every word from the returned mark to the end is zero."
    for word in &mut store[WIDTH * outcome.mark as usize..] {
        *word = 0;
    }
    outcome
}
