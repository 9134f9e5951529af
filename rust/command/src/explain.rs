//! How a run went: which strategy was tried on which term, what it bound, why it failed, what was undone.
//!
//! The proved library tells nothing of its way. So the second implementation goes the same way with someone looking on, and its
//! five numbers are compared with the library's. Where they differ that is said, and nothing else.
use crate::html;
use crate::options::Options;
use crate::{in_words, ran, Said};
use marshtrundle::job::Job;
use marshtrundle::kind::{BUILD, CHOICE, CONG, LEFT, MATCH, NOT, ONE, PATH, PVAR, SOME, TEST};
use marshtrundle::show::{Names, Show};
use marshtrundle::{Answer, Entry, Node, Table, Term};
use std::collections::BTreeMap;
use twin::engine::{run_watched, Sight, Watcher, Way};

/// The visits that are told where nothing else is asked for.
const VISITS: usize = 10_000;
/// How deep the terms of a visit are shown.
const DEPTH: usize = 3;
/// How far the lines of a text are moved in at most.
const INSET: usize = 30;

/// A visit that applied an entry, as it went.
#[derive(Clone, Debug, Default)]
pub(crate) struct Visit {
    /// How many visits were under way around it.
    pub(crate) level: usize,
    /// The entry in notation, or its name.
    pub(crate) strategy: String,
    /// The term that it was applied to.
    pub(crate) term: String,
    /// How it ended.
    pub(crate) end: End,
    /// What a match bound.
    pub(crate) bound: String,
    /// Why it failed, where no operand says so.
    pub(crate) reason: String,
    /// The bindings that were put back when its failure was caught.
    pub(crate) undone: String,
    /// Whether the telling has a line for it: a named strategy, a match, a build, a test, a negation, or what failed by itself.
    pub(crate) is_told: bool,
    /// Whether something was bound, undone or compared with a binding in it.
    is_busy: bool,
}

/// How a visit ended.
#[derive(Clone, Debug, Default)]
pub(crate) enum End {
    /// With this term.
    Success(String),
    Failure,
    #[default]
    UnderWay,
}

/// A visit that is under way.
struct Frame {
    entry: u32,
    term: u32,
    bindings: Vec<u32>,
    /// Pattern positions met so far.
    positions: usize,
    /// Operands that have ended so far.
    operands: usize,
    /// Where it stands in the story, if it is told.
    visit: Option<usize>,
}

/// Who looks on and writes the story down.
struct Story<'a> {
    table: &'a Table,
    names: &'a Names,
    terms: Show<'a>,
    notations: BTreeMap<u32, String>,
    frames: Vec<Frame>,
    visits: Vec<Visit>,
    most: usize,
    /// Levels that were under way when a limit was met, the start first.
    under_way: Vec<(String, String)>,
}

impl Story<'_> {
    fn row(&self, entry: u32) -> &[u32] {
        let at = 8 * entry as usize;
        self.table.words().get(at..at + 8).unwrap_or(&[0; 8])
    }

    fn kind(&self, entry: u32) -> u32 {
        self.row(entry)[0] / 16
    }

    /// An entry's name, or its notation in a few words.
    fn notation(&mut self, entry: u32) -> String {
        if let Some(known) = self.notations.get(&entry) {
            return known.clone();
        }
        let text = if self.names.names_entry(entry) {
            self.names.entry(entry).into_owned()
        } else {
            let show = Show::new(self.names).depth(5).length(12);
            show.strategy(self.table, Entry::from_number(entry))
        };
        self.notations.insert(entry, text.clone());
        text
    }

    fn term(&self, node: u32, sight: Sight<'_>) -> String {
        Term::of_words(sight.store, Node::from_number(node))
            .map_or_else(|| "no term".to_owned(), |term| self.terms.term(term))
    }

    /// The variables whose words differ, with what they are bound to in the second.
    fn changed(&self, before: &[u32], after: &[u32], sight: Sight<'_>) -> String {
        let changed = (0..)
            .zip(before.iter().zip(after))
            .filter(|(_, (b, a))| b != a);
        let shown = changed.map(|(variable, (_, &word))| {
            let name = self.names.variable(variable);
            match word.checked_sub(1) {
                Some(node) => format!("{name} = {}", self.term(node, sight)),
                None => format!("{name} unbound"),
            }
        });
        shown.collect::<Vec<_>>().join(", ")
    }

    /// The pattern position that was met last, of so many, and for a match the subterm there.
    fn position(&self, pattern: u32, term: u32, count: usize, sight: Sight<'_>) -> (u32, u32) {
        let mut open = vec![(pattern, term)];
        let mut met = (pattern, term);
        for _ in 0..count {
            met = match open.pop() {
                Some(next) => next,
                None => break,
            };
            let row = self.row(met.0);
            let children: Vec<u32> = Term::of_words(sight.store, Node::from_number(met.1))
                .map(|term| term.children().map(|child| child.node().number()).collect())
                .unwrap_or_default();
            let operands = &row[2..2 + (row[0] as usize % 16).min(6)];
            for (k, &operand) in operands.iter().enumerate().rev() {
                open.push((operand, children.get(k).copied().unwrap_or(met.1)));
            }
        }
        met
    }

    /// What a pattern or a congruence wanted, and what was there.
    fn mismatch(
        &self,
        constructor: u32,
        count: u32,
        node: u32,
        sight: Sight<'_>,
    ) -> Option<String> {
        let term = Term::of_words(sight.store, Node::from_number(node))?;
        let found = term.children().count() as u32;
        let (wanted, there) = (
            self.names.constructor(constructor),
            self.names.constructor(term.constructor()),
        );
        if constructor != term.constructor() {
            Some(format!("{wanted} wanted, {there} found"))
        } else if count != found {
            Some(format!("{wanted} of {count} wanted, of {found} found"))
        } else {
            None
        }
    }

    /// Why a visit failed, where no operand of it says so, and whether a variable is the reason.
    fn reason(&self, frame: &Frame, sight: Sight<'_>) -> (String, bool) {
        let row = self.row(frame.entry);
        let (kind, argument, operand) = (row[0] / 16, row[1], row[2]);
        let found = match kind {
            MATCH => {
                let (pattern, node) = self.position(operand, frame.term, frame.positions, sight);
                let met = self.row(pattern);
                if met[0] / 16 == PVAR {
                    let word = sight.bindings.get(met[1] as usize).copied().unwrap_or(0);
                    let bound = self.term(word.saturating_sub(1), sight);
                    let name = self.names.variable(met[1]);
                    let found = self.term(node, sight);
                    return (format!("{name} is {bound}, {found} found"), true);
                } else {
                    self.mismatch(met[1], met[0] % 16, node, sight)
                }
            }
            BUILD => {
                let (pattern, _) = self.position(operand, frame.term, frame.positions, sight);
                let met = self.row(pattern);
                let is_unbound =
                    met[0] / 16 == PVAR && sight.bindings.get(met[1] as usize) == Some(&0);
                let name = self.names.variable(met[1]);
                return match is_unbound {
                    true => (format!("{name} is not bound"), true),
                    false => Default::default(),
                };
            }
            CONG if frame.operands == 0 => self.mismatch(argument, row[0] % 16, frame.term, sight),
            PATH if frame.operands == 0 => Some(format!("there is no child {argument}")),
            ONE | SOME if frame.operands == 0 => Some("there are no children".to_owned()),
            _ => None,
        };
        (found.unwrap_or_default(), false)
    }

    /// Whether the visit around catches the failure of its operand and goes on.
    fn is_caught(&self) -> bool {
        self.frames
            .last()
            .map_or(false, |around| match self.kind(around.entry) {
                NOT | ONE | SOME => true,
                CHOICE | LEFT => around.operands == 0,
                _ => false,
            })
    }
}

impl Watcher for Story<'_> {
    fn visited(&mut self, kind: u32, _nesting: u32) {
        if kind >= PVAR {
            if let Some(frame) = self.frames.last_mut() {
                frame.positions += 1;
            }
        }
    }

    fn applied(&mut self, entry: u32, term: u32, sight: Sight<'_>) {
        let visit = (self.visits.len() < self.most).then_some(self.visits.len());
        if visit.is_some() {
            let strategy = self.notation(entry);
            self.visits.push(Visit {
                level: self.frames.len(),
                strategy,
                term: self.term(term, sight),
                is_told: self.names.names_entry(entry)
                    || matches!(self.kind(entry), MATCH | BUILD | NOT | TEST),
                ..Visit::default()
            });
        }
        self.frames.push(Frame {
            entry,
            term,
            bindings: sight.bindings.to_vec(),
            positions: 0,
            operands: 0,
            visit,
        });
    }

    fn ended(&mut self, entry: u32, way: Way, sight: Sight<'_>) {
        if way == Way::InFlight && self.under_way.is_empty() {
            let levels: Vec<(u32, u32)> = self.frames.iter().map(|f| (f.entry, f.term)).collect();
            self.under_way = levels
                .into_iter()
                .map(|(entry, term)| (self.notation(entry), self.term(term, sight)))
                .collect();
        }
        let frame = match self.frames.pop() {
            Some(frame) => frame,
            None => return,
        };
        if let Some(at) = frame.visit {
            let mut visit = std::mem::take(&mut self.visits[at]);
            match way {
                Way::Success(new) => {
                    visit.end = End::Success(self.term(new, sight));
                    if self.kind(entry) == MATCH {
                        visit.bound = self.changed(&frame.bindings, sight.bindings, sight);
                    }
                }
                Way::Failure => {
                    visit.end = End::Failure;
                    let (reason, is_busy) = self.reason(&frame, sight);
                    visit.reason = reason;
                    visit.is_busy |= is_busy;
                    if self.is_caught() {
                        visit.undone = self.changed(&frame.bindings, sight.bindings, sight);
                    }
                }
                Way::InFlight => {
                    if self.kind(entry) == BUILD {
                        visit.reason = self.reason(&frame, sight).0;
                    }
                }
            }
            visit.is_told |= !visit.reason.is_empty();
            visit.is_busy |= !visit.bound.is_empty() || !visit.undone.is_empty();
            if let (true, Some(around)) = (visit.is_busy, self.frames.last().and_then(|f| f.visit))
            {
                self.visits[around].is_busy = true;
            }
            self.visits[at] = visit;
        }
        if let Some(around) = self.frames.last_mut() {
            around.operands += 1;
        }
    }
}

/// What the visit came to, in words.
pub(crate) fn outcome(visit: &Visit) -> String {
    let mut text = match &visit.end {
        End::Success(new) if *new == visit.term => "succeeded".to_owned(),
        End::Success(new) => format!("gave {new}"),
        End::Failure => "failed".to_owned(),
        End::UnderWay => "was under way".to_owned(),
    };
    for more in [&visit.bound, &visit.reason] {
        if !more.is_empty() {
            text.push_str(": ");
            text.push_str(more);
        }
    }
    text
}

/// The telling as lines. Where something happened at all, what failed and was not busy is left out, unless all is asked for: of a
/// search through a large term the places stay where a match got as far as a binding.
fn as_text(visits: &[Visit], is_all: bool) -> String {
    let is_all = is_all || !visits.first().map_or(false, |start| start.is_busy);
    let mut text = String::new();
    let mut skipped = None;
    // The visits around, each with how far its line is moved in.
    let mut around: Vec<(&Visit, usize)> = vec![];
    let within = |around: &[(&Visit, usize)]| match around.last() {
        Some((visit, inset)) => (inset + usize::from(visit.is_told)).min(INSET),
        None => 0,
    };
    let close = |text: &mut String, around: &mut Vec<(&Visit, usize)>, level: usize| {
        while around
            .last()
            .map_or(false, |(visit, _)| visit.level >= level)
        {
            if let Some((visit, inset)) = around.pop() {
                if !visit.undone.is_empty() {
                    text.push_str(&format!("{}undone: {}\n", "  ".repeat(inset), visit.undone));
                }
            }
        }
    };
    for visit in visits {
        if skipped.map_or(false, |level| visit.level > level) {
            continue;
        }
        let is_idle = matches!(visit.end, End::Failure) && !visit.is_busy;
        skipped = (is_idle && !is_all).then_some(visit.level);
        if skipped.is_some() {
            continue;
        }
        close(&mut text, &mut around, visit.level);
        let inset = within(&around);
        if visit.is_told {
            text.push_str(&format!(
                "{}{} on {} {}\n",
                "  ".repeat(inset),
                visit.strategy,
                visit.term,
                outcome(visit)
            ));
        }
        around.push((visit, inset));
    }
    close(&mut text, &mut around, 0);
    text
}

/// Where a run was when it met a limit: the strategies under way, how often each, and the last levels.
fn stopped(under_way: &[(String, String)]) -> String {
    if under_way.is_empty() {
        return String::new();
    }
    let mut counts: BTreeMap<&str, usize> = BTreeMap::new();
    for (strategy, _) in under_way {
        *counts.entry(strategy).or_default() += 1;
    }
    let mut often: Vec<(&str, usize)> = counts.into_iter().collect();
    often.sort_by_key(|&(_, count)| std::cmp::Reverse(count));
    let mut text = format!("{} levels were under way. Most often:\n", under_way.len());
    for (strategy, count) in often.iter().take(5) {
        let times = if *count == 1 { "once" } else { "times" };
        let count = if *count == 1 {
            String::new()
        } else {
            format!("{count} ")
        };
        text.push_str(&format!("  {count}{times} {strategy}\n"));
    }
    text.push_str("The last levels:\n");
    for (strategy, term) in &under_way[under_way.len().saturating_sub(8)..] {
        text.push_str(&format!("  {strategy} on {term}\n"));
    }
    text
}

/// Tells a job's run.
pub(crate) fn explain(
    job: Job,
    names: &Names,
    options: &Options,
    is_page: bool,
    is_all: bool,
) -> Said {
    let mut proved = job.clone();
    let end = ran(&mut proved);
    if end.answer.is_refusal() {
        return Said {
            error: in_words(&job, names, end.answer),
            status: end.answer.number() as u8,
            ..Said::default()
        };
    }
    let own = names.clone();
    let (depth, most) = (
        options.depth.unwrap_or(DEPTH),
        options.length.unwrap_or(VISITS),
    );
    let (told, visits, under_way) = twin::with_big_stack(move || {
        let mut story = Story {
            table: &job.table,
            names: &own,
            terms: Show::new(&own).depth(depth).length(12),
            notations: BTreeMap::new(),
            frames: vec![],
            visits: vec![],
            most,
            under_way: vec![],
        };
        let mut store = job.store.words().to_vec();
        let mut bindings = job.bindings.words().to_vec();
        let told = run_watched(
            job.table.words(),
            &mut store,
            &mut bindings,
            job.store.mark(),
            job.start.number(),
            job.subject.number(),
            job.units,
            &mut story,
        );
        (told, story.visits, story.under_way)
    });
    let numbers = [told.answer, told.place, told.subject, told.mark, told.units];
    let library = [
        end.answer.number(),
        end.answer.place(),
        end.subject.number(),
        end.mark,
        end.units,
    ];
    if numbers != library {
        return Said {
            error: format!(
                "marshtrundle: the library answers {library:?} and the second implementation {numbers:?}: please report this job\n"
            ),
            status: 70,
            ..Said::default()
        };
    }
    let mut head = format!(
        "answer {}: {}, {} visits\n",
        library[0], end.answer, end.units
    );
    if end.answer != Answer::Done {
        head.push_str(end.answer.advice());
        head.push('\n');
    }
    if visits.len() == most {
        head.push_str(&format!(
            "The first {most} visits of strategies are told; --length tells more.\n"
        ));
    }
    head.push_str(&stopped(&under_way));
    let output = if is_page {
        html::page(&head, &visits)
    } else {
        format!("{head}\n{}", as_text(&visits, is_all))
    };
    Said {
        output,
        error: String::new(),
        status: end.answer.number() as u8,
    }
}
