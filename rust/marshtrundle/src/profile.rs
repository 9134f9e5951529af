//! Where the units go: the visits of every entry, counted over many runs, by the names of rules, as text and as a picture.
use crate::answer::{Answer, Outcome};
use crate::archive;
use crate::bindings::Bindings;
use crate::kind;
use crate::show::{Names, Show};
use crate::signature::Signature;
use crate::store::{Node, Store};
use crate::table::{Entry, Table};
use std::cmp::Reverse;
use std::fmt::Write;

/// The highest count that may be lent to a run: a run has at most 4,294,967,295 visits, so that no count overflows.
pub const MOST_COUNT: u64 = 18_446_744_069_414_584_320;

/// What was counted of an entry, or of several together.
#[derive(Clone, Copy, Debug, Default, PartialEq, Eq)]
pub struct Counts {
    /// Visits as a strategy. They are the sum of the three others.
    pub visits: u64,
    /// Visits that succeeded.
    pub successes: u64,
    /// Visits that failed, whether something caught the failure or not.
    pub failures: u64,
    /// Visits that had begun and not ended when a run was cut off: in answers 6, 7, 8 and 12.
    pub in_flight: u64,
}

impl Counts {
    fn of(four: &[u64]) -> Counts {
        Counts {
            visits: four[0],
            successes: four[1],
            failures: four[2],
            in_flight: four[3],
        }
    }

    fn add(&mut self, other: Counts) {
        self.visits = self.visits.saturating_add(other.visits);
        self.successes = self.successes.saturating_add(other.successes);
        self.failures = self.failures.saturating_add(other.failures);
        self.in_flight = self.in_flight.saturating_add(other.in_flight);
    }
}

/// The visits of every entry of one table, and those of patterns and of pairs, over as many runs as you like. [`run_counted`] adds to it.
///
/// Each visit is counted once: the visits of all entries, of patterns and of pairs together are the units that the runs have used.
///
/// ```
/// # fn main() -> Result<(), Box<dyn std::error::Error>> {
/// use marshtrundle::show::{Names, Show};
/// use marshtrundle::strategy::*;
/// use marshtrundle::{run_counted, Bindings, Profile, Store, TableBuilder};
/// let to_two = rule(con(1, []), con(2, []));
/// let mut builder = TableBuilder::new();
/// builder.add("pass", bottom_up(attempt(to_two.clone())));
/// builder.add("to two", to_two);
/// let table = builder.build()?;
///
/// let mut store = Store::new();
/// let (one, three) = (store.node(1, &[])?, store.node(3, &[])?);
/// let pair = store.node(5, &[one, three])?;
/// store.room(100)?;
/// let mut profile = Profile::of(&table);
/// let start = table.entry("pass").ok_or("no pass")?;
/// let end = run_counted(&table, &mut store, &mut Bindings::new(), None, &mut profile, start, pair, 1_000);
/// assert_eq!(u64::from(end.units), profile.units());
///
/// // The rule was tried on three nodes, and succeeded on one.
/// let tried = profile.counts(table.entry("to two").ok_or("no rule")?);
/// assert_eq!((tried.visits, tried.successes, tried.failures), (3, 1, 2));
/// println!("{}", Show::new(&Names::new()).profile(&table, &profile));
/// # Ok(())
/// # }
/// ```
#[derive(Clone, Debug, PartialEq, Eq)]
pub struct Profile {
    words: Vec<u64>,
    pattern_visits: u64,
    pair_visits: u64,
    runs: u64,
}

impl Profile {
    /// A profile of this table in which nothing is counted yet. Another table's run may be counted in it only where it has as many entries,
    /// and makes no sense then.
    pub fn of(table: &Table) -> Profile {
        Profile {
            words: vec![0; 4 * table.entries()],
            pattern_visits: 0,
            pair_visits: 0,
            runs: 0,
        }
    }

    /// What was counted of an entry. Of a pattern's entry, and of one outside the table, nothing was.
    pub fn counts(&self, entry: Entry) -> Counts {
        let four = self.words.chunks_exact(4).nth(entry.number() as usize);
        four.map_or(Counts::default(), Counts::of)
    }

    /// The runs that were counted. Refused ones are not among them.
    pub fn runs(&self) -> u64 {
        self.runs
    }

    /// The pattern positions met.
    pub fn pattern_visits(&self) -> u64 {
        self.pattern_visits
    }

    /// The pairs of nodes compared.
    pub fn pair_visits(&self) -> u64 {
        self.pair_visits
    }

    /// All visits: the units that the runs have used.
    pub fn units(&self) -> u64 {
        let visits = self.words.chunks_exact(4).map(|four| four[0]);
        visits
            .chain([self.pattern_visits, self.pair_visits])
            .fold(0, u64::saturating_add)
    }

    /// Adds what another profile of the table has, as that of another thread. Where it has another number of entries it is refused with
    /// [`Answer::RefusedSizes`], and nothing is added.
    pub fn add(&mut self, other: &Profile) -> Result<(), Answer> {
        if self.words.len() != other.words.len() {
            return Err(Answer::RefusedSizes);
        }
        for (word, more) in self.words.iter_mut().zip(&other.words) {
            *word = word.saturating_add(*more);
        }
        self.pattern_visits = self.pattern_visits.saturating_add(other.pattern_visits);
        self.pair_visits = self.pair_visits.saturating_add(other.pair_visits);
        self.runs = self.runs.saturating_add(other.runs);
        Ok(())
    }

    /// The counts as words, four for each entry: visits, successes, failures, visits in flight.
    pub fn words(&self) -> &[u64] {
        &self.words
    }

    /// The visits by names. A named entry has a row, with all that it alone leads to through operands; what several named entries lead to is
    /// one row, and what none leads to another. Where the names have no strategy of this table, each entry that was visited has a row. These
    /// rows are in falling order of visits. Behind them stand the patterns and the pairs. The visits of all rows make the units.
    pub fn rows(&self, table: &Table, names: &Names) -> Vec<Row> {
        let owners = Owners::of(table, names);
        let mut rows = vec![];
        for &head in &owners.heads {
            let entry = Entry::from_number(head);
            rows.push(Row {
                group: Group::Entry(entry),
                all: Counts::default(),
                own: self.counts(entry),
            });
        }
        let (mut shared, mut unnamed) = (Counts::default(), Counts::default());
        for (four, owner) in self.words.chunks_exact(4).zip(&owners.of) {
            let sum = match owner {
                Owner::None => &mut unnamed,
                Owner::Head(row) => &mut rows[*row].all,
                Owner::Several => &mut shared,
            };
            sum.add(Counts::of(four));
        }
        for (group, all) in [(Group::Shared, shared), (Group::Unnamed, unnamed)] {
            rows.push(Row {
                group,
                all,
                own: Counts::default(),
            });
        }
        rows.retain(|row| {
            let named =
                matches!(row.group, Group::Entry(entry) if names.names_entry(entry.number()));
            named || row.all.visits > 0
        });
        rows.sort_by_key(|row| Reverse(row.all.visits));
        for (group, visits) in [
            (Group::Patterns, self.pattern_visits),
            (Group::Pairs, self.pair_visits),
        ] {
            rows.push(Row {
                group,
                all: Counts {
                    visits,
                    ..Counts::default()
                },
                own: Counts::default(),
            });
        }
        rows
    }
}

/// What the visits of a row are of.
#[derive(Clone, Copy, Debug, PartialEq, Eq)]
pub enum Group {
    /// An entry, with what it alone leads to where it has a name.
    Entry(Entry),
    /// What several named entries lead to.
    Shared,
    /// What no named entry leads to.
    Unnamed,
    /// The patterns.
    Patterns,
    /// The pairs.
    Pairs,
}

/// A row of a profile.
#[derive(Clone, Copy, Debug, PartialEq, Eq)]
pub struct Row {
    /// What the row is of.
    pub group: Group,
    /// The counts of all entries of the group together. Patterns and pairs have visits alone.
    pub all: Counts,
    /// The counts of the entry itself: how often a rule was tried, and how that went. Zeros where the group is no entry's.
    pub own: Counts,
}

/// To which named entry each entry belongs.
struct Owners {
    heads: Vec<u32>,
    of: Vec<Owner>,
}

#[derive(Clone, Copy, PartialEq, Eq)]
enum Owner {
    None,
    /// The place of the one head.
    Head(usize),
    Several,
}

impl Owners {
    fn of(table: &Table, names: &Names) -> Owners {
        let rows: Vec<&[u32]> = table.words().chunks_exact(8).collect();
        let strategies = (0_u32..)
            .zip(&rows)
            .filter(|(_, row)| row[0] / 16 < kind::PVAR);
        let all: Vec<u32> = strategies.map(|(entry, _)| entry).collect();
        let named: Vec<u32> = all
            .iter()
            .copied()
            .filter(|&entry| names.names_entry(entry))
            .collect();
        let heads = if named.is_empty() { all } else { named };
        let mut is_head = vec![false; rows.len()];
        for &head in &heads {
            is_head[head as usize] = true;
        }
        let mut of = vec![Owner::None; rows.len()];
        let mut seen = vec![usize::MAX; rows.len()];
        for (place, &head) in heads.iter().enumerate() {
            let mut open = vec![head as usize];
            while let Some(entry) = open.pop() {
                let row = match rows.get(entry) {
                    Some(row) if seen[entry] != place => row,
                    _ => continue,
                };
                seen[entry] = place;
                of[entry] = match of[entry] {
                    Owner::None => Owner::Head(place),
                    _ => Owner::Several,
                };
                // A call leads out of what it stands in.
                if row[0] / 16 != kind::CALL {
                    let operands = kind::operands(row).iter().map(|&operand| operand as usize);
                    open.extend(operands.filter(|&o| is_head.get(o) == Some(&false)));
                }
            }
        }
        Owners { heads, of }
    }
}

/// Runs as [`run`](crate::run) does, and counts the visits in a profile of the table. The outcome, the store and the bindings are those of
/// [`run`](crate::run). It is some ten times slower: it is there for tuning. A signature may be given.
///
/// A profile of another number of entries is refused with [`Answer::RefusedSizes`], one with a count above [`MOST_COUNT`] with
/// [`Answer::FullCount`]; a refused run adds nothing. The calling thread needs [`STACK`](crate::STACK) bytes of stack.
#[allow(clippy::too_many_arguments)]
pub fn run_counted(
    table: &Table,
    store: &mut Store,
    bindings: &mut Bindings,
    signature: Option<&Signature>,
    profile: &mut Profile,
    start: Entry,
    subject: Node,
    units: u32,
) -> Outcome {
    let (words, mark) = store.parts();
    let numbers = archive::run_counted(
        table.words(),
        words,
        bindings.words_mut(),
        *mark,
        start.number(),
        subject.number(),
        units,
        &mut profile.words,
        signature.map(Signature::words),
    );
    profile.counted(numbers, mark)
}

/// Runs as [`run_indexed`](crate::run_indexed) does, and counts as [`run_counted`] does. It looks for a standing node among the nodes one by one,
/// so that making a node takes time that grows with the nodes in use. What it counts is what [`run_counted`] counts where that is not cut off
/// by room. So count without an index where the store is large.
#[allow(clippy::too_many_arguments)]
pub fn run_indexed_counted(
    table: &Table,
    store: &mut Store,
    bindings: &mut Bindings,
    signature: Option<&Signature>,
    profile: &mut Profile,
    start: Entry,
    subject: Node,
    units: u32,
) -> Outcome {
    store.lend_indexed(|lent, words, mark| {
        let numbers = archive::run_indexed_counted(
            table.words(),
            lent,
            words,
            bindings.words_mut(),
            *mark,
            start.number(),
            subject.number(),
            units,
            &mut profile.words,
            signature.map(Signature::words),
        );
        profile.counted(numbers, mark)
    })
}

impl Profile {
    /// The outcome of a counted run's seven numbers. The store gets the mark that comes back.
    fn counted(&mut self, numbers: [u32; 7], store_mark: &mut u32) -> Outcome {
        let [answer, place, subject, mark, units, patterns, pairs] = numbers;
        let outcome = Outcome {
            answer: Answer::told(answer, place),
            subject: Node::from_number(subject),
            mark,
            units,
        };
        *store_mark = mark;
        self.pattern_visits = self.pattern_visits.saturating_add(patterns.into());
        self.pair_visits = self.pair_visits.saturating_add(pairs.into());
        self.runs += u64::from(!outcome.answer.is_refusal());
        outcome
    }
}

/// A share in percent.
fn percent(part: u64, whole: u64) -> f64 {
    if whole == 0 {
        return 0.0;
    }
    100.0 * part as f64 / whole as f64
}

/// A number and a word, in the plural where it is not one.
fn number_of(number: u64, word: &str) -> String {
    format!("{number} {word}{}", if number == 1 { "" } else { "s" })
}

/// The longest label of a row, in letters.
const LABEL: usize = 40;

impl Show<'_> {
    /// A profile as a table, [`Profile::rows`] by their names: the visits of a rule with what it alone leads to, and their share in the units;
    /// then how often the rule itself was tried, and how that went. An entry has the name that it has here, or else the one that a
    /// [`TableBuilder`](crate::TableBuilder) gave it.
    pub fn profile(&self, table: &Table, profile: &Profile) -> String {
        let names = self.names().clone().with_table(table);
        let rows = profile.rows(table, &names);
        let labels: Vec<String> = rows.iter().map(|row| label(&names, table, row)).collect();
        let width = labels.iter().map(|label| label.chars().count());
        let width = width.chain([4]).max().unwrap_or(4);
        let units = profile.units();
        let mut text = format!(
            "{}, {}\n{:width$}  {:>10}  {:>7}  {:>10}  {:>10}  {:>10}  {:>9}\n",
            number_of(profile.runs(), "run"),
            number_of(units, "unit"),
            "name",
            "visits",
            "share",
            "tried",
            "succeeded",
            "failed",
            "in flight"
        );
        for (row, label) in rows.iter().zip(&labels) {
            let _ = write!(
                text,
                "{label:width$}  {:>10}  {:>5.1} %",
                row.all.visits,
                percent(row.all.visits, units)
            );
            if let Group::Entry(_) = row.group {
                let own = row.own;
                let _ = write!(
                    text,
                    "  {:>10}  {:>10}  {:>10}  {:>9}",
                    own.visits, own.successes, own.failures, own.in_flight
                );
            }
            text.push('\n');
        }
        text
    }

    /// Profiles as a picture, an SVG: for each, under its title, a bar for each row, all on one scale. A bar is as long as the visits of the
    /// row, in three colours: successes, failures and visits in flight of all entries of the row. Patterns and pairs have a colour of their own.
    /// At most [`Show::length`] rows are drawn of each profile, and patterns and pairs. Entries have their names as in [`Show::profile`].
    pub fn profile_svg(&self, profiles: &[(&str, &Table, &Profile)]) -> String {
        let mut panels = vec![];
        for &(title, table, profile) in profiles {
            let names = self.names().clone().with_table(table);
            let mut rows = profile.rows(table, &names);
            let last = rows.split_off(rows.len() - 2);
            rows.truncate(self.rows_drawn());
            rows.extend(last);
            let labels: Vec<String> = rows.iter().map(|row| label(&names, table, row)).collect();
            panels.push((title, profile, rows, labels));
        }
        let all = panels.iter().flat_map(|(_, _, rows, _)| rows);
        let widest = all.map(|row| row.all.visits).max().unwrap_or(0).max(1);
        let lines: usize = panels.iter().map(|(.., labels)| labels.len() + 2).sum();
        let mut page = Page::new(lines);
        for (title, profile, rows, labels) in &panels {
            let units = profile.units();
            let runs = number_of(profile.runs(), "run");
            let head = format!("{title}: {runs}, {}", number_of(units, "unit"));
            page.title(&head);
            for (row, label) in rows.iter().zip(labels) {
                let part = format!(
                    "{} ({:.1} %)",
                    row.all.visits,
                    percent(row.all.visits, units)
                );
                page.bar(label, row, widest, &part);
            }
            page.line += 1;
        }
        page.text()
    }
}

/// A row's name: that of its entry, or the entry in notation.
fn label(names: &Names, table: &Table, row: &Row) -> String {
    let entry = match row.group {
        Group::Shared => return "(shared)".to_owned(),
        Group::Unnamed => return "(no name)".to_owned(),
        Group::Patterns => return "(patterns)".to_owned(),
        Group::Pairs => return "(pairs)".to_owned(),
        Group::Entry(entry) => entry,
    };
    let name = names.entry(entry.number());
    if names.names_entry(entry.number()) {
        return name.into_owned();
    }
    let text = Show::new(names).depth(4).length(12).strategy(table, entry);
    let label = format!("{name} = {text}");
    if label.chars().count() <= LABEL {
        return label;
    }
    label.chars().take(LABEL - 2).chain("..".chars()).collect()
}

/// The colours of successes, of failures, of visits in flight, and of patterns and pairs.
const COLOURS: [(&str, &str); 4] = [
    ("succeeded", "#1f5fa8"),
    ("failed", "#e0902a"),
    ("in flight", "#a03050"),
    ("patterns and pairs", "#a9b0b8"),
];

/// The picture's width, where its bars begin, the longest bar, and the height of a line.
const WIDTH: usize = 960;
const BARS: f64 = 300.0;
const LONGEST: f64 = 500.0;
const LINE: usize = 20;

/// An SVG that grows line by line.
struct Page {
    svg: String,
    line: usize,
}

impl Page {
    fn new(lines: usize) -> Page {
        let height = LINE * (lines + 2);
        let mut svg = format!(
            "<svg xmlns=\"http://www.w3.org/2000/svg\" width=\"{WIDTH}\" height=\"{height}\" viewBox=\"0 0 {WIDTH} {height}\" \
             font-family=\"sans-serif\" font-size=\"13\" fill=\"#222222\">\n<rect width=\"100%\" height=\"100%\" fill=\"#ffffff\"/>\n"
        );
        for (k, (word, colour)) in COLOURS.iter().enumerate() {
            let x = BARS as usize + 120 * k;
            let _ = writeln!(
                svg,
                "<rect x=\"{x}\" y=\"9\" width=\"12\" height=\"12\" fill=\"{colour}\"/>\n<text x=\"{}\" y=\"20\">{word}</text>",
                x + 18
            );
        }
        Page { svg, line: 2 }
    }

    /// The next line's lower edge.
    fn next(&mut self) -> usize {
        self.line += 1;
        LINE * self.line
    }

    fn title(&mut self, words: &str) {
        let y = self.next() - 5;
        let _ = writeln!(
            self.svg,
            "<text x=\"20\" y=\"{y}\" font-size=\"15\" font-weight=\"bold\">{}</text>",
            escaped(words)
        );
    }

    fn bar(&mut self, label: &str, row: &Row, widest: u64, part: &str) {
        let y = self.next();
        let _ = writeln!(
            self.svg,
            "<text x=\"{}\" y=\"{}\" text-anchor=\"end\">{}</text>",
            BARS as usize - 8,
            y - 5,
            escaped(label)
        );
        let all = row.all;
        let outside = all.visits - all.successes - all.failures - all.in_flight;
        let parts = [all.successes, all.failures, all.in_flight, outside];
        let mut x = BARS;
        for (visits, (_, colour)) in parts.into_iter().zip(COLOURS) {
            let width = LONGEST * visits as f64 / widest as f64;
            if visits > 0 {
                let _ = writeln!(
                    self.svg,
                    "<rect x=\"{x:.1}\" y=\"{}\" width=\"{width:.1}\" height=\"{}\" fill=\"{colour}\"/>",
                    y - LINE + 3,
                    LINE - 4
                );
            }
            x += width;
        }
        let _ = writeln!(
            self.svg,
            "<text x=\"{:.1}\" y=\"{}\">{part}</text>",
            x + 6.0,
            y - 5
        );
    }

    fn text(mut self) -> String {
        self.svg.push_str("</svg>\n");
        self.svg
    }
}

/// Text as it stands in an SVG.
fn escaped(text: &str) -> String {
    text.replace('&', "&amp;")
        .replace('<', "&lt;")
        .replace('>', "&gt;")
}
