//! Rules as text, and rules to write.

use super::damage::damage_table;
use super::frees::dense;
use super::runs::run_case;
use crate::calls::{wide, Call, CallCase, BUFFER, TEXT};
use crate::checks::{check_table, first_operand, kind, row_of, VARIABLES, WIDTH};
use crate::free::free_variables;
use crate::random::Random;
use crate::rules::{line_of, translate, write_rule, Condition, Rule, Symbol, Term};
use crate::text::RunCase;
use std::collections::BTreeMap;

/// A table to begin with, and its RECs, those without free variables first.
struct Base {
    table: Vec<u32>,
    closed: Vec<u32>,
    open: Vec<u32>,
}

impl Base {
    /// The RECs of a table.
    fn new(table: Vec<u32>) -> Base {
        let mut closed = Vec::new();
        let mut open = Vec::new();
        for (entry, row) in table.chunks(WIDTH).enumerate() {
            if row[0] / 16 == kind::REC {
                let (answer, _, mask) = free_variables(&table, entry as u32);
                if (answer, mask) == (0, 0) {
                    closed.push(entry as u32);
                } else {
                    open.push(entry as u32);
                }
            }
        }
        Base {
            table,
            closed,
            open,
        }
    }

    /// A good table of entries in use: none, a few RECs, or any.
    fn random(random: &mut Random, seed: u64, index: u64) -> Base {
        let table = match random.below(10) {
            0 => Vec::new(),
            1..=5 => few_recs(random),
            6 => run_case(seed, index).table,
            _ => {
                let entries = random.within(2, 24);
                dense(random, entries).table
            }
        };
        if check_table(&table).0 == 0 && table.len() <= WIDTH * 200 {
            Base::new(table)
        } else {
            Base::new(few_recs(random))
        }
    }

    /// A number for a condition: mostly a REC without free variables.
    fn rec(&self, random: &mut Random) -> u32 {
        let entries = (self.table.len() / WIDTH) as u32;
        match random.below(40) {
            0 if !self.open.is_empty() => random.pick(&self.open),
            1 if entries > 0 => random.below(entries),
            2 => entries + random.below(3),
            _ if !self.closed.is_empty() => random.pick(&self.closed),
            _ => random.below(4),
        }
    }
}

/// REC ID, REC of a scope over a match, REC of a match whose variable is free,
/// and a REC that calls it, in some order of standing.
fn few_recs(random: &mut Random) -> Vec<u32> {
    let name = u64::from(random.below(VARIABLES as u32));
    let rows = [
        row_of(kind::REC, 0, &[1]),
        row_of(kind::ID, 0, &[]),
        row_of(kind::REC, 0, &[3]),
        row_of(kind::SCOPE, 1 << name, &[4]),
        row_of(kind::MATCH, 0, &[9]),
        row_of(kind::REC, 0, &[6]),
        row_of(kind::MATCH, 0, &[9]),
        row_of(kind::REC, 0, &[8]),
        row_of(kind::CALL, 0, &[5]),
        row_of(kind::PVAR, name, &[]),
    ];
    rows.concat()
}

/// The names that a rule has used so far, and those it may use.
struct Names {
    pool: Vec<u32>,
    bound: Vec<u32>,
}

impl Names {
    fn new(random: &mut Random) -> Names {
        let count = random.within(1, 5);
        let pool = (0..count)
            .map(|_| match random.below(60) {
                0 => random.pick(&[64, 65, 100, u32::MAX]),
                1..=20 => random.below(VARIABLES as u32),
                21..=25 => 63,
                _ => random.below(6),
            })
            .collect();
        Names {
            pool,
            bound: Vec::new(),
        }
    }

    /// A variable that is bound from now on.
    fn binding(&mut self, random: &mut Random) -> u32 {
        let name = random.pick(&self.pool);
        self.bound.push(name);
        name
    }

    /// A variable that is bound already, mostly.
    fn bound(&self, random: &mut Random) -> Option<u32> {
        if random.rarely(20) {
            return Some(random.pick(&self.pool));
        }
        if self.bound.is_empty() {
            return None;
        }
        Some(random.pick(&self.bound))
    }
}

/// A random term in prefix form; `binds` says whether its variables are bound by
/// it or must be bound before.
fn term(random: &mut Random, names: &mut Names, binds: bool, depth: u32) -> Term {
    let variable = random.chance(if depth == 0 { 60 } else { 25 });
    if variable {
        let name = if binds {
            Some(names.binding(random))
        } else {
            names.bound(random)
        };
        if let Some(name) = name {
            return vec![Symbol::Variable(name)];
        }
    }
    let count = match (depth, random.below(12)) {
        (0, _) => 0,
        (_, 0) => 6,
        (_, 1..=3) => 1,
        (_, 4..=8) => 2,
        (_, 9) => 3,
        _ => 0,
    };
    let constructor = match random.below(12) {
        0 => 65_535,
        1 => 0,
        2 => random.below(65_536),
        _ => random.within(1, 9),
    };
    let mut symbols = vec![Symbol::Constructor(constructor, count)];
    for _ in 0..count {
        symbols.extend(term(random, names, binds, depth - 1));
    }
    symbols
}

/// A random rule.
fn rule(random: &mut Random, base: &Base) -> Rule {
    let mut names = Names::new(random);
    let depth = random.below(4);
    let left = term(random, &mut names, true, depth);
    let count = match random.below(10) {
        0..=4 => 0,
        5..=7 => 1,
        8 => 2,
        _ => random.within(2, 5),
    };
    let conditions = (0..count)
        .map(|_| {
            let rec = base.rec(random);
            let depth = random.below(3);
            let start = term(random, &mut names, false, depth);
            let depth = random.below(3);
            let pattern = term(random, &mut names, true, depth);
            Condition {
                rec,
                start,
                pattern,
            }
        })
        .collect();
    let depth = random.below(4);
    let right = term(random, &mut names, false, depth);
    Rule {
        left,
        right,
        conditions,
    }
}

/// A case around a table with so many entries in use.
fn around(call: Call, table: Vec<u32>, in_use: u32, entry: u32, label: String) -> CallCase {
    CallCase {
        call,
        run: RunCase {
            table,
            store: Vec::new(),
            bindings: Vec::new(),
            mark: in_use,
            start: entry,
            subject: 0,
            units: 0,
            label,
        },
        lent: BTreeMap::new(),
    }
}

/// The case of this number under this seed: of the translator, or of the writer.
pub fn rules_case(seed: u64, index: u64) -> CallCase {
    let mut random = Random::new(seed ^ 0x7275_6c65, index);
    let base = Base::random(&mut random, seed, index);
    let count = match random.below(12) {
        0 => 0,
        1..=6 => 1,
        7..=10 => random.within(2, 4),
        _ => random.within(5, 12),
    };
    let mut text = Vec::new();
    for _ in 0..count {
        text.extend(line_of(&rule(&mut random, &base)).into_bytes());
    }
    if random.rarely(4) {
        text.extend(long_line(&mut random));
    }
    if random.chance(40) {
        written(&mut random, &base, &text, index)
    } else {
        translated(&mut random, &base, text, index)
    }
}

/// A line whose rule has thousands of entries, around the greatest table.
fn long_line(random: &mut Random) -> Vec<u8> {
    let links = random.within(4_000, 4_100);
    let mut text = "7\t1\t".repeat(links as usize);
    text.push_str("v0\tv0\n");
    text.into_bytes()
}

/// The entries that a text adds, as far as it is good.
fn added(base: &Base, text: &[u8]) -> u32 {
    let in_use = (base.table.len() / WIDTH) as u32;
    let mut table = base.table.clone();
    table.resize(32_768, 0);
    translate(&mut table, in_use, text).entries - in_use
}

/// A lent table of so many entries: those in use, then zeros or garbage.
fn lend(random: &mut Random, base: &Base, entries: u32) -> Vec<u32> {
    let mut table = base.table.clone();
    let garbage = random.pick(&[0, 0, 7, u32::MAX]);
    table.resize((WIDTH * entries as usize).max(table.len()), garbage);
    table
}

/// A case of the translator.
fn translated(random: &mut Random, base: &Base, text: Vec<u8>, index: u64) -> CallCase {
    let mut text = text;
    let in_use = (base.table.len() / WIDTH) as u32;
    let wanted = in_use + added(base, &text);
    let entries = match random.below(12) {
        0 => wanted.saturating_sub(1),
        1 => in_use + random.below(wanted - in_use + 1),
        2..=5 => wanted,
        6 => 4_096,
        _ => wanted + random.below(30),
    };
    let mut table = lend(random, base, entries.clamp(1, 4_096));
    let mut in_use = in_use;
    if random.chance(35) {
        damage_text(random, &mut text);
        while random.chance(20) {
            damage_text(random, &mut text);
        }
    }
    if random.chance(8) {
        damage_lent(random, &mut table, &mut in_use);
    }
    let mut case = around(Call::Translate, table, in_use, 0, format!("x{}", index));
    let bytes: Vec<u32> = text.iter().map(|&byte| u32::from(byte)).collect();
    case.lent.insert(TEXT, wide(&bytes));
    case
}

/// Damages the lent table or the number of entries in use.
fn damage_lent(random: &mut Random, table: &mut Vec<u32>, in_use: &mut u32) {
    let entries = (table.len() / WIDTH) as u32;
    match random.below(10) {
        0 => table.clear(),
        1 => table.push(0),
        2 => {
            table.pop();
        }
        3 => table.resize(32_776, 0),
        4 => *in_use = entries + 1,
        5 => *in_use = random.pick(&[entries, u32::MAX, 4_097]),
        // An operand in the lent table, but not in use.
        6 => *in_use = in_use.saturating_sub(1),
        _ => {
            let used = WIDTH * (*in_use).min(entries) as usize;
            damage_table(random, &mut table[..used]);
        }
    }
}

/// Damages one field, line or byte of a text.
fn damage_text(random: &mut Random, text: &mut Vec<u8>) {
    let at = random.below(text.len() as u32 + 1) as usize;
    match random.below(12) {
        0..=3 => change_field(random, text),
        4 => text.truncate(at),
        5 => {
            text.pop();
        }
        6 => text.insert(at, b'\n'),
        7 => text.insert(at, b'\t'),
        8 => {
            let odd = random.pick(b"\t\n\r 0123456789vVnx+-.\x00\xff");
            text.insert(at, odd);
        }
        9 if at < text.len() => {
            text.remove(at);
        }
        10 if at < text.len() => {
            text[at] = random.pick(b"\t\n0123456789v");
        }
        _ => {
            // A field or two more at the end of the last line.
            text.pop();
            let more: [&[u8]; 6] = [
                b"\tv0\n",
                b"\t0\n",
                b"\t\n",
                b"\t1\t0\n",
                b"\t0\tv0\tv0\n",
                b"\t0\t1\t0\n",
            ];
            text.extend_from_slice(random.pick(&more));
        }
    }
}

/// Replaces one field by another, at a limit or past it.
fn change_field(random: &mut Random, text: &mut Vec<u8>) {
    let fields: Vec<(usize, usize)> = {
        let mut fields = Vec::new();
        let mut first = 0;
        for (index, &byte) in text.iter().enumerate() {
            if byte == b'\t' || byte == b'\n' {
                fields.push((first, index));
                first = index + 1;
            }
        }
        fields
    };
    if fields.is_empty() {
        return;
    }
    let (first, end) = random.pick(&fields);
    let others: [&[u8]; 26] = [
        b"",
        b"0",
        b"1",
        b"2",
        b"6",
        b"7",
        b"00",
        b"01",
        b"65535",
        b"65536",
        b"4294967295",
        b"4294967296",
        b"99999999999999999999999",
        b"v",
        b"v0",
        b"v1",
        b"v00",
        b"v63",
        b"v64",
        b"v4294967295",
        b"v4294967296",
        b"V0",
        b"v-1",
        b"-1",
        b"x",
        b" 1",
    ];
    let other = random.pick(&others);
    text.splice(first..end, other.iter().copied());
}

/// A case of the writer: a translated table, mostly at a rule's first entry.
fn written(random: &mut Random, base: &Base, text: &[u8], index: u64) -> CallCase {
    let mut table = base.table.clone();
    table.resize(32_768, 0);
    let before = (base.table.len() / WIDTH) as u32;
    // Only the lines that are good, each for itself.
    let mut in_use = before;
    for line in text.split_inclusive(|&byte| byte == b'\n') {
        in_use = translate(&mut table, in_use, line).entries;
    }
    let scopes: Vec<u32> = (before..in_use)
        .filter(|&entry| table[WIDTH * entry as usize] / 16 == kind::SCOPE)
        .collect();
    let mut entry = match random.below(10) {
        0 => random.below(in_use + 2),
        1 => in_use,
        _ if scopes.is_empty() => random.below(in_use + 1),
        _ => random.pick(&scopes),
    };
    let lent = (in_use + random.below(4)).clamp(1, 4_096);
    table.truncate(WIDTH * lent as usize);
    if random.chance(30) && in_use > before {
        disturb(random, &mut table, base, before, in_use);
    }
    if random.chance(8) {
        damage_lent(random, &mut table, &mut in_use);
    }
    // Entries that follow, so that the rule's RECs may stand after it.
    if random.chance(5) && !base.table.is_empty() {
        if let Some(words) = rule_first(random, base) {
            in_use = (words.len() / WIDTH) as u32;
            table = words;
            entry = 0;
        }
    }
    let length = text.len() as u32 + 8;
    let exact = exact_length(&table, in_use, entry);
    let buffer = match (exact, random.below(6)) {
        (Some(exact), 0 | 1) => exact,
        (Some(exact), 2) => exact - 1,
        (_, 3) => random.below(length),
        (_, 4) => 0,
        _ => length,
    };
    let garbage = random.pick(&[0, 7, 255]);
    let mut case = around(Call::Write, table, in_use, entry, format!("x{}", index));
    case.lent.insert(BUFFER, vec![garbage; buffer as usize]);
    case
}

/// The length of a rule's line, if there is a rule.
fn exact_length(table: &[u32], in_use: u32, entry: u32) -> Option<u32> {
    let mut buffer = vec![0; 100_000];
    let end = write_rule(table, in_use, entry, &mut buffer);
    if end.answer == 0 {
        Some(end.length)
    } else {
        None
    }
}

/// A row whose operands are other numbers by so many up, then so many down.
fn moved(row: &[u32], up: u32, down: u32) -> Vec<u32> {
    let mut row = row.to_vec();
    let first = first_operand(row[0] / 16);
    let count = (row[0] % 16) as usize;
    for operand in &mut row[first..first + count] {
        *operand = *operand + up - down;
    }
    row
}

/// A table whose first entries are a rule and whose RECs stand after it.
fn rule_first(random: &mut Random, base: &Base) -> Option<Vec<u32>> {
    let text = line_of(&rule(random, base));
    let mut table = base.table.clone();
    table.resize(32_768, 0);
    let used = (base.table.len() / WIDTH) as u32;
    let end = translate(&mut table, used, text.as_bytes());
    if end.answer != 0 {
        return None;
    }
    let size = end.entries - used;
    let mut words = Vec::new();
    for row in table[WIDTH * used as usize..WIDTH * end.entries as usize].chunks(WIDTH) {
        // The rule's own operands move down; a CALL's moves up with its REC.
        words.extend(match row[0] / 16 {
            kind::CALL => moved(row, size, 0),
            _ => moved(row, 0, used),
        });
    }
    for row in base.table.chunks(WIDTH) {
        words.extend(moved(row, size, 0));
    }
    Some(words)
}

/// Changes one of the rules' entries, so that mostly the table stays good and the
/// rule is none that the translator makes.
fn disturb(random: &mut Random, table: &mut [u32], base: &Base, before: u32, in_use: u32) {
    let own: Vec<usize> = (before..in_use)
        .map(|entry| WIDTH * entry as usize)
        .collect();
    let first = random.pick(&own);
    let kind = table[first] / 16;
    match kind {
        kind::SCOPE => {
            let word = first + 1 + random.below(2) as usize;
            table[word] ^= 1 << random.below(32);
        }
        kind::PVAR => table[first + 1] = random.below(VARIABLES as u32),
        kind::PCON if random.chance(50) => table[first + 1] = random.below(65_536),
        kind::CALL => {
            let all: Vec<u32> = base.open.iter().chain(&base.closed).copied().collect();
            if !all.is_empty() {
                table[first + 2] = random.pick(&all);
            }
        }
        kind::SEQ if random.chance(50) => table.swap(first + 2, first + 3),
        kind::MATCH | kind::BUILD if random.chance(40) => {
            table[first] = 16 * (kind::MATCH + kind::BUILD - kind) + 1;
        }
        kind::WHERE => table[first] = 16 * kind::TEST + 1,
        _ => {
            // Another operand above: a shared entry, or one left out.
            let count = table[first] % 16;
            if count > 0 {
                let at = first + first_operand(kind) + random.below(count) as usize;
                let entry = (first / WIDTH) as u32;
                table[at] = entry + 1 + random.below(in_use - entry);
            }
        }
    }
}
