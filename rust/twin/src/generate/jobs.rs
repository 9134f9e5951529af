//! Job texts: sound ones, and texts damaged in every way.

use super::runs::run_case;
use crate::checks::{first_operand, kind, mask_of, VARIABLES, WIDTH};
use crate::random::Random;
use crate::text::RunCase;

/// The job text of this number under this seed.
pub fn job_text(seed: u64, index: u64) -> Vec<u8> {
    let mut random = Random::new(seed ^ 0x006a_6f62, index);
    if random.rarely(25) {
        return strange(&mut random);
    }
    // A run case that a job can hold: look a few numbers further for one.
    let mut number = 4 * index;
    let case = loop {
        let case = run_case(seed.wrapping_add(1), number);
        if fits(&case) {
            break case;
        }
        number += 1;
    };
    let mut lines = lines_of(&case);
    if random.chance(45) {
        damage_lines(&mut random, &mut lines);
        while random.chance(15) {
            damage_lines(&mut random, &mut lines);
        }
    }
    let mut text = lines.concat();
    if random.chance(18) {
        damage_bytes(&mut random, &mut text);
    }
    text
}

/// Whether a job can say this case.
fn fits(case: &RunCase) -> bool {
    case.table.len() % WIDTH == 0
        && case.table.len() <= WIDTH * 512
        && case.store.len() % WIDTH == 0
        && case.store.len() <= WIDTH * 1_024
        && case.mark as usize <= case.store.len() / WIDTH
        && case.bindings.len() == VARIABLES
}

/// One line: a name and numbers.
fn line<N: ToString>(name: &str, numbers: &[N]) -> Vec<u8> {
    let mut text = name.to_string();
    for number in numbers {
        text.push('\t');
        text.push_str(&number.to_string());
    }
    text.push('\n');
    text.into_bytes()
}

/// The lines of a case.
fn lines_of(case: &RunCase) -> Vec<Vec<u8>> {
    let room = (case.store.len() / WIDTH) as u32;
    let mut lines = vec![line("job", &[case.units, case.start, case.subject, room])];
    for row in case.table.chunks(WIDTH) {
        let kind = row[0] / 16;
        let argument = match kind {
            kind::SCOPE => mask_of(row),
            _ => u64::from(row[1]),
        };
        let count = (row[0] % 16).min(6) as usize;
        let mut numbers = vec![u64::from(kind), argument];
        let operands = row[first_operand(kind)..].iter().take(count);
        numbers.extend(operands.map(|&operand| u64::from(operand)));
        lines.push(line("e", &numbers));
    }
    for row in case.store.chunks(WIDTH).take(case.mark as usize) {
        let count = row[1].min(6) as usize;
        let mut numbers = vec![row[0]];
        numbers.extend_from_slice(&row[2..2 + count]);
        lines.push(line("n", &numbers));
    }
    for (variable, &word) in case.bindings.iter().enumerate() {
        if word != 0 {
            lines.push(line("b", &[variable as u32, word - 1]));
        }
    }
    lines
}

/// A text that is no job, or the longest job.
fn strange(random: &mut Random) -> Vec<u8> {
    match random.below(9) {
        0 => Vec::new(),
        1 => b"\n".to_vec(),
        2 => b"job".to_vec(),
        3 => line("job", &[1, 0, 0, 0]),
        4 => {
            let length = random.within(1, 400);
            (0..length).map(|_| random.word() as u8).collect()
        }
        5 => {
            let length = random.within(1, 60);
            let letters = b"jobenb\t\t\t01\n\n\r ";
            (0..length).map(|_| random.pick(letters)).collect()
        }
        _ => long(random),
    }
}

/// An `n` line of exactly so many bytes, from 4 to 79.
fn line_of_bytes(bytes: usize) -> Vec<u8> {
    let mut text = b"n".to_vec();
    while text.len() + 1 < bytes {
        // A field of one tab and up to ten digits; none is left with no digit.
        let left = bytes - 1 - text.len();
        let field = if left > 12 || left == 11 {
            11
        } else if left == 12 {
            10
        } else {
            left
        };
        text.push(b'\t');
        text.extend_from_slice(&b"4294967295"[..field - 1]);
    }
    text.push(b'\n');
    text
}

/// A job of 59,999 to 60,001 bytes, or with the greatest numbers of lines.
fn long(random: &mut Random) -> Vec<u8> {
    let mut text = line("job", &[9, 0, 0, 1_024]);
    match random.below(3) {
        0 => {
            for _ in 0..random.within(511, 513) {
                text.extend(line("e", &[0, 0]));
            }
            text.extend(line("n", &[1]));
        }
        1 => {
            text.extend(line("e", &[0, 0]));
            for _ in 0..random.within(1_023, 1_025) {
                text.extend(line("n", &[1]));
            }
        }
        _ => {
            let wanted = random.within(59_999, 60_001) as usize;
            text.extend(line("e", &[0, 0]));
            while text.len() + 83 < wanted {
                text.extend(line_of_bytes(79));
            }
            let left = wanted - text.len();
            if left > 79 {
                text.extend(line_of_bytes(40));
                text.extend(line_of_bytes(left - 40));
            } else {
                text.extend(line_of_bytes(left));
            }
        }
    }
    text
}

/// The index of a random line.
fn some_line(random: &mut Random, lines: &[Vec<u8>]) -> usize {
    random.below(lines.len() as u32) as usize
}

/// The fields of a line, without its line feed.
fn fields(line: &[u8]) -> Vec<Vec<u8>> {
    let line = line.strip_suffix(b"\n").unwrap_or(line);
    line.split(|&byte| byte == b'\t')
        .map(|field| field.to_vec())
        .collect()
}

/// Changes a random field of a random line, not its first field where it has
/// others.
fn change_field<F>(random: &mut Random, lines: &mut [Vec<u8>], change: F)
where
    F: FnOnce(&mut Random, &mut Vec<u8>),
{
    let index = some_line(random, lines);
    let mut fields = fields(&lines[index]);
    let field = if fields.len() > 1 {
        1 + random.below(fields.len() as u32 - 1) as usize
    } else {
        0
    };
    change(random, &mut fields[field]);
    lines[index] = fields.join(&b'\t');
    lines[index].push(b'\n');
}

/// Damages lines or numbers. Some damage turns out to be harmless.
fn damage_lines(random: &mut Random, lines: &mut Vec<Vec<u8>>) {
    if lines.is_empty() {
        return;
    }
    let index = some_line(random, lines);
    match random.below(22) {
        0 | 1 => change_field(random, lines, |random, field| {
            let limits: [&[u8]; 18] = [
                b"32",
                b"63",
                b"64",
                b"255",
                b"256",
                b"1024",
                b"1025",
                b"65535",
                b"65536",
                b"131071",
                b"131072",
                b"4294967295",
                b"4294967296",
                b"18446744073709551615",
                b"18446744073709551616",
                b"99999999999999999999999",
                b"0",
                b"6",
            ];
            *field = random.pick(&limits).to_vec();
        }),
        2 => change_field(random, lines, |random, field| {
            let zeros = random.within(1, 2);
            for _ in 0..zeros {
                field.insert(0, b'0');
            }
        }),
        3 => change_field(random, lines, |random, field| {
            let signs: [&[u8]; 6] = [b"+", b"-", b" ", b"0x", b"", b"\xc2\xa0"];
            let mut changed = random.pick(&signs).to_vec();
            changed.extend_from_slice(field);
            *field = changed;
        }),
        4 => change_field(random, lines, |_, field| field.clear()),
        // An extra field, up to a seventh or eighth operand.
        5 | 6 => {
            let end = lines[index].len().saturating_sub(1);
            lines[index].truncate(end);
            let more = random.within(1, 7);
            for _ in 0..more {
                lines[index].extend_from_slice(b"\t0");
            }
            lines[index].push(b'\n');
        }
        // A field less.
        7 => {
            let mut fields = fields(&lines[index]);
            fields.pop();
            lines[index] = fields.join(&b'\t');
            lines[index].push(b'\n');
        }
        8 => {
            let other = some_line(random, lines);
            lines.swap(index, other);
        }
        9 => {
            let copy = lines[index].clone();
            lines.insert(index, copy);
        }
        10 => {
            lines.remove(index);
        }
        11 => lines.insert(index, b"\n".to_vec()),
        12 => {
            let other: [&[u8]; 8] = [
                b"job\t1\t0\t0\t1\n",
                b"e\t0\t0\n",
                b"n\t1\n",
                b"b\t63\t0\n",
                b"b\t0\t0\n",
                b"x\t1\n",
                b"e\n",
                b"n\n",
            ];
            let other = random.pick(&other).to_vec();
            lines.insert(index, other);
        }
        // Bindings: in the wrong order, twice, or near a limit.
        13 | 14 => {
            let numbers = [
                random.below(66),
                random.pick(&[0, 1, 2, 1_023, 131_071, 131_072]),
            ];
            lines.push(line("b", &numbers));
            if random.chance(50) {
                let variable = numbers[0] + random.below(2);
                lines.push(line("b", &[variable, 0]));
            }
        }
        // A kind at its limit or past it, in an `e` line if one is found.
        16 => {
            let other = lines
                .iter()
                .position(|line| line.starts_with(b"e\t"))
                .unwrap_or(index);
            let mut fields = fields(&lines[other]);
            if let Some(kind) = fields.get_mut(1) {
                let kinds = [19, 20, 255, 256];
                *kind = random.pick(&kinds).to_string().into_bytes();
            }
            lines[other] = fields.join(&b'\t');
            lines[other].push(b'\n');
        }
        // A room that may be too small, or past its limit.
        15 => {
            let mut fields = fields(&lines[0]);
            if let Some(room) = fields.get_mut(4) {
                let rooms = [0, 1, 3, 7, 1_023, 1_024, 1_025];
                *room = random.pick(&rooms).to_string().into_bytes();
            }
            lines[0] = fields.join(&b'\t');
            lines[0].push(b'\n');
        }
        // An argument of up to 64 bits and one past them, of a scope or another.
        19 | 20 => {
            let scopes: Vec<usize> = (0..lines.len())
                .filter(|&other| lines[other].starts_with(b"e\t16\t"))
                .collect();
            let other = match scopes.is_empty() || random.chance(30) {
                true => index,
                false => random.pick(&scopes),
            };
            let mut fields = fields(&lines[other]);
            if let Some(argument) = fields.get_mut(2) {
                let most: [&[u8]; 5] = [
                    b"4294967295",
                    b"4294967296",
                    b"18446744073709551615",
                    b"18446744073709551616",
                    b"9223372036854775808",
                ];
                *argument = random.pick(&most).to_vec();
            }
            lines[other] = fields.join(&b'\t');
            lines[other].push(b'\n');
        }
        17 => {
            let names: [&[u8]; 7] = [b"E", b"ee", b"jobs", b"JOB", b"n ", b"", b"b"];
            let mut fields = fields(&lines[index]);
            fields[0] = random.pick(&names).to_vec();
            lines[index] = fields.join(&b'\t');
            lines[index].push(b'\n');
        }
        18 => {
            let end = lines[index].len().saturating_sub(1);
            let ends: [&[u8]; 4] = [b"\t\n", b" \n", b"\r\n", b"\n\n"];
            lines[index].truncate(end);
            let end = random.pick(&ends);
            lines[index].extend_from_slice(end);
        }
        _ => {
            if let Some(tab) = lines[index].iter().position(|&byte| byte == b'\t') {
                if random.chance(50) {
                    lines[index].insert(tab, b'\t');
                } else {
                    lines[index][tab] = b' ';
                }
            }
        }
    }
}

/// Damages single bytes.
fn damage_bytes(random: &mut Random, text: &mut Vec<u8>) {
    if text.is_empty() {
        return;
    }
    let at = random.below(text.len() as u32) as usize;
    let odd = random.pick(b"\t\n\r 0123456789jobenx+-.,\x00\xff\x80\x0b/:");
    match random.below(6) {
        0 => text[at] = odd,
        1 => text.insert(at, odd),
        2 => {
            text.remove(at);
        }
        3 => text.truncate(at),
        4 => {
            text.pop();
        }
        _ => {
            text[at] = random.word() as u8;
        }
    }
}
