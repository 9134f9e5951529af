//! The job program: sound texts, and each way in which a text can be bad.

mod common;
use common::*;

/// The printed job, a space for each tab.
const PRINTED: &str = "job 10 0 2 4\ne 16 3 1\ne 4 0 2 3\ne 14 0 4\ne 15 0 5\ne 19 5 6 7\n\
                       e 19 5 7 6\ne 18 0\ne 18 1\nn 1\nn 2\nn 5 0 1\n";

/// Expects answer 9 at a line.
fn bad(text: &str, line: u32) {
    let expected = format!("answer 9 {} 0 0 0\n", line);
    assert_eq!(job_spaced(text), expected, "{:?}", text);
}

/// Expects the first line of an answer.
fn begins(text: &str, first: &str) {
    let answer = job_spaced(text);
    assert_eq!(answer.lines().next(), Some(first), "{:?}", text);
}

#[test]
fn refused_jobs_print_one_line() {
    // 2: no entries; the mark exceeds the room.
    assert_eq!(job_spaced("job 1 0 0 0\n"), "answer 2 0 0 0 0\n");
    assert_eq!(job_spaced("job 1 7 8 9\n"), "answer 2 0 8 0 0\n");
    let text = PRINTED.replace("job 10 0 2 4", "job 10 0 2 2");
    assert_eq!(job_spaced(&text), "answer 2 0 2 3 0\n");
    // 13 to 16, 4 and 5. A job has no unused word to set, so 17 is not seen.
    assert_eq!(
        job_spaced("job 1 0 0 1\ne 0 0\ne 255 0\nn 1\n"),
        "answer 13 1 0 1 0\n"
    );
    assert_eq!(
        job_spaced("job 1 0 0 1\ne 0 0\ne 0 1\nn 1\n"),
        "answer 14 1 0 1 0\n"
    );
    assert_eq!(
        job_spaced("job 1 0 0 1\ne 0 0\ne 2 0 1\nn 1\n"),
        "answer 15 1 0 1 0\n"
    );
    assert_eq!(
        job_spaced("job 1 0 0 1\ne 0 0\ne 8 0 0\nn 1\n"),
        "answer 16 1 0 1 0\n"
    );
    assert_eq!(
        job_spaced("job 1 0 0 9\ne 0 0\nn 1\nn 65536\n"),
        "answer 4 1 0 2 0\n"
    );
    assert_eq!(
        job_spaced("job 1 0 0 9\ne 0 0\nn 1\nn 1 1\n"),
        "answer 4 1 0 2 0\n"
    );
    assert_eq!(job_spaced("job 1 0 0 4\ne 0 0\n"), "answer 5 0 0 0 0\n");
    assert_eq!(
        job_spaced("job 1 0 0 9\ne 0 0\nn 1\nb 3 1\n"),
        "answer 5 0 0 1 0\n"
    );
    assert_eq!(
        job_spaced("job 1 4294967295 4294967295 9\ne 0 0\nn 1\n"),
        "answer 5 0 4294967295 1 0\n"
    );
}

#[test]
fn runs_print_nodes_and_bindings() {
    // Failed, cut off by units, by room and by nesting: as given.
    assert_eq!(
        job_spaced("job 9 0 1 2\ne 1 0\nn 1\nn 3 0 0\nb 0 1\nb 63 0\n"),
        "answer 1 4096 1 2 1\nn 1\nn 3 0 0\nb 0 1\nb 63 0\n"
    );
    assert_eq!(
        job_spaced("job 0 0 0 1\ne 0 0\nn 1\n"),
        "answer 6 0 0 1 0\nn 1\n"
    );
    assert_eq!(
        job_spaced("job 9 0 0 1\ne 15 0 1\ne 19 7\nn 1\n"),
        "answer 7 0 0 1 2\nn 1\n"
    );
    assert_eq!(
        job_spaced("job 4294967295 0 0 1\ne 7 0 1\ne 8 0 0\nn 1\n"),
        "answer 8 0 0 1 4096\nn 1\n"
    );
    // Done, with a new binding between two given ones.
    assert_eq!(
        job_spaced("job 9 0 1 2\ne 14 0 1\ne 18 4\nn 1\nn 3 0\nb 2 1\nb 9 0\n"),
        "answer 0 0 1 2 2\nn 1\nn 3 0\nb 2 1\nb 4 1\nb 9 0\n"
    );
}

#[test]
fn empty_and_unfinished_texts() {
    bad("", 1);
    bad("\n", 1);
    bad("job 1 0 0 0", 1);
    bad(PRINTED.trim_end_matches('\n'), 12);
    bad(&PRINTED.replace("e 18 0\n", "e 18 0\n\n"), 9);
    bad(&format!("{}\n", PRINTED), 13);
    bad("job 1 0 0 1\ne 0 0\nn", 3);
    bad("job 1 0 0 1\ne 0 0\nn\n", 3);
}

#[test]
fn the_first_line() {
    for line in [
        "job",
        "job 1",
        "job 1 0 0",
        "job 1 0 0 0 0",
        "jobs 1 0 0 0",
        "Job 1 0 0 0",
        " 1 0 0 0",
        "e 0 0",
        "job 1 0 0 1025",
        "job 1 0 0 4294967296",
        "job 4294967296 0 0 0",
        "job 1 4294967296 0 0",
        "job 1 0 4294967296 0",
        "job 1 0 0 x",
        "job 1 0 0 -1",
        "job +1 0 0 0",
        "job 01 0 0 0",
        "job 1 0 0 ",
        "job 1 0  0",
        " job 1 0 0 0",
        "job 1 0 0 0 ",
        "job 1 0 0 0\r",
    ] {
        bad(&format!("{}\ne 0 0\n", line), 1);
    }
    begins("job 4294967295 0 0 1024\ne 0 0\nn 1\n", "answer 0 0 0 1 1");
}

#[test]
fn leading_zeros() {
    for (from, to, line) in [
        ("job 10", "job 010", 1),
        ("e 16 3 1", "e 016 3 1", 2),
        ("e 16 3 1", "e 16 03 1", 2),
        ("e 16 3 1", "e 16 3 01", 2),
        ("n 2\n", "n 02\n", 11),
        ("n 5 0 1", "n 5 00 1", 12),
    ] {
        bad(&PRINTED.replace(from, to), line);
    }
    bad(&format!("{}b 00 1\n", PRINTED), 13);
    bad(&format!("{}b 0 01\n", PRINTED), 13);
}

#[test]
fn tabs_and_other_bytes() {
    // Two tabs, a tab at the end, a carriage return, a space for a tab.
    bad(&PRINTED.replace("e 4 0 2 3", "e 4 0  2 3"), 3);
    bad(&PRINTED.replace("e 4 0 2 3", "e 4 0 2 3 "), 3);
    bad(&PRINTED.replace("e 4 0 2 3", "e 4 0 2 3\r"), 3);
    bad(&PRINTED.replace("e 4 0 2 3", " e 4 0 2 3"), 3);
    bad(&PRINTED.replace("e 4 0 2 3", "e 4 0 2 3x"), 3);
    bad(&PRINTED.replace("e 4 0 2 3", "e 4 0 2 ٣"), 3);
    bad(&PRINTED.replace('\n', "\r\n"), 1);
    let spaces = PRINTED.replacen(' ', "\t", 10).into_bytes();
    assert_eq!(answer_to(spaces), "answer\t9\t3\t0\t0\t0\n");
    let mut bytes = PRINTED.replace(' ', "\t").into_bytes();
    let end = bytes.len() - 2;
    for byte in [0, 0x0b, b' ', b'/', b':', 0x80, 0xff] {
        bytes[end] = byte;
        assert_eq!(answer_to(bytes.clone()), "answer\t9\t12\t0\t0\t0\n");
    }
    // Every byte value once, and bytes that are no text at all.
    let all: Vec<u8> = (0..=255).collect();
    assert_eq!(answer_to(all), "answer\t9\t1\t0\t0\t0\n");
    assert_eq!(answer_to(vec![0xff; 300]), "answer\t9\t1\t0\t0\t0\n");
    assert_eq!(answer_to(vec![0; 60_000]), "answer\t9\t1\t0\t0\t0\n");
}

#[test]
fn operands_and_children() {
    // Six operands are text; a seventh is not.
    begins("job 1 0 0 1\ne 0 0 1 2 3 4 5 6\nn 1\n", "answer 13 0 0 1 0");
    bad("job 1 0 0 1\ne 0 0 1 2 3 4 5 6 7\nn 1\n", 2);
    bad("job 1 0 0 1\ne 0 0 1 2 3 4 5 6 7 8\nn 1\n", 2);
    bad("job 1 0 0 1\ne 0\nn 1\n", 2);
    bad("job 1 0 0 1\ne\nn 1\n", 2);
    // Six children are text; a seventh is not.
    begins(
        "job 1 0 1 2\ne 0 0\nn 1\nn 1 0 0 0 0 0 0\n",
        "answer 0 0 1 2 1",
    );
    bad("job 1 0 1 2\ne 0 0\nn 1\nn 1 0 0 0 0 0 0 0\n", 4);
}

#[test]
fn numbers_at_and_past_their_limits() {
    begins("job 1 0 0 1\ne 255 0\nn 1\n", "answer 13 0 0 1 0");
    bad("job 1 0 0 1\ne 256 0\nn 1\n", 2);
    begins("job 1 0 0 1\ne 0 4294967295\nn 1\n", "answer 14 0 0 1 0");
    bad("job 1 0 0 1\ne 0 4294967296\nn 1\n", 2);
    begins("job 1 0 0 1\ne 2 0 4294967295\nn 1\n", "answer 15 0 0 1 0");
    bad("job 1 0 0 1\ne 2 0 4294967296\nn 1\n", 2);
    begins("job 1 0 0 1\ne 0 0\nn 4294967295\n", "answer 4 0 0 1 0");
    bad("job 1 0 0 1\ne 0 0\nn 4294967296\n", 3);
    begins("job 1 0 0 1\ne 0 0\nn 1 4294967295\n", "answer 4 0 0 1 0");
    bad("job 1 0 0 1\ne 0 0\nn 1 99999999999999999999999999\n", 3);
    bad("job 1 0 0 1\ne 0 0\nn 1 18446744073709551616\n", 3);
    begins("job 1 0 0 1\ne 0 0\nn 1\nb 63 131071\n", "answer 5 0 0 1 0");
    bad("job 1 0 0 1\ne 0 0\nn 1\nb 63 131072\n", 4);
    bad("job 1 0 0 1\ne 0 0\nn 1\nb 64 0\n", 4);
}

#[test]
fn bindings_rise() {
    begins(
        "job 1 0 0 1\ne 0 0\nn 1\nb 0 0\nb 1 0\nb 32 0\nb 63 0\n",
        "answer 0 0 0 1 1",
    );
    bad("job 1 0 0 1\ne 0 0\nn 1\nb 0 0\nb 0 0\n", 5);
    bad("job 1 0 0 1\ne 0 0\nn 1\nb 5 0\nb 4 0\n", 5);
    bad("job 1 0 0 1\ne 0 0\nn 1\nb 31 0\nb 0 0\n", 5);
    bad("job 1 0 0 1\ne 0 0\nn 1\nb 0\n", 4);
    bad("job 1 0 0 1\ne 0 0\nn 1\nb 0 0 0\n", 4);
}

#[test]
fn lines_in_the_wrong_order() {
    bad("job 1 0 0 1\nn 1\ne 0 0\n", 3);
    bad("job 1 0 0 1\ne 0 0\nb 0 0\nn 1\n", 4);
    bad("job 1 0 0 1\ne 0 0\nb 0 0\ne 0 0\n", 4);
    bad("job 1 0 0 1\ne 0 0\nn 1\njob 1 0 0 1\n", 4);
    bad("job 1 0 0 1\nx 0 0\n", 2);
    bad("job 1 0 0 1\nE 0 0\n", 2);
    // The first bad line is named, though a later one is bad too.
    bad("job 1 0 0 1\ne 0 0\nn 01\nn x", 3);
    // No e or n line: sound text.
    begins("job 1 0 0 1\nb 0 0\n", "answer 2 0 0 0 0");
    begins("job 1 0 0 1\nn 1\nb 0 0\n", "answer 2 0 0 1 0");
    begins("job 1 0 0 1\ne 0 0\nb 0 0\n", "answer 5 0 0 0 0");
}

#[test]
fn too_many_lines() {
    let entries = |count: usize| format!("job 1 0 0 1\n{}n 1\n", "e 0 0\n".repeat(count));
    begins(&entries(512), "answer 0 0 0 1 1");
    bad(&entries(513), 514);
    bad(&entries(600), 514);
    let nodes = |count: usize| format!("job 1 0 0 1024\ne 0 0\n{}", "n 1\n".repeat(count));
    begins(&nodes(1_024), "answer 0 0 0 1024 1");
    bad(&nodes(1_025), 1_027);
}

/// A job of exactly so many bytes: an ID entry and long `n` lines.
fn long(bytes: usize) -> Vec<u8> {
    let mut text = b"job\t1\t0\t0\t1024\ne\t0\t0\n".to_vec();
    let line = format!("n{}\n", "\t4294967295".repeat(7));
    while text.len() + line.len() + 17 < bytes {
        text.extend_from_slice(line.as_bytes());
    }
    while bytes - text.len() > 17 {
        text.extend_from_slice(b"n\t4294967295\n");
    }
    if bytes - text.len() > 13 {
        text.extend_from_slice(b"n\t1\n");
    }
    let left = bytes - text.len();
    text.extend_from_slice(&b"n\t1234567890"[..left - 1]);
    text.push(b'\n');
    assert_eq!(text.len(), bytes);
    text
}

#[test]
fn sixty_thousand_bytes() {
    let first = |text: Vec<u8>| {
        let answer = answer_to(text);
        answer.lines().next().unwrap_or("").to_string()
    };
    // The text is sound, and its first node is bad.
    for bytes in [59_990, 59_991, 59_992, 59_995, 59_999, 60_000] {
        let text = long(bytes);
        let nodes = text.iter().filter(|&&byte| byte == b'n').count();
        let expected = format!("answer\t4\t0\t0\t{}\t0", nodes);
        assert_eq!(first(text), expected, "{}", bytes);
    }
    // One byte more, and nothing else is looked at.
    assert_eq!(answer_to(long(60_001)), "answer\t9\t0\t0\t0\t0\n");
    assert_eq!(answer_to(vec![b'x'; 60_001]), "answer\t9\t0\t0\t0\t0\n");
    assert_eq!(answer_to(vec![b'x'; 60_000]), "answer\t9\t1\t0\t0\t0\n");
    assert_eq!(answer_to(vec![b'\n'; 1_000_000]), "answer\t9\t0\t0\t0\t0\n");
}
