//! What the generators reach, and what the counts name where something is missing.

use reference::{conformance, count, generate, replay};
use std::io::{self, BufRead};

type Generate = fn(u64, u64, bool, &mut Vec<u8>) -> io::Result<()>;

fn lines_of(generate: Generate, count: u64, seed: u64) -> Vec<u8> {
    let mut lines = Vec::new();
    generate(count, seed, seed.is_multiple_of(2), &mut lines).unwrap();
    lines
}

fn conformance_lines(seed: u64) -> Vec<u8> {
    lines_of(
        |count, seed, open, out| generate::conformance::run(count, seed, open, out),
        120_000,
        seed,
    )
}

fn replay_lines(count: u64, seed: u64) -> Vec<u8> {
    lines_of(|count, seed, open, out| generate::replay::run(count, seed, open, out), count, seed)
}

#[test]
fn conformance_lines_reach_everything() {
    for seed in [1, 2] {
        let lines = conformance_lines(seed);
        let mut answers = Vec::new();
        conformance::run(&lines[..], &mut answers).unwrap();
        let mut counter = count::conformance::counter();
        counter.count(&lines[..], &answers[..]).unwrap();
        assert_eq!(counter.missing(), Vec::<String>::new());
    }
}

/// The rows that never occurred where no line is like this.
fn missing_without_lines(out: impl Fn(&str) -> bool) -> Vec<String> {
    let lines = String::from_utf8_lossy(&conformance_lines(1)).to_ascii_uppercase();
    let left: Vec<&str> = lines.split('\n').filter(|line| !out(line)).collect();
    let lines = left.join("\n");
    let mut answers = Vec::new();
    conformance::run(lines.as_bytes(), &mut answers).unwrap();
    let mut counter = count::conformance::counter();
    counter.count(lines.as_bytes(), &answers[..]).unwrap();
    counter.missing()
}

/// The rows that never occurred where no line begins with these digits.
fn missing_without(digits: &str) -> Vec<String> {
    missing_without_lines(|line| line.starts_with(digits))
}

#[test]
fn lists_that_are_missing_are_found() {
    assert_eq!(missing_without("0E00"), ["0E 35-empty"]);
    assert_eq!(missing_without("1009"), ["10 35-nine", "10 35-of-nine-before-29"]);
    let of_eight = missing_without("0F08");
    for row in ["0F 35-in-use-8", "0F use-moved-by-7", "0F use-moved-past-end-by-7"] {
        assert!(of_eight.contains(&row.to_string()), "{of_eight:?}");
    }
}

#[test]
fn broadcasts_that_are_missing_are_found() {
    let without_writer = missing_without("11");
    for row in ["11 41", "-- 64-n-broadcast", "-- 64-length-11-long"] {
        assert!(without_writer.contains(&row.to_string()), "{without_writer:?}");
    }
    let without_clock_zero = missing_without("120000000000000000");
    for row in ["12 03", "12 T4-zero", "12 40-before-3"] {
        assert!(without_clock_zero.contains(&row.to_string()), "{without_clock_zero:?}");
    }
}

#[test]
fn tails_that_are_missing_are_found() {
    let long = missing_without_lines(|line| line.starts_with("03") && line.len() > 2 + 2048);
    for row in ["03 7-long", "03 7-1025", "03 length-1040"] {
        assert!(long.contains(&row.to_string()), "{long:?}");
    }
    let without_additions = missing_without("14");
    for row in ["14 44", "-- 64-n-addition", "-- 64-length-14-short", "-- 64-body"] {
        assert!(without_additions.contains(&row.to_string()), "{without_additions:?}");
    }
}

#[test]
fn firmware_that_is_missing_is_found() {
    let without_fresh = missing_without("19");
    assert!(without_fresh.contains(&"19 46".to_string()), "{without_fresh:?}");
    // Images of 31 octets.
    assert_eq!(missing_without("1C1F"), ["1C 46-image-of-31"]);
}

#[test]
fn lines_of_firmware_alone() {
    let lines = lines_of(|n, seed, open, out| generate::c::run(n, seed, open, out), 60_000, 1);
    let mut answers = Vec::new();
    conformance::run(&lines[..], &mut answers).unwrap();
    let mut counter = count::conformance::counter();
    counter.count(&lines[..], &answers[..]).unwrap();
    let of_firmware = |row: &str| ["19", "1A", "1B", "1C", "1D"].contains(&&row[..2]);
    let text = counter.text();
    let reached = text.lines().filter(|row| !row.ends_with(" 0"));
    let mut others = reached.filter(|row| !of_firmware(row) && !row.starts_with("--"));
    assert_eq!(others.next(), None);
    assert_eq!(counter.missing().into_iter().find(|row| of_firmware(row)), None);
}

#[test]
fn differences_that_are_missing_are_found() {
    assert_eq!(missing_without("01"), ["01 00", "01 no-order"]);
}

#[test]
fn ticks_that_are_missing_are_found() {
    // The readings of a clock with this tick end in 00 or 80, and not both in 00.
    let ends = |line: &str, at| line.get(at..at + 2) == Some("80");
    let rows = |of| ["accepted", "18"].map(|word| format!("02 {word}-{of}-tick=2^7"));
    let client = |line: &str| line.starts_with("02") && (ends(line, 16) || ends(line, 64));
    assert_eq!(missing_without_lines(client), rows("client"));
    let server = |line: &str| line.starts_with("02") && (ends(line, 32) || ends(line, 48));
    assert_eq!(missing_without_lines(server), rows("server"));
}

#[test]
fn the_same_seed_gives_the_same_lines() {
    assert!(conformance_lines(3) == conformance_lines(3));
    assert!(conformance_lines(3) != conformance_lines(4));
    assert!(replay_lines(20_000, 3) == replay_lines(20_000, 3));
}

/// The rows that never occurred in a stream whose answers are changed as given.
fn missing_in_replay(seed: u64, change: impl Fn(String) -> String) -> Vec<String> {
    let lines = replay_lines(50_000, seed);
    let mut answers = Vec::new();
    replay::run(&lines[..], &mut answers).unwrap();
    let answers = change(String::from_utf8(answers).unwrap());
    let mut counter = count::replay::counter();
    counter.count(&lines[..], answers.as_bytes()).unwrap();
    counter.missing()
}

#[test]
fn each_replay_stream_reaches_everything() {
    for seed in 1..=6 {
        assert_eq!(missing_in_replay(seed, |answers| answers), Vec::<String>::new());
    }
}

#[test]
fn replays_that_miss_a_kiss_row_are_found() {
    let without_deny = |answers: String| answers.replace("E044454E59", "E044454E58");
    assert_eq!(missing_in_replay(1, without_deny), ["A2 kiss-06"]);
    let without_kisses = |answers: String| answers.replace("E0", "09");
    assert_eq!(missing_in_replay(2, without_kisses).len(), 16);
}

#[test]
fn replays_that_miss_a_zero_token_are_found() {
    let without = |answers: String| answers.replace("2A\n", "06\n");
    assert_eq!(missing_in_replay(1, without), ["A1 42"]);
}

#[test]
fn replays_that_miss_no_order_are_found() {
    let without = |answers: String| answers.replace("2B\n", "13\n");
    assert_eq!(missing_in_replay(1, without), ["A2 43", "A2 with-fields-43"]);
}

/// What counting one line and one answer says.
fn problem(lines: impl BufRead, answers: impl BufRead) -> String {
    count::conformance::counter().count(lines, answers).unwrap_err().to_string()
}

#[test]
fn missing_rows_and_answers_are_named() {
    let mut counter = count::conformance::counter();
    counter.count(&b"F0\n"[..], &b"00\n"[..]).unwrap();
    let missing = counter.missing();
    assert!(missing.contains(&"08 06".to_string()) && !missing.contains(&"F0 00".to_string()));
    assert_eq!(problem(&b"F0\n"[..], &b""[..]), "line 1: lines and answers differ in count");
    assert_eq!(problem(&b"F0\n"[..], &b"0"[..]), "line 1: the answer is not octets");
    assert_eq!(problem(&b"F0\nF0"[..], &b"00\n63"[..]), "line 2: the answer does not fit the line");
    assert_eq!(problem(&b"F0"[..], &b"40"[..]), "line 1: the answer does not fit the line");
}
