//! The commands of the independent program.

#![deny(clippy::unwrap_used, clippy::expect_used, clippy::panic)]

use reference::count::{self, Counter};
use reference::{benchmarks, conformance, generate, replay};
use std::fs::File;
use std::io::{self, BufReader, Write};
use std::process::ExitCode;

const USE: &str = "usage:
  reference replay < FRAMES
  reference conformance < LINES
  reference generate conformance COUNT SEED [open]
  reference generate replay COUNT SEED [open]
  reference generate c COUNT SEED [open]
  reference count conformance LINES ANSWERS [LINES ANSWERS ...]
  reference count replay FRAMES ANSWERS [FRAMES ANSWERS ...]
  reference benchmark walk|direct D|T
  reference benchmark direct M";

fn main() -> ExitCode {
    let words: Vec<String> = std::env::args().skip(1).collect();
    let words: Vec<&str> = words.iter().map(String::as_str).collect();
    match run(&words) {
        Ok(()) => ExitCode::SUCCESS,
        // Whoever reads our output may stop early.
        Err(error) if error.kind() == io::ErrorKind::BrokenPipe => ExitCode::SUCCESS,
        Err(error) => {
            eprintln!("{error}");
            ExitCode::FAILURE
        }
    }
}

fn problem(message: impl Into<String>) -> io::Error {
    io::Error::other(message.into())
}

fn run(words: &[&str]) -> io::Result<()> {
    match words {
        ["replay"] => replay::run(io::stdin().lock(), io::stdout().lock()),
        ["conformance"] => conformance::run(io::stdin().lock(), io::stdout().lock()),
        ["generate", program, count, seed] => generate(program, count, seed, false),
        ["generate", program, count, seed, "open"] => generate(program, count, seed, true),
        ["count", "conformance", files @ ..] => count(count::conformance::counter(), files),
        ["count", "replay", files @ ..] => count(count::replay::counter(), files),
        ["benchmark", way, work] => {
            let line = benchmarks::line(way, work);
            io::stdout().write_all(line.ok_or_else(|| problem(USE))?.as_bytes())
        }
        _ => Err(problem(USE)),
    }
}

fn number(word: &str) -> io::Result<u64> {
    word.parse().map_err(|_| problem(format!("not a number: {word}")))
}

fn generate(program: &str, count: &str, seed: &str, open: bool) -> io::Result<()> {
    let (count, seed) = (number(count)?, number(seed)?);
    let output = io::stdout().lock();
    match program {
        "conformance" => generate::conformance::run(count, seed, open, output),
        "replay" => generate::replay::run(count, seed, open, output),
        "c" => generate::c::run(count, seed, open, output),
        _ => Err(problem(USE)),
    }
}

/// Counts over pairs of files, and fails where a row never occurred.
fn count(mut counter: Counter, files: &[&str]) -> io::Result<()> {
    let (pairs, []) = files.as_chunks::<2>() else {
        return Err(problem(USE));
    };
    for [lines, answers] in pairs {
        counter.count(open(lines)?, open(answers)?)?;
    }
    io::stdout().write_all(counter.text().as_bytes())?;
    let missing = counter.missing();
    if missing.is_empty() {
        return Ok(());
    }
    Err(problem(format!("never occurred: {}", missing.join(", "))))
}

fn open(name: &str) -> io::Result<BufReader<File>> {
    let file = File::open(name).map_err(|error| problem(format!("{name}: {error}")))?;
    Ok(BufReader::new(file))
}
