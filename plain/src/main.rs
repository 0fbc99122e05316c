//! Compares the proved SNTP code, linked as an archive through the C ABI, with plain Rust.
//!
//! Both sides run over the same blocks of packets; their outputs are compared octet for octet and
//! their times are printed as tables. A difference ends the program with status 1.
//!
//! `tests/blocks` builds the archive and this program and runs it. By itself it is run in this
//! folder, with the archive's folder in ARCHIVES and the number of rounds as its argument (60
//! if there is none). With `--limit RATIO` it measures the blocks of replies alone, prints no table,
//! and fails if one takes more than that many times as long as plain Rust:
//!
//!     ARCHIVES=$PWD/../target/c cargo run --release --offline -- 60

#![deny(unsafe_code)]

mod harness {
    pub mod calls;
    pub mod client_blocks;
    pub mod client_cells;
    pub mod difference;
    pub mod generator;
    pub mod measure;
    pub mod replies;
    pub mod reply_cells;
    pub mod requests;
    pub mod table;
}

use std::process::ExitCode;

use harness::difference::Difference;
use harness::{client_cells, reply_cells};

const SIZES: [usize; 3] = [64, 4096, 262_144];
const ROUNDS: usize = 60;

/// The size whose figure tells the share of a core.
const LOAD_SIZE: usize = 4096;
const GATEWAYS: f64 = 200_000.0;

fn main() -> ExitCode {
    let Some((rounds, limit)) = arguments() else {
        eprintln!("blocks [ROUNDS] [--limit RATIO]: both are above 0");
        return ExitCode::from(2);
    };
    let passed = match limit {
        Some(limit) => within(limit, rounds),
        None => run(rounds).map(|()| true),
    };
    match passed {
        Ok(true) => ExitCode::SUCCESS,
        Ok(false) => ExitCode::FAILURE,
        Err(difference) => {
            eprintln!("{difference}");
            ExitCode::FAILURE
        }
    }
}

fn arguments() -> Option<(usize, Option<f64>)> {
    let (mut rounds, mut limit) = (ROUNDS, None);
    let mut words = std::env::args().skip(1);
    while let Some(word) = words.next() {
        if word == "--limit" {
            limit = Some(words.next()?.parse().ok().filter(|&limit| limit > 0.0)?);
        } else {
            rounds = word.parse().ok().filter(|&rounds| rounds > 0)?;
        }
    }
    Some((rounds, limit))
}

/// Whether the blocks of replies take at most `limit` times as long as plain Rust.
fn within(limit: f64, rounds: usize) -> Result<bool, Difference> {
    let mut over = reply_cells::over(limit, true, &SIZES, rounds)?;
    over.extend(reply_cells::over(limit, false, &SIZES, rounds)?);
    for cell in &over {
        println!("{cell} times plain Rust, and at most {limit} is allowed");
    }
    if over.is_empty() {
        println!("all blocks of replies take at most {limit} times as long as plain Rust");
    }
    Ok(over.is_empty())
}

fn run(rounds: usize) -> Result<(), Difference> {
    println!(
        "{rounds} rounds; ns a packet and ratios by medians, 10 % and 90 % of the rounds' ratios\n"
    );
    let reply_ns = reply_cells::table(true, &SIZES, rounds, LOAD_SIZE)?;
    reply_cells::table(false, &SIZES, rounds, LOAD_SIZE)?;
    client_cells::table(&SIZES, rounds)?;
    print_load(reply_ns);
    Ok(())
}

fn print_load(reply_ns: f64) {
    let share = |interval: f64| GATEWAYS / interval * reply_ns / 1e9 * 100.0;
    let (often, seldom) = (share(64.0), share(16384.0));
    println!(
        "At {reply_ns:.2} ns a reply, 200,000 gateways take {often:.5} % of one core when each \
         asks every 64 s, and {seldom:.7} % when each asks every 2^14 s."
    );
}
