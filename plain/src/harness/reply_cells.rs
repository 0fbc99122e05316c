//! The server's replies: compared, then timed.

use std::time::Duration;

use plain_sntp::packet::LENGTH;

use super::calls::{Calls, PLAIN, PROVED};
use super::difference::{Difference, compare, compare_whole};
use super::measure::{LONG, SHORT, Side, Times, measure};
use super::requests::ReplyBlock;
use super::table::{Table, count};

const HEADER: [&str; 12] = [
    "packets",
    "refused",
    "proved ns",
    "plain ns",
    "ratio",
    "10 %",
    "90 %",
    "a call each: proved ns",
    "plain ns",
    "ratio",
    "10 %",
    "90 %",
];

/// The name of a share of refused requests, and the group in which one is refused.
const SHARES: [(&str, Option<usize>); 4] = [
    ("none", None),
    ("one in ten", Some(10)),
    ("half", Some(2)),
    ("all", Some(1)),
];

const SIDES: [Side<ReplyBlock>; 4] = [
    |block| whole(block, &PROVED),
    |block| whole(block, &PLAIN),
    |block| each(block, &PROVED),
    |block| each(block, &PLAIN),
];

/// The places of the sides.
const BLOCK: usize = 0;
const BLOCK_PLAIN: usize = 1;
const EACH: usize = 2;
const EACH_PLAIN: usize = 3;

/// Prints the table and returns the proved ns of a valid request at the size `wanted`.
pub fn table(
    synchronised: bool,
    sizes: &[usize],
    rounds: usize,
    wanted: usize,
) -> Result<f64, Difference> {
    let mut table = Table::new(name(synchronised), &HEADER);
    let mut wanted_ns = f64::NAN;
    for (size, (share, group)) in cells(sizes) {
        let block = ReplyBlock::new(synchronised, size, group);
        let times = run(
            &cell(synchronised, size, share),
            block,
            rounds,
            LONG,
            &SIDES,
        )?;
        if size == wanted && group.is_none() {
            wanted_ns = times.median(BLOCK);
        }
        let mut row = vec![count(size), share.to_string()];
        row.extend(times.compared(BLOCK, BLOCK_PLAIN));
        row.extend(times.compared(EACH, EACH_PLAIN));
        table.add(row);
    }
    table.print();
    Ok(wanted_ns)
}

/// The cells whose blocks take over `limit` times as long as plain Rust by the steady ratio, and
/// again when they are measured a second time.
pub fn over(
    limit: f64,
    synchronised: bool,
    sizes: &[usize],
    rounds: usize,
) -> Result<Vec<String>, Difference> {
    let mut over = Vec::new();
    for (size, (share, group)) in cells(sizes) {
        let cell = cell(synchronised, size, share);
        let ratio = || {
            let block = ReplyBlock::new(synchronised, size, group);
            let times = run(&cell, block, rounds, SHORT, &SIDES[..=BLOCK_PLAIN])?;
            Ok(times.steady_ratio(BLOCK, BLOCK_PLAIN))
        };
        let first = ratio()?;
        if first <= limit {
            continue;
        }
        let second = ratio()?;
        if second > limit {
            over.push(format!("{cell}: {first:.2}, then {second:.2}"));
        }
    }
    Ok(over)
}

fn name(synchronised: bool) -> &'static str {
    if synchronised {
        "Reply, synchronised"
    } else {
        "Reply, not synchronised"
    }
}

fn cell(synchronised: bool, size: usize, share: &str) -> String {
    let name = name(synchronised);
    format!("{name}, {size} packets, refused: {share}")
}

fn cells(sizes: &[usize]) -> impl Iterator<Item = (usize, (&'static str, Option<usize>))> {
    let shares = |&size| SHARES.iter().map(move |&share| (size, share));
    sizes.iter().flat_map(shares)
}

fn run(
    cell: &str,
    mut block: ReplyBlock,
    rounds: usize,
    span: Duration,
    sides: &[Side<ReplyBlock>],
) -> Result<Times, Difference> {
    let size = block.numbers.len();
    let mut expected = block.clone();
    whole(&mut expected, &PLAIN);
    for side in sides {
        let mut block = block.clone();
        compare_whole(cell, "count", side(&mut block), size as u64)?;
        compare(cell, "number", 1, &block.numbers, &block.expected)?;
        compare(cell, "reply", LENGTH, &block.replies, &expected.replies)?;
    }
    Ok(measure(&mut block, size, rounds, span, sides))
}

#[inline(always)]
fn whole(block: &mut ReplyBlock, calls: &Calls) -> u64 {
    calls.reply_block(
        &block.settings,
        &block.requests,
        &block.times,
        &mut block.replies,
        &mut block.numbers,
    ) as u64
}

/// A call for each request.
#[inline(always)]
fn each(block: &mut ReplyBlock, calls: &Calls) -> u64 {
    let requests = block.requests.chunks_exact(LENGTH);
    let times = block.times.chunks_exact(2);
    let replies = block.replies.chunks_exact_mut(LENGTH);
    let numbers = block.numbers.iter_mut();
    let mut count = 0;
    for (((request, time), reply), number) in requests.zip(times).zip(replies).zip(numbers) {
        *number = calls.reply(&block.settings, time, reply, request) as u8;
        count += 1;
    }
    count
}
