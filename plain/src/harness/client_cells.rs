//! The client's calls: compared, then timed.

use plain_sntp::arrival::Arrival;
use plain_sntp::packet::LENGTH;
use plain_sntp::refusal::Refusal;
use plain_sntp::timestamp::Timestamp;

use super::calls::{PLAIN, PROVED};
use super::client_blocks;
use super::difference::{Difference, compare, compare_whole};
use super::measure::{LONG, Side, Times, measure};
use super::replies::{self, ClientBlock};
use super::table::{Table, count};

const HEADER: [&str; 7] = [
    "call",
    "packets",
    "proved ns",
    "plain ns",
    "ratio",
    "10 %",
    "90 %",
];

struct Call {
    name: &'static str,
    block: fn(usize) -> ClientBlock,
    plain: Side<ClientBlock>,
    proved: Side<ClientBlock>,
    /// Whether the plain side answers a packet as the name says.
    as_named: fn(&ClientBlock, usize) -> bool,
}

const CALLS: [Call; 6] = [
    Call {
        name: "read",
        block: replies::to_read,
        plain: |block| client_blocks::read(block, &PLAIN),
        proved: |block| client_blocks::read(block, &PROVED),
        as_named: |_, _| true,
    },
    Call {
        name: "write",
        block: replies::to_write,
        plain: |block| client_blocks::write(block, &PLAIN),
        proved: |block| client_blocks::write(block, &PROVED),
        as_named: |_, _| true,
    },
    Call {
        name: "ask",
        block: replies::to_ask,
        plain: |block| client_blocks::ask(block, &PLAIN),
        proved: |block| client_blocks::ask(block, &PROVED),
        as_named: |_, _| true,
    },
    Call {
        name: "arrival, accepted",
        block: replies::to_accept,
        plain: arrivals_plain,
        proved: arrivals_proved,
        as_named: |block, place| matches!(answer(block, place), Ok(Arrival::Accepted(_))),
    },
    Call {
        name: "arrival, refused by 9",
        block: replies::to_refuse,
        plain: arrivals_plain,
        proved: arrivals_proved,
        as_named: |block, place| answer(block, place) == Err(Refusal::OriginateDiffers),
    },
    Call {
        name: "arrival, half kisses",
        block: replies::to_kiss,
        plain: arrivals_plain,
        proved: arrivals_proved,
        as_named: |block, place| answer(block, place).is_ok(),
    },
];

pub fn table(sizes: &[usize], rounds: usize) -> Result<(), Difference> {
    let mut table = Table::new("Client's calls", &HEADER);
    for (call, size) in cells(sizes) {
        let times = run(call, size, rounds)?;
        table.add(row(call.name, size, &times));
    }
    table.print();
    Ok(())
}

fn cells(sizes: &[usize]) -> impl Iterator<Item = (&'static Call, usize)> {
    let of_call = |call| sizes.iter().map(move |&size| (call, size));
    CALLS.iter().flat_map(of_call)
}

fn run(call: &Call, size: usize, rounds: usize) -> Result<Times, Difference> {
    let cell = format!("{}, {size} packets", call.name);
    let mut block = (call.block)(size);
    compare_places(&cell, call, &block)?;
    compare_blocks(&cell, call, &block)?;
    Ok(measure(
        &mut block,
        size,
        rounds,
        LONG,
        &[call.proved, call.plain],
    ))
}

/// Compares the results of blocks of one packet, so that a place can be named and no two
/// differences cancel each other.
fn compare_places(cell: &str, call: &Call, block: &ClientBlock) -> Result<(), Difference> {
    let places = 0..block.size();
    let of = |side: Side<ClientBlock>| {
        let result = |place| side(&mut block.only(place));
        places.clone().map(result).collect::<Vec<u64>>()
    };
    let named = |place| (call.as_named)(block, place);
    let named: Vec<bool> = places.clone().map(named).collect();
    compare(
        cell,
        "intended answer",
        1,
        &named,
        &vec![true; block.size()],
    )?;
    compare(cell, "result", 1, &of(call.proved), &of(call.plain))
}

fn compare_blocks(cell: &str, call: &Call, block: &ClientBlock) -> Result<(), Difference> {
    let (mut by_proved, mut by_plain) = (block.clone(), block.clone());
    let result = (call.proved)(&mut by_proved);
    let expected = (call.plain)(&mut by_plain);
    compare_whole(cell, "result", result, expected)?;
    compare(
        cell,
        "octets",
        LENGTH,
        &by_proved.packets,
        &by_plain.packets,
    )
}

fn arrivals_plain(block: &mut ClientBlock) -> u64 {
    client_blocks::arrival(block, &PLAIN)
}

fn arrivals_proved(block: &mut ClientBlock) -> u64 {
    client_blocks::arrival(block, &PROVED)
}

fn answer(block: &ClientBlock, place: usize) -> Result<Arrival, Refusal> {
    let packet = &block.packets[LENGTH * place..LENGTH * (place + 1)];
    let t4 = Timestamp(block.times[place]);
    let answer = block.client.arrival(packet, t4, block.alternate);
    answer.map(|(arrival, _)| arrival)
}

fn row(name: &str, size: usize, times: &Times) -> Vec<String> {
    let mut row = vec![name.to_string(), count(size)];
    row.extend(times.compared(0, 1));
    row
}
