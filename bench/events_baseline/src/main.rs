// Lines read as commands, and entries written as text, in plain Rust with serde_json, as bench/events times the crate
// desk_events. Without a word standard input is lines that are read. With one it is a document, whose claim and snapshot
// are entries that are written, beside others: with the word `value` by way of serde_json's Value, else by Serialize.

#[path = "../../desk_baseline/src/command.rs"]
#[allow(dead_code)]
mod command;
#[path = "../../desk_baseline/src/document.rs"]
#[allow(dead_code)]
mod document;
#[path = "../../desk_baseline/src/ledger.rs"]
#[allow(dead_code)]
mod ledger;
#[path = "../../desk_baseline/src/network.rs"]
#[allow(dead_code)]
mod network;
#[path = "../../desk_baseline/src/read.rs"]
#[allow(dead_code)]
mod read;
#[path = "../../desk_baseline/src/snapshot.rs"]
#[allow(dead_code)]
mod snapshot;
#[path = "../../plain/snapshot_document.rs"]
mod snapshot_document;
#[path = "../../plain/spans.rs"]
mod spans;

mod as_serialize;
mod as_value;
mod entry;

use entry::{entry, mixed, Entry, Reply};
use std::hint::black_box;
use std::io::Read as _;
use std::time::Instant;

const TURNS: u32 = 500;
/// As many for what takes longer.
const FEW_TURNS: u32 = 50;

/// The least number of nanoseconds that one of many turns takes.
fn least(turns: u32, mut turn: impl FnMut()) -> u128 {
    let time = |_| {
        let start = Instant::now();
        turn();
        start.elapsed().as_nanos()
    };
    (0..turns).map(time).min().unwrap()
}

fn read_lines(bytes: &[u8]) {
    let lines: Vec<_> = bytes.split_inclusive(|byte| *byte == b'\n').collect();
    let lines: Vec<_> = lines.iter().map(|line| line.trim_ascii_end()).collect();
    let read = || {
        lines
            .iter()
            .filter(|line| black_box(command::read_command(line)).is_ok())
            .count()
    };
    eprintln!("{} of {} lines are commands", read(), lines.len());
    let time = least(TURNS, || {
        black_box(read());
    });
    println!("reading {time}");
}

fn sum_of(text: &[u8]) -> u64 {
    text.iter().fold(0, |sum: u64, byte| {
        sum.wrapping_mul(31).wrapping_add(u64::from(*byte))
    })
}

/// Writes the entries so many times in a turn.
fn time_writing(
    name: &str,
    entries: &[Entry],
    times: usize,
    turns: u32,
    write: fn(&Entry, &mut Vec<u8>),
) {
    let mut text = Vec::new();
    entries.iter().for_each(|entry| write(entry, &mut text));
    eprintln!("{} bytes, sum {}", text.len(), sum_of(&text));
    let time = least(turns, || {
        text.clear();
        for _ in 0..times {
            entries.iter().for_each(|entry| write(entry, &mut text));
        }
        black_box(&text);
    });
    println!("writing_{name} {time}");
}

fn write_entries(bytes: &[u8], write: fn(&Entry, &mut Vec<u8>)) {
    let snapshot = snapshot_document::read_snapshot(bytes).unwrap();
    let document = read::parse(bytes).unwrap();
    let claim = || snapshot::read_claim_member(&document).unwrap();
    time_writing("mixed_entries", &mixed(), 50, TURNS, write);
    let published = [entry(Reply::Published(claim()))];
    time_writing("a_published_claim", &published, 1, TURNS, write);
    let exported = [entry(Reply::Exported(claim(), snapshot))];
    time_writing("an_export", &exported, 1, FEW_TURNS, write);
}

fn main() {
    let mut bytes = Vec::new();
    std::io::stdin().read_to_end(&mut bytes).unwrap();
    match std::env::args().nth(1).as_deref() {
        None => read_lines(&bytes),
        Some("value") => write_entries(&bytes, as_value::write),
        Some(_) => write_entries(&bytes, as_serialize::write),
    }
}
