// How long it takes to solve 32 telescopes, and to repair a plan.

use crate::draft::Chosen;
use crate::read::parse;
use crate::repair::Repairer;
use crate::rows::Rows;
use crate::snapshot::{read_claim_member, Run, Snapshot};
use std::hint::black_box;
use std::time::Instant;

const TURNS: u32 = 50;

/// The least number of nanoseconds that one of many turns takes.
fn least(mut turn: impl FnMut()) -> u128 {
    let time = |_| {
        let start = Instant::now();
        turn();
        start.elapsed().as_nanos()
    };
    (0..TURNS).map(time).min().unwrap()
}

/// Adds what a telescope starts at the prices. The answer is how long it takes to find that.
fn solve(
    of: &Snapshot,
    telescope: u16,
    runs: &[Run],
    prices: &[i64],
    chosen: &mut Vec<Chosen>,
) -> u128 {
    let rows = Rows::new(of, telescope, runs);
    let mut table = vec![0; of.slices as usize + 1];
    let mut mine = Vec::with_capacity(of.slices as usize);
    let time = least(|| {
        mine.clear();
        black_box(rows.fill(black_box(prices), &mut table));
        rows.walk(prices, &table, |place, row| {
            mine.push(Chosen {
                telescope,
                slice: of.first as u32 + row as u32,
                place,
            });
        });
    });
    chosen.extend(mine);
    time
}

fn time_at(name: &str, of: &Snapshot, prices: &[i64]) {
    let runs = of.runs();
    let mut chosen = Vec::new();
    let telescopes = 0..of.telescopes.len() as u16;
    let times = telescopes.map(|number| solve(of, number, &runs, prices, &mut chosen));
    println!("solving_at_{name} {}", times.sum::<u128>());
    let mut repairer = Repairer::new(of, &runs);
    let value = repairer.run(&chosen);
    eprintln!("{} starts, repaired to {value}", chosen.len());
    let time = least(|| {
        black_box(repairer.run(black_box(&chosen)));
    });
    println!("repairing_at_{name} {time}");
}

pub fn time_repair(bytes: &[u8], of: &Snapshot) {
    let claim = read_claim_member(&parse(bytes).unwrap()).unwrap();
    time_at("no_price", of, &vec![0; of.requests.len()]);
    time_at("prices", of, &claim.prices);
}
