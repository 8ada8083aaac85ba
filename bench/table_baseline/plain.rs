// The best of one telescope at prices, what it starts and how often, as in the crate interval_solver, in plain Rust,
// timed as bench/table times that crate.

use std::hint::black_box;
use std::time::Instant;

const REQUESTS: u32 = 512;
const ROUNDS: u32 = 2_000;
const GREATEST: u32 = 100_000;
const SLICES: usize = 1_440;

struct Random {
    state: u64,
}

impl Random {
    fn below(&mut self, bound: u32) -> u32 {
        self.state = self
            .state
            .wrapping_mul(6_364_136_223_846_793_005)
            .wrapping_add(1_442_695_040_888_963_407);
        ((self.state >> 33) % u64::from(bound)) as u32
    }
}

#[derive(Clone, Copy)]
struct Placement {
    request: u32,
    telescope: u16,
    slice: u32,
}

#[derive(Clone, Copy)]
struct Start {
    request: u32,
    place: u32,
    worth: u32,
    /// The row of the slice after its last.
    after: u32,
}

struct Solver {
    rows: Vec<Vec<Start>>,
    table: Vec<i64>,
    starts: Vec<Placement>,
    places: Vec<u32>,
    counts: Vec<u32>,
}

/// The rows of requests of 1 to 4 slices, which may start for 64 slices.
fn rows() -> Vec<Vec<Start>> {
    let mut random = Random { state: 1 };
    let mut rows = vec![Vec::new(); SLICES];
    for request in 0..REQUESTS {
        let seconds = random.below(15) * 60 + 300;
        let value = random.below(GREATEST) + 1;
        let from = random.below(1_376);
        let fade = u64::from(random.below(10));
        let last = from + (64 * 300 - seconds) / 300;
        for slice in from..=last {
            let lost = u64::from(value) * fade * u64::from(slice - from) / 1_000;
            rows[slice as usize].push(Start {
                request,
                place: request,
                worth: value.saturating_sub(lost as u32).max(1),
                after: slice + seconds.div_ceil(300),
            });
        }
    }
    rows
}

fn gain(start: &Start, prices: &[i64], table: &[i64]) -> i64 {
    i64::from(start.worth) - prices[start.place as usize] + table[start.after as usize]
}

impl Solver {
    fn new() -> Self {
        Solver {
            rows: rows(),
            table: vec![0; SLICES + 1],
            starts: Vec::with_capacity(SLICES),
            places: Vec::with_capacity(SLICES),
            counts: vec![0; REQUESTS as usize],
        }
    }

    fn solve(&mut self, prices: &[i64]) -> i64 {
        self.table[SLICES] = 0;
        for slice in (0..SLICES).rev() {
            self.table[slice] = self.rows[slice]
                .iter()
                .map(|start| gain(start, prices, &self.table))
                .fold(self.table[slice + 1], i64::max);
        }
        self.walk(prices);
        self.table[0]
    }

    fn walk(&mut self, prices: &[i64]) {
        for place in self.places.drain(..) {
            self.counts[place as usize] -= 1;
        }
        self.starts.clear();
        let mut slice = 0;
        while slice < SLICES {
            let best = self.table[slice];
            if best == self.table[slice + 1] {
                slice += 1;
                continue;
            }
            let start = self.rows[slice]
                .iter()
                .find(|start| gain(start, prices, &self.table) == best)
                .unwrap();
            self.counts[start.place as usize] += 1;
            self.places.push(start.place);
            self.starts.push(Placement {
                request: start.request,
                telescope: 0,
                slice: slice as u32,
            });
            slice = start.after as usize;
        }
    }
}

/// The price after a round: up where the request starts more often than it is taken, down where less.
fn moved(price: i64, uses: u32, step: i64) -> i64 {
    let taken = u32::from(price > 0);
    match uses.cmp(&taken) {
        std::cmp::Ordering::Greater => price + step,
        std::cmp::Ordering::Less => price - step,
        std::cmp::Ordering::Equal => price,
    }
}

fn main() {
    let mut solver = Solver::new();
    let count: usize = solver.rows.iter().map(Vec::len).sum();
    let mut prices = vec![0i64; REQUESTS as usize];
    let mut sum = 0i64;
    let start = Instant::now();
    for round in 0..ROUNDS {
        let step = i64::from((GREATEST / (round + 1)).max(1));
        sum += solver.solve(&prices);
        for (price, uses) in prices.iter_mut().zip(&solver.counts) {
            *price = moved(*price, *uses, step);
        }
    }
    let time = start.elapsed().as_nanos() / u128::from(ROUNDS);
    for start in &solver.starts {
        black_box((start.request, start.telescope, start.slice));
    }
    println!("a_round_of_{count}_starts {time}");
    eprintln!("Some({sum})");
}
