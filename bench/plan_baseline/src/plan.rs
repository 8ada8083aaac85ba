// The planned claim of a snapshot: workers take lanes one at a time, and make their rounds until bound and value meet.

use crate::lane::Lane;
use crate::repair::Repairer;
use crate::rows::Rows;
use crate::snapshot::{Claim, Placement, Run, Snapshot};
use std::sync::atomic::{AtomicU32, AtomicU64, Ordering::SeqCst};

/// What workers share.
struct Board {
    bound: AtomicU64,
    value: AtomicU64,
    next_lane: AtomicU32,
}

impl Board {
    fn have_met(&self) -> bool {
        self.bound.load(SeqCst) == self.value.load(SeqCst)
    }
}

/// A number, and the lane and round that gave it first.
type At = (u64, u32, u32);

struct Found {
    bound: At,
    prices: Vec<i64>,
    quota_prices: Vec<u32>,
    value: At,
    placements: Vec<Placement>,
}

struct Task<'a> {
    of: &'a Snapshot,
    runs: &'a [Run],
    rows: &'a [Rows],
    lanes: u32,
    rounds: u32,
    greedy: u64,
}

impl Task<'_> {
    fn work(&self, board: &Board) -> Found {
        let mut lane = Lane::new(self.of, self.rows);
        let mut repairer = Repairer::new(self.of, self.runs);
        let mut found = Found {
            bound: (u64::MAX, 0, 0),
            prices: Vec::new(),
            quota_prices: Vec::new(),
            value: (self.greedy, 0, 0),
            placements: Vec::new(),
        };
        loop {
            let number = board.next_lane.fetch_add(1, SeqCst);
            if number >= self.lanes || board.have_met() {
                return found;
            }
            lane.begin();
            self.make_rounds(board, number, &mut lane, &mut repairer, &mut found);
        }
    }

    fn make_rounds(
        &self,
        board: &Board,
        number: u32,
        lane: &mut Lane,
        repairer: &mut Repairer,
        found: &mut Found,
    ) {
        for round in 0..self.rounds {
            let bound = lane.solve();
            if bound < found.bound.0 {
                found.bound = (bound, number, round);
                found.prices.clone_from(&lane.prices);
                found.quota_prices.clone_from(&lane.quota_prices);
            }
            let value = repairer.run(&lane.chosen);
            if value > found.value.0 {
                found.value = (value, number, round);
                found.placements = repairer.draft.placements();
            }
            board.bound.fetch_min(bound, SeqCst);
            board.value.fetch_max(value, SeqCst);
            if board.have_met() {
                return;
            }
            lane.advance(number, round);
        }
    }
}

/// What all have found, where the first of equals counts.
fn gathered(found: Vec<Found>, greedy: u64, placements: Vec<Placement>) -> Claim {
    let order = |(number, lane, round): At| (number, lane, round);
    let bound = found.iter().min_by_key(|found| order(found.bound)).unwrap();
    let best = found
        .iter()
        .filter(|found| found.value.0 > greedy)
        .min_by_key(|found| (u64::MAX - found.value.0, found.value.1, found.value.2));
    Claim {
        prices: bound.prices.clone(),
        quota_prices: bound.quota_prices.clone(),
        bound: bound.bound.0,
        value: best.map_or(greedy, |found| found.value.0),
        placements: best.map_or(placements, |found| found.placements.clone()),
    }
}

pub fn plan(of: &Snapshot, lanes: u32, rounds: u32, workers: usize) -> Claim {
    let runs = of.runs();
    let telescopes = 0..of.telescopes.len() as u16;
    let rows: Vec<_> = telescopes
        .map(|number| Rows::new(of, number, &runs))
        .collect();
    let mut repairer = Repairer::new(of, &runs);
    let greedy = repairer.greedy();
    let placements = repairer.draft.placements();
    let board = Board {
        bound: AtomicU64::new(u64::MAX),
        value: AtomicU64::new(greedy),
        next_lane: AtomicU32::new(0),
    };
    let task = Task {
        of,
        runs: &runs,
        rows: &rows,
        lanes,
        rounds,
        greedy,
    };
    let found = std::thread::scope(|scope| {
        let threads: Vec<_> = (0..workers)
            .map(|_| scope.spawn(|| task.work(&board)))
            .collect();
        threads
            .into_iter()
            .map(|thread| thread.join().unwrap())
            .collect()
    });
    gathered(found, greedy, placements)
}
