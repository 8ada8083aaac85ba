// A million claims, lowers and looks on atomic words in plain Rust, timed as bench/board times those of a board.

use std::sync::atomic::{AtomicU64, Ordering::SeqCst};
use std::time::Instant;

const CALLS: u64 = 1_000_000;
const ANSWERS: u64 = 1_000;

struct Board {
    bound: AtomicU64,
    counter: AtomicU64,
}

fn claim(board: &Board) -> u64 {
    let mut sum = 0u64;
    for _ in 0..CALLS {
        sum = sum.wrapping_add(board.counter.fetch_add(1, SeqCst));
    }
    sum
}

fn lower(board: &Board) -> u64 {
    let mut sum = 0u64;
    for bound in 0..CALLS {
        sum = sum.wrapping_add(board.bound.fetch_min(CALLS - bound, SeqCst));
    }
    sum
}

/// Writes each answer to a list, since a sum of them would take longer than the looks.
fn look(board: &Board, answers: &mut [u64]) {
    for answer in answers {
        *answer = board.bound.load(SeqCst);
    }
}

fn look_often(board: &Board, answers: &mut [u64]) {
    for _ in 0..CALLS / ANSWERS {
        look(board, answers);
    }
}

fn main() {
    let mut answers = vec![0u64; ANSWERS as usize];
    for _ in 0..20 {
        let board = Box::new(Board {
            bound: AtomicU64::new(u64::MAX),
            counter: AtomicU64::new(0),
        });
        let start = Instant::now();
        let claims = claim(&board);
        println!("claim {}", start.elapsed().as_nanos());
        let start = Instant::now();
        let lowers = lower(&board);
        println!("lower {}", start.elapsed().as_nanos());
        let start = Instant::now();
        look_often(&board, &mut answers);
        println!("look {}", start.elapsed().as_nanos());
        eprintln!("{claims} {lowers} {:?}", answers.last());
    }
}
