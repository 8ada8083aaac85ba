// Sets of seconds as in the crate interval_set, in plain Rust, timed as bench/spans times that crate.

#[path = "../plain/spans.rs"]
mod spans;

use spans::{Span, Spans};
use std::hint::black_box;
use std::time::Instant;

const SPANS: u64 = 100_000;
const ROUNDS: u128 = 50;

fn every_four(first: u64) -> Spans {
    let list: Vec<Span> = (0..SPANS)
        .map(|place| Span {
            from: first + 4 * place,
            to: first + 4 * place + 2,
        })
        .collect();
    Spans::from_list(&list)
}

fn main() {
    let one = black_box(every_four(0));
    let other = black_box(every_four(1));
    let start = Instant::now();
    for _ in 0..ROUNDS {
        black_box(one.union(&other));
    }
    println!("union {}", start.elapsed().as_nanos() / ROUNDS);
    let start = Instant::now();
    for _ in 0..ROUNDS {
        black_box(one.minus(&other));
    }
    println!("minus {}", start.elapsed().as_nanos() / ROUNDS);
}
