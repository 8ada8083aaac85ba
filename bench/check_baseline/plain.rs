// The check of a claim, written plainly: a large snapshot and claim are made and checked, and checked a hundred times
// more for each word.

mod bound;
mod made;
mod parts;
#[path = "../plain/sky.rs"]
mod sky;
#[path = "../plain/spans.rs"]
mod spans;
mod verdict;

use bound::starts_of;
use std::hint::black_box;
use verdict::check;

const ROUNDS: usize = 100;

fn main() {
    let snapshot = made::snapshot();
    let claim = made::claim(&snapshot);
    let rounds = std::env::args().skip(1).count() * ROUNDS;
    for _ in 0..rounds {
        black_box(check(black_box(&snapshot), black_box(&claim))).unwrap();
    }
    let (value, bound) = check(&snapshot, &claim).unwrap();
    println!("yes {value} {bound}");
    let starts: usize = (0..snapshot.telescopes.len())
        .flat_map(|telescope| starts_of(&snapshot, telescope, &claim.prices))
        .map(|row| row.len())
        .sum();
    println!("{starts} possible starts");
}
