// The same rebates in plain Rust.
use std::hint::black_box;
use std::time::Instant;

const ROUNDS: u32 = 1_000;

enum Tree {
    Leaf(u32),
    Many(Vec<Tree>),
    OneOf(Vec<Tree>),
    And(Vec<Tree>),
}

/// The greatest sums over all choices, and over those that aren't empty.
#[derive(Clone, Copy)]
struct Greatest {
    any: i64,
    some: i64,
}

struct Forest {
    /// The numbers of the requests, in their order.
    requests: Vec<u32>,
    trees: Vec<Tree>,
}

fn beside_nothing(some: i64) -> Greatest {
    Greatest {
        any: some.max(0),
        some,
    }
}

impl Forest {
    fn sums_of(&self, tree: &Tree, prices: &[i64]) -> Greatest {
        match tree {
            Tree::Leaf(request) => {
                let place = self.requests.binary_search(request).unwrap();
                beside_nothing(prices[place])
            }
            Tree::Many(children) => children
                .iter()
                .map(|child| self.sums_of(child, prices))
                .reduce(|first, rest| Greatest {
                    any: first.any + rest.any,
                    some: (first.some + rest.any).max(first.any + rest.some),
                })
                .unwrap(),
            Tree::OneOf(children) => {
                let sums = children.iter().map(|child| self.sums_of(child, prices).some);
                beside_nothing(sums.max().unwrap())
            }
            Tree::And(children) => {
                let sums = children.iter().map(|child| self.sums_of(child, prices).some);
                beside_nothing(sums.sum())
            }
        }
    }

    fn rebates(&self, prices: &[i64]) -> i64 {
        self.trees
            .iter()
            .map(|tree| self.sums_of(tree, prices).any)
            .sum()
    }
}

struct Random {
    state: u64,
}

impl Random {
    fn below(&mut self, bound: u32) -> u32 {
        self.state = self
            .state
            .wrapping_mul(6_364_136_223_846_793_005)
            .wrapping_add(1_442_695_040_888_963_407);
        ((self.state >> 33) % u64::from(bound)) as u32
    }
}

/// The leaf at a place among all leaves, where requests of neighbors stand so many apart.
fn leaf(place: u32, apart: u32) -> Tree {
    Tree::Leaf(1 + place * apart % 1_024)
}

fn eight(first: u32, apart: u32) -> Tree {
    Tree::And((first..first + 8).map(|place| leaf(place, apart)).collect())
}

fn sixteen(first: u32, apart: u32) -> Tree {
    Tree::OneOf(vec![eight(first, apart), eight(first + 8, apart)])
}

fn thirty_two(first: u32, apart: u32) -> Tree {
    Tree::Many(vec![sixteen(first, apart), sixteen(first + 16, apart)])
}

/// Times the rebates of trees in which requests of neighbors stand so many apart.
fn time_rebates(name: &str, apart: u32) {
    let forest = Forest {
        requests: (1..=1_024).collect(),
        trees: (0..32).map(|tree| thirty_two(32 * tree, apart)).collect(),
    };
    let mut random = Random { state: 1 };
    let prices: Vec<i64> = (0..1_024)
        .map(|_| i64::from(random.below(100_000)) - 45_000)
        .collect();
    let start = Instant::now();
    let mut sum = 0i64;
    for _ in 0..ROUNDS {
        sum += black_box(&forest).rebates(black_box(&prices));
    }
    let time = start.elapsed().as_nanos() / u128::from(ROUNDS);
    println!("{name} {time}");
    eprintln!("{sum}");
}

fn main() {
    time_rebates("leaves_in_order", 1);
    time_rebates("leaves_in_no_order", 389);
}
