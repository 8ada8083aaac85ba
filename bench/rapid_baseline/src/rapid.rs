// A snapshot with a certified claim, into which groups are inserted.

use crate::bound::starts_of;
use crate::document::Fault;
use crate::faults;
use crate::parts::{Claim, Group, Op, Placement, Reason, Row, Snapshot};
use crate::seek::{earliest, has_start};
use crate::verdict::check;

pub struct Rapid {
    snapshot: Snapshot,
    claim: Claim,
    /// The best of each telescope at the claim's prices.
    bests: Vec<i64>,
    displaced: Vec<u32>,
}

/// A price for the last request, with the bests and the bound at it.
struct Pricing {
    price: i64,
    bests: Vec<i64>,
    bound: u64,
}

fn best_of(snapshot: &Snapshot, telescope: usize, prices: &[i64]) -> i64 {
    let rows = starts_of(snapshot, telescope, prices);
    let mut table = vec![0; rows.len() + 1];
    for slice in (0..rows.len()).rev() {
        let best = rows[slice]
            .iter()
            .map(|start| start.weight + table[start.after])
            .fold(table[slice + 1], i64::max);
        table[slice] = best;
    }
    table[0]
}

impl Rapid {
    pub fn new(snapshot: Snapshot, claim: Claim) -> Result<Rapid, Reason> {
        check(&snapshot, &claim)?;
        let bests = (0..snapshot.telescopes.len())
            .map(|telescope| best_of(&snapshot, telescope, &claim.prices))
            .collect();
        Ok(Rapid {
            snapshot,
            claim,
            bests,
            displaced: Vec::new(),
        })
    }

    /// Puts a group at the end of the snapshot.
    fn push(&mut self, group: Group) -> Result<(), Fault> {
        if group.op != Op::Single {
            return Err(Fault(51, ""));
        }
        let place = self.snapshot.groups.len();
        for (index, request) in group.requests.iter().enumerate() {
            self.snapshot.rows.push(Row {
                number: request.number,
                group: place,
                place: index,
            });
        }
        let count = group.requests.len();
        self.snapshot.groups.push(group);
        faults::first(&self.snapshot).inspect_err(|_| {
            self.snapshot.groups.pop();
            let rows = self.snapshot.rows.len() - count;
            self.snapshot.rows.truncate(rows);
        })
    }

    /// What follows from a price of the last request.
    fn priced(&self, price: i64) -> Pricing {
        let group = self.snapshot.groups.last().unwrap();
        let request = &group.requests[0];
        let mut prices = self.claim.prices.clone();
        prices.push(price);
        let may_gain = |telescope: u16| {
            price < i64::from(request.value)
                && request.telescopes.contains(&telescope)
                && has_start(&self.snapshot, request.number, telescope)
        };
        let bests: Vec<i64> = (0..self.bests.len())
            .map(|telescope| {
                if may_gain(telescope as u16) {
                    best_of(&self.snapshot, telescope, &prices)
                } else {
                    self.bests[telescope]
                }
            })
            .collect();
        let quota_price = (group.quota)
            .and_then(|quota| self.claim.quota_prices.get(usize::from(quota)))
            .map_or(0, |&price| i64::from(price));
        let rebate = (price - quota_price * i64::from(request.seconds)).max(0);
        let more = bests.iter().sum::<i64>() - self.bests.iter().sum::<i64>() + rebate;
        Pricing {
            price,
            bound: (self.claim.bound as i64 + more) as u64,
            bests,
        }
    }

    fn price(&self) -> Pricing {
        let value = self.snapshot.groups.last().unwrap().requests[0].value;
        let free = self.priced(0);
        if free.bound < self.claim.bound + u64::from(value) {
            return free;
        }
        self.priced(i64::from(value))
    }

    /// Puts the last request into the plan, where it has a place.
    fn place(&mut self) -> Option<Placement> {
        let found = earliest(&self.snapshot, &self.claim.placements);
        self.displaced.clear();
        let start = found.map(|found| {
            self.displaced
                .extend(found.gone.iter().map(|placement| placement.request));
            self.displaced.sort_unstable();
            self.claim.placements = found.kept;
            self.claim.placements.push(found.start);
            self.claim.value += found.gain;
            found.start
        });
        self.claim
            .placements
            .sort_by_key(|placement| (placement.telescope, placement.slice));
        start
    }

    /// Inserts a group of one request. Says where that is placed, if it is.
    pub fn insert(&mut self, group: Group) -> Result<Option<Placement>, Fault> {
        self.push(group)?;
        let pricing = self.price();
        let placed = self.place();
        self.claim.prices.push(pricing.price);
        self.claim.bound = pricing.bound;
        self.bests = pricing.bests;
        Ok(placed)
    }

    /// Writes a line of what an insertion has made: where the request is placed, its price, the value, the bound, and what was
    /// displaced.
    pub fn show(&self, placed: Option<Placement>) {
        match placed {
            Some(at) => print!("{} {} {}", at.request, at.telescope, at.slice),
            None => print!("nowhere"),
        }
        let price = self.claim.prices.last().unwrap();
        print!(" {price} {} {}", self.claim.value, self.claim.bound);
        for request in &self.displaced {
            print!(" {request}");
        }
        println!();
    }
}
