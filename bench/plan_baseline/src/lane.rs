// A lane of rounds of prices.

use crate::draft::Chosen;
use crate::rows::Rows;
use crate::snapshot::{Op, Snapshot};

pub struct Lane<'a> {
    of: &'a Snapshot,
    rows: &'a [Rows],
    table: Vec<i64>,
    uses: Vec<u32>,
    nets: Vec<i64>,
    demand: Vec<u64>,
    greatest: u64,
    pub prices: Vec<i64>,
    pub quota_prices: Vec<u32>,
    /// What telescopes start at the prices, by telescope, then slice.
    pub chosen: Vec<Chosen>,
}

impl<'a> Lane<'a> {
    pub fn new(of: &'a Snapshot, rows: &'a [Rows]) -> Self {
        let requests = of.requests.len();
        Lane {
            of,
            rows,
            table: vec![0; of.slices as usize + 1],
            uses: vec![0; requests],
            nets: vec![0; requests],
            demand: vec![0; of.quotas.len()],
            greatest: of.requests.iter().map(|of| of.value).max().unwrap_or(0),
            prices: vec![0; requests],
            quota_prices: vec![0; of.quotas.len()],
            chosen: Vec::with_capacity(of.telescopes.len() * of.slices as usize),
        }
    }

    pub fn begin(&mut self) {
        self.prices.fill(0);
        self.quota_prices.fill(0);
    }

    /// Solves all telescopes at the prices. The answer is the bound that they give.
    pub fn solve(&mut self) -> u64 {
        self.chosen.clear();
        self.uses.fill(0);
        let mut bests = 0;
        for (telescope, rows) in self.rows.iter().enumerate() {
            bests += rows.fill(&self.prices, &mut self.table);
            rows.walk(&self.prices, &self.table, |place, row| {
                self.uses[usize::from(place)] += 1;
                self.chosen.push(Chosen {
                    telescope: telescope as u16,
                    slice: self.of.first as u32 + row as u32,
                    place,
                });
            });
        }
        self.write_nets();
        let rebates: i64 = (0..self.of.groups.len())
            .map(|group| self.rebate(group))
            .sum();
        let quotas = self.of.quotas.iter().zip(&self.quota_prices);
        let quotas: u64 = quotas.map(|(quota, price)| quota * u64::from(*price)).sum();
        (bests + rebates) as u64 + quotas
    }

    fn write_nets(&mut self) {
        for group in &self.of.groups {
            let price = group
                .quota
                .map_or(0, |quota| i64::from(self.quota_prices[quota]));
            for place in group.requests.clone() {
                self.nets[place] =
                    self.prices[place] - price * self.of.requests[place].seconds as i64;
            }
        }
    }

    fn rebate(&self, group: usize) -> i64 {
        let group = &self.of.groups[group];
        let nets = self.nets[group.requests.clone()].iter();
        match group.op {
            Op::Single | Op::Many => nets.map(|net| (*net).max(0)).sum(),
            Op::OneOf => nets.fold(0, |best, net| best.max(*net)),
            Op::And => nets.sum::<i64>().max(0),
        }
    }

    /// Which requests of a group its choice takes: all whose net price is above 0, one of them, or all.
    fn takes(&self, group: usize) -> impl Fn(usize) -> bool + '_ {
        let group = &self.of.groups[group];
        let nets = &self.nets;
        let mine = group.requests.clone();
        let best = mine.clone().fold(0, |best, place| nets[place].max(best));
        let first = mine.clone().find(|place| nets[*place] == best && best > 0);
        let sum: i64 = nets[mine].iter().sum();
        let op = group.op;
        move |place| match op {
            Op::Single | Op::Many => nets[place] > 0,
            Op::OneOf => Some(place) == first,
            Op::And => sum > 0,
        }
    }

    /// Moves the prices on after a round, of which this is the number.
    pub fn advance(&mut self, lane: u32, round: u32) {
        let step = (self.greatest / ((1 << lane) * u64::from(round + 1))).max(1) as i64;
        self.demand.fill(0);
        for group in 0..self.of.groups.len() {
            let part = &self.of.groups[group];
            for place in part.requests.clone() {
                let taken = self.takes(group)(place);
                if let (true, Some(quota)) = (taken, part.quota) {
                    self.demand[quota] += self.of.requests[place].seconds;
                }
                self.prices[place] += match self.uses[place].cmp(&u32::from(taken)) {
                    std::cmp::Ordering::Greater => step,
                    std::cmp::Ordering::Less => -step,
                    std::cmp::Ordering::Equal => 0,
                };
            }
        }
        self.move_quota_prices((step / 3_600).max(1) as u32);
    }

    fn move_quota_prices(&mut self, step: u32) {
        for (quota, price) in self.quota_prices.iter_mut().enumerate() {
            if self.demand[quota] > self.of.quotas[quota] {
                *price = (*price + step).min(200_000);
            } else if self.demand[quota] < self.of.quotas[quota] {
                *price = price.saturating_sub(step);
            }
        }
    }
}
