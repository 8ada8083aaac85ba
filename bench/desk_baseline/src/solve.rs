// Rounds of prices, greedy and repaired plans.

use crate::snapshot::{Claim, Op, Placement, Run, Snapshot};

/// A possible start on a telescope.
#[derive(Clone, Copy)]
struct Start {
    worth: u32,
    place: u16,
    after: u16,
}

/// The starts of each telescope by slice: those of row k lie between `ends[k - 1]` and `ends[k]`, by request.
pub struct Rows {
    telescopes: Vec<(Vec<Start>, Vec<usize>)>,
}

impl Rows {
    pub fn of(of: &Snapshot, runs: &[Run]) -> Self {
        let slices = of.slices as usize;
        let mut telescopes = Vec::new();
        for telescope in 0..of.telescopes.len() {
            let mine = || {
                runs.iter()
                    .filter(|run| usize::from(run.telescope) == telescope)
            };
            let mut ends = vec![0usize; slices + 1];
            for run in mine() {
                for slice in run.first..run.end {
                    ends[(slice - of.first) as usize + 1] += 1;
                }
            }
            for row in 0..slices {
                ends[row + 1] += ends[row];
            }
            let mut next = ends.clone();
            let mut starts = vec![
                Start {
                    worth: 0,
                    place: 0,
                    after: 0
                };
                ends[slices]
            ];
            for run in mine() {
                let size = of.size(&of.requests[run.place]);
                for slice in run.first..run.end {
                    let row = (slice - of.first) as usize;
                    let worth = of.worth(run.place, slice) as u32;
                    let after = (row as u64 + size) as u16;
                    starts[next[row]] = Start {
                        worth,
                        place: run.place as u16,
                        after,
                    };
                    next[row] += 1;
                }
            }
            telescopes.push((starts, ends));
        }
        Rows { telescopes }
    }
}

fn gain(start: &Start, prices: &[i64], table: &[i64]) -> i64 {
    i64::from(start.worth) - prices[usize::from(start.place)] + table[usize::from(start.after)]
}

fn fill(rows: &(Vec<Start>, Vec<usize>), prices: &[i64], table: &mut [i64]) -> i64 {
    let (starts, ends) = rows;
    let slices = ends.len() - 1;
    table[slices] = 0;
    for row in (0..slices).rev() {
        let best = starts[ends[row]..ends[row + 1]]
            .iter()
            .map(|start| gain(start, prices, table));
        table[row] = best.fold(table[row + 1], i64::max);
    }
    table[0]
}

fn walk(
    rows: &(Vec<Start>, Vec<usize>),
    prices: &[i64],
    table: &[i64],
    mut visit: impl FnMut(usize, u64),
) {
    let (starts, ends) = rows;
    let mut row = 0;
    while row + 1 < table.len() {
        if table[row] == table[row + 1] {
            row += 1;
            continue;
        }
        let found = starts[ends[row]..ends[row + 1]]
            .iter()
            .find(|start| gain(start, prices, table) == table[row]);
        let start = found.expect("a best is reached");
        visit(usize::from(start.place), row as u64);
        row = usize::from(start.after);
    }
}

fn net(of: &Snapshot, prices: &[i64], quota_prices: &[u32], place: usize) -> i64 {
    let cost = of
        .quota_of(place)
        .and_then(|quota| quota_prices.get(quota))
        .copied()
        .unwrap_or(0);
    prices[place] - i64::from(cost) * of.requests[place].seconds as i64
}

fn rebate(of: &Snapshot, group: usize, nets: &[i64]) -> i64 {
    let mine = &nets[of.groups[group].requests.clone()];
    match of.groups[group].op {
        Op::Single | Op::Many => mine.iter().map(|net| (*net).max(0)).sum(),
        Op::OneOf => mine.iter().fold(0, |best, net| best.max(*net)),
        Op::And => mine.iter().sum::<i64>().max(0),
    }
}

fn nets_of(of: &Snapshot, prices: &[i64], quota_prices: &[u32]) -> Vec<i64> {
    (0..prices.len())
        .map(|place| net(of, prices, quota_prices, place))
        .collect()
}

fn bound_of(of: &Snapshot, bests: i64, nets: &[i64], quota_prices: &[u32]) -> u64 {
    let rebates: i64 = (0..of.groups.len())
        .map(|group| rebate(of, group, nets))
        .sum();
    let quotas: u64 = of
        .quotas
        .iter()
        .zip(quota_prices)
        .map(|(quota, price)| quota * u64::from(*price))
        .sum();
    (bests + rebates) as u64 + quotas
}

pub fn bound_at(of: &Snapshot, rows: &Rows, prices: &[i64], quota_prices: &[u32]) -> u64 {
    let mut table = vec![0; of.slices as usize + 1];
    let bests = rows
        .telescopes
        .iter()
        .map(|one| fill(one, prices, &mut table))
        .sum();
    bound_of(of, bests, &nets_of(of, prices, quota_prices), quota_prices)
}

fn takes(of: &Snapshot, group: usize, nets: &[i64], place: usize) -> bool {
    let range = of.groups[group].requests.clone();
    let mine = &nets[range.clone()];
    match of.groups[group].op {
        Op::Single | Op::Many => nets[place] > 0,
        Op::OneOf => {
            let best = mine.iter().fold(0, |best, net| best.max(*net));
            best > 0 && mine.iter().position(|net| *net == best) == Some(place - range.start)
        }
        Op::And => mine.iter().sum::<i64>() > 0,
    }
}

/// A plan that is built start by start.
struct Build<'a> {
    of: &'a Snapshot,
    taken: Vec<bool>,
    placed: Vec<Option<(u16, u64)>>,
    order: Vec<usize>,
    left: Vec<u64>,
}

impl<'a> Build<'a> {
    fn new(of: &'a Snapshot) -> Self {
        Build {
            of,
            taken: vec![false; of.telescopes.len() * of.slices as usize],
            placed: vec![None; of.requests.len()],
            order: Vec::new(),
            left: of.quotas.clone(),
        }
    }

    fn slots(&self, place: usize, telescope: u16, slice: u64) -> std::ops::Range<usize> {
        let from =
            usize::from(telescope) * self.of.slices as usize + (slice - self.of.first) as usize;
        from..from + self.of.size(&self.of.requests[place]) as usize
    }

    fn is_free(&self, place: usize, telescope: u16, slice: u64) -> bool {
        !self.taken[self.slots(place, telescope, slice)].contains(&true) && self.fits_quota(place)
    }

    fn fits_quota(&self, place: usize) -> bool {
        self.of
            .quota_of(place)
            .is_none_or(|quota| self.of.requests[place].seconds <= self.left[quota])
    }

    fn has_placed(&self, group: usize) -> bool {
        self.of.groups[group]
            .requests
            .clone()
            .any(|place| self.placed[place].is_some())
    }

    fn can_add(&self, place: usize, telescope: u16, slice: u64) -> bool {
        let group = self.of.group_of[place];
        let open = self.of.groups[group].op != Op::OneOf || !self.has_placed(group);
        self.placed[place].is_none() && open && self.is_free(place, telescope, slice)
    }

    fn add(&mut self, place: usize, telescope: u16, slice: u64) {
        let slots = self.slots(place, telescope, slice);
        self.taken[slots].fill(true);
        self.placed[place] = Some((telescope, slice));
        self.order.push(place);
        if let Some(quota) = self.of.quota_of(place) {
            self.left[quota] -= self.of.requests[place].seconds;
        }
    }

    fn remove_last(&mut self) {
        let place = self.order.pop().expect("something was added");
        let (telescope, slice) = self.placed[place].take().expect("it was placed");
        let slots = self.slots(place, telescope, slice);
        self.taken[slots].fill(false);
        if let Some(quota) = self.of.quota_of(place) {
            self.left[quota] += self.of.requests[place].seconds;
        }
    }

    fn earliest(&self, runs: &[Run], place: usize) -> Option<(u16, u64)> {
        if !self.fits_quota(place) {
            return None;
        }
        let first = |run: &Run| {
            (run.first..run.end).find(|slice| self.is_free(place, run.telescope, *slice))
        };
        let found = runs
            .iter()
            .filter_map(|run| first(run).map(|slice| (slice, run.telescope)));
        found.min().map(|(slice, telescope)| (telescope, slice))
    }

    fn placements(&self) -> Vec<Placement> {
        let numbers = self.order.iter().map(|place| {
            let (telescope, slice) = self.placed[*place].expect("it is in order");
            Placement {
                request: self.of.requests[*place].number,
                telescope,
                slice,
            }
        });
        let mut placements: Vec<_> = numbers.collect();
        placements.sort_by_key(|p| (p.telescope, p.slice));
        placements
    }
}

/// The runs of each request, the groups by falling worth, and the members of each by falling value.
struct Filler<'a> {
    of: &'a Snapshot,
    runs: Vec<&'a [Run]>,
    groups: Vec<usize>,
    members: Vec<Vec<usize>>,
}

impl<'a> Filler<'a> {
    fn new(of: &'a Snapshot, runs: &'a [Run]) -> Self {
        let mut rest = runs;
        let mut parts = Vec::new();
        for place in 0..of.requests.len() {
            let count = rest.iter().take_while(|run| run.place == place).count();
            let (mine, after) = rest.split_at(count);
            parts.push(mine);
            rest = after;
        }
        let worth = |group: &usize| -> u64 {
            let values = of.groups[*group]
                .requests
                .clone()
                .map(|place| of.requests[place].value);
            if of.groups[*group].op == Op::OneOf {
                values.max().unwrap_or(0)
            } else {
                values.sum()
            }
        };
        let mut groups: Vec<_> = (0..of.groups.len()).collect();
        groups.sort_by_key(|group| (std::cmp::Reverse(worth(group)), *group));
        let members = of.groups.iter().map(|group| {
            let mut members: Vec<_> = group.requests.clone().collect();
            if group.op == Op::OneOf {
                members.sort_by_key(|place| (std::cmp::Reverse(of.requests[*place].value), *place));
            }
            members
        });
        Filler {
            of,
            runs: parts,
            groups,
            members: members.collect(),
        }
    }

    fn try_one(&self, build: &mut Build, place: usize) -> bool {
        let found = build.earliest(self.runs[place], place);
        if let Some((telescope, slice)) = found {
            build.add(place, telescope, slice);
        }
        found.is_some()
    }

    fn try_all(&self, build: &mut Build, group: usize) {
        let before = build.order.len();
        if !self.members[group]
            .iter()
            .all(|place| self.try_one(build, *place))
        {
            while build.order.len() > before {
                build.remove_last();
            }
        }
    }

    fn visit(&self, build: &mut Build, group: usize) {
        match self.of.groups[group].op {
            Op::Single | Op::Many => {
                for place in &self.members[group] {
                    if build.placed[*place].is_none() {
                        self.try_one(build, *place);
                    }
                }
            }
            _ if build.has_placed(group) => {}
            Op::OneOf => {
                self.members[group]
                    .iter()
                    .any(|place| self.try_one(build, *place));
            }
            Op::And => self.try_all(build, group),
        }
    }

    fn fill(&self, build: &mut Build) {
        loop {
            let before = build.order.len();
            for group in &self.groups {
                self.visit(build, *group);
            }
            if build.order.len() == before {
                return;
            }
        }
    }

    fn greedy(&self) -> Vec<Placement> {
        let mut build = Build::new(self.of);
        self.fill(&mut build);
        build.placements()
    }

    fn place_ands(&self, build: &mut Build, chosen: &[(u16, u64, usize)]) {
        for group in 0..self.of.groups.len() {
            if self.of.groups[group].op != Op::And {
                continue;
            }
            let first = |place: usize| chosen.iter().find(|start| start.2 == place);
            let starts: Option<Vec<_>> =
                self.of.groups[group].requests.clone().map(first).collect();
            let before = build.order.len();
            for (telescope, slice, place) in starts.unwrap_or_default() {
                if !build.can_add(*place, *telescope, *slice) {
                    while build.order.len() > before {
                        build.remove_last();
                    }
                    break;
                }
                build.add(*place, *telescope, *slice);
            }
        }
    }

    /// The repaired plan of canonical starts, which are listed by telescope, then slice.
    fn repair(&self, chosen: &[(u16, u64, usize)]) -> Vec<Placement> {
        let mut build = Build::new(self.of);
        self.place_ands(&mut build, chosen);
        let outside =
            |start: &&(u16, u64, usize)| self.of.groups[self.of.group_of[start.2]].op != Op::And;
        let mut starts: Vec<_> = chosen.iter().filter(outside).copied().collect();
        starts.sort_by_key(|(telescope, slice, place)| {
            (
                std::cmp::Reverse(self.of.worth(*place, *slice)),
                *place,
                *telescope,
                *slice,
            )
        });
        for (telescope, slice, place) in starts {
            if build.can_add(place, telescope, slice) {
                build.add(place, telescope, slice);
            }
        }
        self.fill(&mut build);
        build.placements()
    }
}

struct Best {
    value: u64,
    placements: Vec<Placement>,
    bound: u64,
    prices: Vec<i64>,
    quota_prices: Vec<u32>,
}

struct Lane<'a> {
    of: &'a Snapshot,
    rows: &'a Rows,
    tables: Vec<Vec<i64>>,
    prices: Vec<i64>,
    quota_prices: Vec<u32>,
}

impl Lane<'_> {
    /// The bound of the present prices and what starts at them.
    fn round(&mut self) -> (u64, Vec<(u16, u64, usize)>) {
        let mut bests = 0;
        let mut chosen = Vec::new();
        for (number, rows) in self.rows.telescopes.iter().enumerate() {
            bests += fill(rows, &self.prices, &mut self.tables[number]);
            walk(rows, &self.prices, &self.tables[number], |place, row| {
                chosen.push((number as u16, self.of.first + row, place));
            });
        }
        let nets = nets_of(self.of, &self.prices, &self.quota_prices);
        (bound_of(self.of, bests, &nets, &self.quota_prices), chosen)
    }

    fn advance(&mut self, chosen: &[(u16, u64, usize)], step: i64) {
        let mut uses = vec![0u32; self.prices.len()];
        chosen.iter().for_each(|start| uses[start.2] += 1);
        let nets = nets_of(self.of, &self.prices, &self.quota_prices);
        let mut demand = vec![0u64; self.of.quotas.len()];
        for place in 0..self.prices.len() {
            let taken = takes(self.of, self.of.group_of[place], &nets, place);
            if let (true, Some(quota)) = (taken, self.of.quota_of(place)) {
                demand[quota] += self.of.requests[place].seconds;
            }
            self.prices[place] += match uses[place].cmp(&u32::from(taken)) {
                std::cmp::Ordering::Greater => step,
                std::cmp::Ordering::Less => -step,
                std::cmp::Ordering::Equal => 0,
            };
        }
        let step = (step / 3_600).max(1) as u32;
        for (quota, price) in self.quota_prices.iter_mut().enumerate() {
            if demand[quota] > self.of.quotas[quota] {
                *price = (*price + step).min(200_000);
            } else if demand[quota] < self.of.quotas[quota] {
                *price = price.saturating_sub(step);
            }
        }
    }
}

/// The planned claim, or how many possible starts there are where they are too many.
pub fn solve(of: &Snapshot, lanes: u32, rounds: u32) -> Result<Claim, u64> {
    let runs = of.runs();
    let count = runs.iter().map(|run| run.end - run.first).sum();
    if count > 1_048_576 {
        return Err(count);
    }
    let rows = Rows::of(of, &runs);
    let filler = Filler::new(of, &runs);
    let greedy = filler.greedy();
    let mut best = Best {
        value: of.value_of(&greedy),
        placements: greedy,
        bound: u64::MAX,
        prices: Vec::new(),
        quota_prices: Vec::new(),
    };
    let greatest = of
        .requests
        .iter()
        .map(|request| request.value)
        .max()
        .unwrap_or(0);
    for lane in 0..lanes {
        if run_lane(of, &rows, &filler, &mut best, lane, rounds, greatest) {
            break;
        }
    }
    let Best {
        value,
        placements,
        bound,
        prices,
        quota_prices,
    } = best;
    Ok(Claim {
        placements,
        prices,
        quota_prices,
        value,
        bound,
    })
}

/// Makes the rounds of a lane; whether bound and value met.
fn run_lane(
    of: &Snapshot,
    rows: &Rows,
    filler: &Filler,
    best: &mut Best,
    lane: u32,
    rounds: u32,
    greatest: u64,
) -> bool {
    let mut work = Lane {
        of,
        rows,
        tables: vec![vec![0; of.slices as usize + 1]; of.telescopes.len()],
        prices: vec![0; of.requests.len()],
        quota_prices: vec![0; of.quotas.len()],
    };
    for round in 0..rounds {
        let (bound, chosen) = work.round();
        if bound < best.bound {
            best.bound = bound;
            best.prices.clone_from(&work.prices);
            best.quota_prices.clone_from(&work.quota_prices);
        }
        let plan = filler.repair(&chosen);
        let value = of.value_of(&plan);
        if value > best.value {
            best.value = value;
            best.placements = plan;
        }
        if best.bound == best.value {
            return true;
        }
        work.advance(
            &chosen,
            ((greatest / ((1 << lane) * u64::from(round + 1))) as i64).max(1),
        );
    }
    false
}
