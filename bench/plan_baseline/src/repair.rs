// The greedy plan, and plans that are repaired from what telescopes start.

use crate::draft::{Chosen, Draft};
use crate::snapshot::{Op, Run, Snapshot};
use std::cmp::Reverse;

/// What a request's starts are worth.
struct Offer {
    value: u64,
    fade: u64,
    /// The slice from which on it fades.
    earliest: u64,
}

impl Offer {
    fn new(of: &Snapshot, place: usize) -> Self {
        let request = &of.requests[place];
        let from = request.windows.iter().map(|window| window.from).min();
        Offer {
            value: request.value,
            fade: request.fade,
            earliest: from.unwrap_or(0).div_ceil(of.len),
        }
    }

    fn worth(&self, slice: u32) -> u32 {
        if self.fade == 0 {
            return self.value as u32;
        }
        let delay = u64::from(slice).saturating_sub(self.earliest).min(1_000);
        let lost = self.value * self.fade * delay / 1_000;
        self.value.saturating_sub(lost).max(1) as u32
    }
}

pub struct Repairer<'a> {
    of: &'a Snapshot,
    offers: Vec<Offer>,
    /// The runs of each request.
    runs: Vec<&'a [Run]>,
    /// The groups by falling worth.
    groups: Vec<usize>,
    /// The members of each group in the order in which they are tried.
    members: Vec<Vec<usize>>,
    /// Whether each request is one of an AND.
    is_of_and: Vec<bool>,
    pub draft: Draft<'a>,
    firsts: Vec<Option<Chosen>>,
    ranked: Vec<(Reverse<u32>, u16, u32)>,
}

fn runs_of<'a>(of: &Snapshot, runs: &'a [Run]) -> Vec<&'a [Run]> {
    let mut rest = runs;
    let mut parts = Vec::new();
    for place in 0..of.requests.len() {
        let count = rest.partition_point(|run| run.place == place);
        let (mine, after) = rest.split_at(count);
        parts.push(mine);
        rest = after;
    }
    parts
}

fn worth_of(of: &Snapshot, group: usize) -> u64 {
    let values = of.requests[of.groups[group].requests.clone()]
        .iter()
        .map(|request| request.value);
    if of.groups[group].op == Op::OneOf {
        values.max().unwrap_or(0)
    } else {
        values.sum()
    }
}

fn members_of(of: &Snapshot, group: usize) -> Vec<usize> {
    let mut members: Vec<_> = of.groups[group].requests.clone().collect();
    if of.groups[group].op == Op::OneOf {
        members.sort_by_key(|place| Reverse(of.requests[*place].value));
    }
    members
}

impl<'a> Repairer<'a> {
    pub fn new(of: &'a Snapshot, runs: &'a [Run]) -> Self {
        let mut groups: Vec<_> = (0..of.groups.len()).collect();
        groups.sort_by_key(|group| Reverse(worth_of(of, *group)));
        let is_of_and = of
            .group_of
            .iter()
            .map(|group| of.groups[*group].op == Op::And);
        Repairer {
            of,
            offers: (0..of.requests.len())
                .map(|place| Offer::new(of, place))
                .collect(),
            runs: runs_of(of, runs),
            groups,
            members: (0..of.groups.len())
                .map(|group| members_of(of, group))
                .collect(),
            is_of_and: is_of_and.collect(),
            draft: Draft::new(of),
            firsts: vec![None; of.requests.len()],
            ranked: Vec::with_capacity(of.telescopes.len() * of.slices as usize),
        }
    }

    fn place(draft: &mut Draft, runs: &[Run], place: usize) -> bool {
        if !draft.fits_quota(place) {
            return false;
        }
        let found = draft.earliest(runs);
        if let Some(start) = found {
            draft.add(start);
        }
        found.is_some()
    }

    fn visit(&mut self, group: usize) {
        let (draft, runs) = (&mut self.draft, &self.runs);
        let members = &self.members[group];
        match self.of.groups[group].op {
            Op::Single | Op::Many => {
                for place in members {
                    if !draft.is_placed(*place) {
                        Self::place(draft, runs[*place], *place);
                    }
                }
            }
            _ if !draft.has_none_placed(group) => {}
            Op::OneOf => {
                members
                    .iter()
                    .any(|place| Self::place(draft, runs[*place], *place));
            }
            Op::And => {
                let count = draft.placed.len();
                if !members
                    .iter()
                    .all(|place| Self::place(draft, runs[*place], *place))
                {
                    draft.truncate(count);
                }
            }
        }
    }

    fn fill(&mut self) {
        loop {
            let before = self.draft.placed.len();
            for place in 0..self.groups.len() {
                self.visit(self.groups[place]);
            }
            if self.draft.placed.len() == before {
                return;
            }
        }
    }

    fn value(&self) -> u64 {
        self.draft
            .placed
            .iter()
            .map(|start| u64::from(self.offers[usize::from(start.place)].worth(start.slice)))
            .sum()
    }

    pub fn greedy(&mut self) -> u64 {
        self.draft.clear();
        self.fill();
        self.value()
    }

    fn note_firsts(&mut self, chosen: &[Chosen]) {
        self.firsts.fill(None);
        for start in chosen {
            self.firsts[usize::from(start.place)].get_or_insert(*start);
        }
    }

    fn add_wholes(&mut self) {
        for group in &self.of.groups {
            if group.op != Op::And {
                continue;
            }
            let count = self.draft.placed.len();
            for place in group.requests.clone() {
                match self.firsts[place] {
                    Some(start) if self.draft.can_add(start) => self.draft.add(start),
                    _ => {
                        self.draft.truncate(count);
                        break;
                    }
                }
            }
        }
    }

    /// Adds the starts of requests outside every AND by falling worth, then request, telescope and slice.
    fn add_others(&mut self, chosen: &[Chosen]) {
        self.ranked.clear();
        for (index, start) in chosen.iter().enumerate() {
            let place = usize::from(start.place);
            if !self.is_of_and[place] {
                let worth = self.offers[place].worth(start.slice);
                self.ranked
                    .push((Reverse(worth), start.place, index as u32));
            }
        }
        self.ranked.sort_unstable();
        for (_, _, index) in &self.ranked {
            let start = chosen[*index as usize];
            if self.draft.can_add(start) {
                self.draft.add(start);
            }
        }
    }

    /// Makes the plan of these starts, which are listed by telescope, then slice. The answer is its value.
    pub fn run(&mut self, chosen: &[Chosen]) -> u64 {
        self.note_firsts(chosen);
        self.draft.clear();
        self.add_wholes();
        self.add_others(chosen);
        self.fill();
        self.value()
    }
}
