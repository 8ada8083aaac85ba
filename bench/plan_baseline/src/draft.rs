// A plan that is built start by start, with a mark at each slot that it occupies: the slot after the last of the placement.

use crate::snapshot::{Op, Placement, Run, Snapshot};

/// A start of a request, by the request's place.
#[derive(Clone, Copy)]
pub struct Chosen {
    pub telescope: u16,
    pub slice: u32,
    pub place: u16,
}

/// What a draft has to know of a request.
struct Known {
    size: u32,
    seconds: u64,
    group: u32,
    /// Whether it is one of a ONEOF.
    is_alternative: bool,
    quota: Option<usize>,
}

pub struct Draft<'a> {
    of: &'a Snapshot,
    known: Vec<Known>,
    marks: Vec<u16>,
    is_placed: Vec<bool>,
    /// How many requests of each group are placed.
    counts: Vec<u32>,
    left: Vec<u64>,
    pub placed: Vec<Chosen>,
}

impl<'a> Draft<'a> {
    pub fn new(of: &'a Snapshot) -> Self {
        let known = (0..of.requests.len()).map(|place| Known {
            size: of.size(&of.requests[place]) as u32,
            seconds: of.requests[place].seconds,
            group: of.group_of[place] as u32,
            is_alternative: of.groups[of.group_of[place]].op == Op::OneOf,
            quota: of.quota_of(place),
        });
        Draft {
            of,
            known: known.collect(),
            marks: vec![0; of.telescopes.len() * of.slices as usize],
            is_placed: vec![false; of.requests.len()],
            counts: vec![0; of.groups.len()],
            left: of.quotas.clone(),
            placed: Vec::with_capacity(of.requests.len()),
        }
    }

    pub fn clear(&mut self) {
        self.marks.fill(0);
        self.is_placed.fill(false);
        self.counts.fill(0);
        self.left.copy_from_slice(&self.of.quotas);
        self.placed.clear();
    }

    pub fn is_placed(&self, place: usize) -> bool {
        self.is_placed[place]
    }

    pub fn has_none_placed(&self, group: usize) -> bool {
        self.counts[group] == 0
    }

    fn slots(&self, start: Chosen) -> std::ops::Range<usize> {
        let row = usize::from(start.telescope) * self.of.slices as usize;
        let from = row + start.slice as usize - self.of.first as usize;
        from..from + self.known[usize::from(start.place)].size as usize
    }

    pub fn fits_quota(&self, place: usize) -> bool {
        let known = &self.known[place];
        known
            .quota
            .is_none_or(|quota| known.seconds <= self.left[quota])
    }

    pub fn can_add(&self, start: Chosen) -> bool {
        let place = usize::from(start.place);
        let known = &self.known[place];
        !self.is_placed[place]
            && !(known.is_alternative && self.counts[known.group as usize] > 0)
            && self.fits_quota(place)
            && self.marks[self.slots(start)].iter().all(|mark| *mark == 0)
    }

    pub fn add(&mut self, start: Chosen) {
        let slots = self.slots(start);
        let end = slots.end as u16;
        self.marks[slots].fill(end);
        let place = usize::from(start.place);
        self.is_placed[place] = true;
        self.counts[self.known[place].group as usize] += 1;
        if let Some(quota) = self.known[place].quota {
            self.left[quota] -= self.known[place].seconds;
        }
        self.placed.push(start);
    }

    pub fn truncate(&mut self, count: usize) {
        while self.placed.len() > count {
            let start = self.placed.pop().unwrap();
            let slots = self.slots(start);
            self.marks[slots].fill(0);
            let place = usize::from(start.place);
            self.is_placed[place] = false;
            self.counts[self.known[place].group as usize] -= 1;
            if let Some(quota) = self.known[place].quota {
                self.left[quota] += self.known[place].seconds;
            }
        }
    }

    /// The first slice of a run, before another one, from which on its request is free. What a mark stands for is passed in one step.
    pub fn first_free(&self, run: &Run, before: u64) -> Option<u64> {
        let size = self.known[run.place].size as usize;
        let row = usize::from(run.telescope) * self.of.slices as usize;
        let mut from = row + (run.first - self.of.first) as usize;
        let end = row + (run.end.min(before).max(run.first) - self.of.first) as usize;
        'starts: while from < end {
            for slot in (from..from + size).rev() {
                if self.marks[slot] != 0 {
                    from = usize::from(self.marks[slot]);
                    continue 'starts;
                }
            }
            return Some(self.of.first + (from - row) as u64);
        }
        None
    }

    /// The earliest start of a request whose slices are free, on the lowest telescope.
    pub fn earliest(&self, runs: &[Run]) -> Option<Chosen> {
        let mut best: Option<Chosen> = None;
        for run in runs {
            let before = best.map_or(u64::MAX, |start| u64::from(start.slice));
            if let Some(slice) = self.first_free(run, before) {
                best = Some(Chosen {
                    telescope: run.telescope,
                    slice: slice as u32,
                    place: run.place as u16,
                });
            }
        }
        best
    }

    pub fn placements(&self) -> Vec<Placement> {
        let mut placements: Vec<_> = self
            .placed
            .iter()
            .map(|start| Placement {
                request: self.of.requests[usize::from(start.place)].number,
                telescope: start.telescope,
                slice: u64::from(start.slice),
            })
            .collect();
        placements.sort_unstable_by_key(|p| (p.telescope, p.slice));
        placements
    }
}
