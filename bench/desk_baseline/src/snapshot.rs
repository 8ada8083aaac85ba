// Snapshots and claims: what they hold, their possible starts, and their texts.

use crate::document::op_word;
use crate::read::{element, find, list, number, tuple, whole, Object, Read};
use crate::spans::{Span, Spans};
use serde_json::{json, Value};

#[derive(Clone, Copy, PartialEq, Eq, Debug)]
pub enum Op {
    Single,
    Many,
    OneOf,
    And,
}

#[derive(Clone)]
pub struct Telescope {
    pub site: u16,
    pub usable: Spans,
}

#[derive(Clone)]
pub struct Sky {
    pub target: u16,
    pub site: u16,
    pub spans: Spans,
}

#[derive(Clone)]
pub struct Request {
    pub number: u32,
    pub seconds: u64,
    pub value: u64,
    pub windows: Vec<Span>,
    pub telescopes: Vec<u16>,
    pub targets: Vec<u16>,
    pub fade: u64,
}

#[derive(Clone)]
pub struct Group {
    pub number: u32,
    pub op: Op,
    pub requests: std::ops::Range<usize>,
    pub quota: Option<usize>,
}

/// The requests stand in one list, each group has a range of it.
#[derive(Clone)]
pub struct Snapshot {
    pub version: u64,
    pub len: u64,
    pub first: u64,
    pub slices: u64,
    pub telescopes: Vec<Telescope>,
    pub skies: Vec<Sky>,
    pub groups: Vec<Group>,
    pub requests: Vec<Request>,
    pub group_of: Vec<usize>,
    pub quotas: Vec<u64>,
}

#[derive(Clone, Copy, PartialEq, Eq, Debug)]
pub struct Placement {
    pub request: u32,
    pub telescope: u16,
    pub slice: u64,
}

#[derive(Clone)]
pub struct Claim {
    pub placements: Vec<Placement>,
    pub prices: Vec<i64>,
    pub quota_prices: Vec<u32>,
    pub value: u64,
    pub bound: u64,
}

/// The slices from `first` to the one before `end`, from each of which a request may start on a telescope.
#[derive(Clone, Copy)]
pub struct Run {
    pub place: usize,
    pub telescope: u16,
    pub first: u64,
    pub end: u64,
}

impl Snapshot {
    pub fn size(&self, request: &Request) -> u64 {
        request.seconds.div_ceil(self.len)
    }

    pub fn place_of(&self, number: u32) -> Option<usize> {
        self.requests
            .binary_search_by_key(&number, |request| request.number)
            .ok()
    }

    pub fn quota_of(&self, place: usize) -> Option<usize> {
        self.groups[self.group_of[place]].quota
    }

    fn slices_in(&self, seconds: u64, span: Span) -> Span {
        let to = span
            .to
            .checked_sub(seconds)
            .map_or(0, |latest| latest / self.len + 1);
        Span {
            from: span.from.div_ceil(self.len),
            to,
        }
    }

    fn slices_in_all(&self, seconds: u64, spans: &[Span]) -> Spans {
        let slices: Vec<_> = spans
            .iter()
            .map(|span| self.slices_in(seconds, *span))
            .collect();
        Spans::from_list(&slices)
    }

    fn sky_of(&self, target: u16, site: u16) -> Option<&Sky> {
        let found = self
            .skies
            .binary_search_by_key(&(target, site), |sky| (sky.target, sky.site));
        found.ok().map(|place| &self.skies[place])
    }

    fn slices_on(&self, request: &Request, telescope: &Telescope, timely: &Spans) -> Spans {
        let mut left = timely.meet(&self.slices_in_all(request.seconds, &telescope.usable.items));
        for target in &request.targets {
            left = match self.sky_of(*target, telescope.site) {
                Some(sky) => left.meet(&self.slices_in_all(request.seconds, &sky.spans.items)),
                None => Spans::default(),
            };
        }
        left
    }

    /// All runs of possible starts, by request, telescope and slice.
    pub fn runs(&self) -> Vec<Run> {
        let mut runs = Vec::new();
        for (place, request) in self.requests.iter().enumerate() {
            let end = (self.first + self.slices + 1).saturating_sub(self.size(request));
            let within = Spans::from_list(&[Span {
                from: self.first,
                to: end,
            }]);
            let timely = within.meet(&self.slices_in_all(request.seconds, &request.windows));
            for number in &request.telescopes {
                let telescope = &self.telescopes[usize::from(*number)];
                for span in &self.slices_on(request, telescope, &timely).items {
                    runs.push(Run {
                        place,
                        telescope: *number,
                        first: span.from,
                        end: span.to,
                    });
                }
            }
        }
        runs
    }

    pub fn is_possible(&self, place: usize, telescope: u16, slice: u64) -> bool {
        let request = &self.requests[place];
        let inside = self.first <= slice && slice + self.size(request) <= self.first + self.slices;
        if !inside || !request.telescopes.contains(&telescope) {
            return false;
        }
        let telescope = &self.telescopes[usize::from(telescope)];
        let (from, to) = (slice * self.len, slice * self.len + request.seconds);
        let has = |spans: &[Span]| spans.iter().any(|span| span.from <= from && to <= span.to);
        let sees = |target: &u16| {
            self.sky_of(*target, telescope.site)
                .is_some_and(|sky| has(&sky.spans.items))
        };
        has(&request.windows) && has(&telescope.usable.items) && request.targets.iter().all(sees)
    }

    /// What a start of a request is worth at a slice.
    pub fn worth(&self, place: usize, slice: u64) -> u64 {
        let request = &self.requests[place];
        let from = request
            .windows
            .iter()
            .map(|window| window.from)
            .min()
            .unwrap_or(0);
        let delay = slice.saturating_sub(from.div_ceil(self.len)).min(1_000);
        request
            .value
            .saturating_sub(request.value * request.fade * delay / 1_000)
            .max(1)
    }

    pub fn value_of(&self, placements: &[Placement]) -> u64 {
        let worth = |p: &Placement| {
            self.place_of(p.request)
                .map_or(0, |place| self.worth(place, p.slice))
        };
        placements.iter().map(worth).sum()
    }
}

fn pairs(spans: &[Span]) -> Value {
    spans
        .iter()
        .map(|span| json!([span.from, span.to]))
        .collect()
}

fn write_request(of: &Request) -> Value {
    let mut out = json!({
        "request": of.number, "seconds": of.seconds, "targets": of.targets, "telescopes": of.telescopes,
        "value": of.value, "windows": pairs(&of.windows),
    });
    if of.fade > 0 {
        out["fade"] = of.fade.into();
    }
    out
}

fn write_group(of: &Group, requests: &[Request]) -> Value {
    let mut out = json!({
        "group": of.number, "operator": op_word(of.op),
        "requests": requests[of.requests.clone()].iter().map(write_request).collect::<Vec<_>>(),
    });
    if let Some(quota) = of.quota {
        out["quota"] = quota.into();
    }
    out
}

pub fn write_snapshot(of: &Snapshot) -> Value {
    let skies = of.skies.iter().map(
        |sky| json!({"site": sky.site, "spans": pairs(&sky.spans.items), "target": sky.target}),
    );
    let telescopes = of
        .telescopes
        .iter()
        .map(|one| json!({"site": one.site, "usable": pairs(&one.usable.items)}));
    let mut out = json!({
        "first": of.first, "len": of.len, "slices": of.slices, "version": of.version,
        "groups": of.groups.iter().map(|group| write_group(group, &of.requests)).collect::<Vec<_>>(),
        "skies": skies.collect::<Vec<_>>(), "telescopes": telescopes.collect::<Vec<_>>(),
    });
    if !of.quotas.is_empty() {
        out["quotas"] = json!(of.quotas);
    }
    out
}

pub fn write_claim(of: &Claim) -> Value {
    let placements = of
        .placements
        .iter()
        .map(|p| json!([p.request, p.telescope, p.slice]));
    let mut out = json!({
        "bound": of.bound, "placements": placements.collect::<Vec<_>>(), "prices": of.prices, "value": of.value,
    });
    if !of.quota_prices.is_empty() {
        out["format"] = 2.into();
        out["quota_prices"] = json!(of.quota_prices);
    }
    out
}

fn placement(value: &Value) -> Read<Placement> {
    let triple = tuple(value, "placements", 3)?;
    let at = |place: usize, most| number(&triple[place], "placements", 0, most);
    Ok(Placement {
        request: at(0, 4_294_967_295)? as u32,
        telescope: at(1, 65_535)? as u16,
        slice: at(2, 4_294_967_295)? as u64,
    })
}

pub fn read_claim(of: &Object) -> Read<Claim> {
    const MOST: i64 = 1_000_000_000_000_000;
    let second = find(of, "format").is_some();
    if second {
        whole(of, "format", 2, 2)?;
    }
    let placements = list(of, "placements", 0, 4_096)?
        .iter()
        .map(placement)
        .collect::<Read<_>>()?;
    let price = |value| number(value, "prices", -MOST, MOST);
    let prices = list(of, "prices", 0, 4_096)?
        .iter()
        .map(price)
        .collect::<Read<_>>()?;
    let mut quota_prices = Vec::new();
    if second {
        for value in list(of, "quota_prices", 1, 1_024)? {
            quota_prices.push(number(value, "quota_prices", 0, 1_000_000_000)? as u32);
        }
    }
    let value = whole(of, "value", 0, 1_000_000_000_000)? as u64;
    let bound = whole(of, "bound", 0, 100_000_000_000_000_000)? as u64;
    Ok(Claim {
        placements,
        prices,
        quota_prices,
        value,
        bound,
    })
}

/// The claim of a `publish` line.
pub fn read_claim_member(of: &Object) -> Read<Claim> {
    read_claim(element(crate::read::need(of, "claim")?, "claim")?)
}
