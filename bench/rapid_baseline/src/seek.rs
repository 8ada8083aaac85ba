// The earliest start of a new request that is worth more than all that has to go for it.

use crate::bound::worth_of;
use crate::parts::{Op, Placement, Snapshot, FIRST, LEN, SLICES};
use crate::spans::Span;

/// A placement, with what is asked of it again and again.
pub struct Held {
    pub placement: Placement,
    after: u64,
    and_place: Option<usize>,
    worth: u64,
    counted: u64,
}

/// A start that qualifies, what has to go for it, what can stay, and what it is worth beyond what has to go.
pub struct Found {
    pub start: Placement,
    pub gone: Vec<Placement>,
    pub kept: Vec<Placement>,
    pub gain: u64,
}

/// What is worked out of a placement, where a quota is looked at.
pub fn held_of(snapshot: &Snapshot, quota: Option<u16>, placement: Placement) -> Held {
    let (group, request) = snapshot.known(placement.request);
    let part = &snapshot.groups[group];
    Held {
        placement,
        after: u64::from(placement.slice) + u64::from(request.seconds).div_ceil(LEN),
        and_place: (part.op == Op::And).then_some(group),
        worth: worth_of(snapshot, placement),
        counted: if quota.is_some() && quota == part.quota {
            u64::from(request.seconds)
        } else {
            0
        },
    }
}

fn meets(a: &Held, b: &Held) -> bool {
    a.placement.telescope == b.placement.telescope
        && u64::from(a.placement.slice) < b.after
        && u64::from(b.placement.slice) < a.after
}

fn is_possible(snapshot: &Snapshot, start: Placement) -> bool {
    let (_, request) = snapshot.known(start.request);
    let slice = u64::from(start.slice);
    if slice + u64::from(request.seconds).div_ceil(LEN) > FIRST + SLICES as u64 {
        return false;
    }
    let telescope = &snapshot.telescopes[usize::from(start.telescope)];
    let from = slice * LEN;
    let to = from + u64::from(request.seconds);
    let covers = |span: &Span| span.from <= from && to <= span.to;
    let lies_in = |spans: &[Span]| {
        (spans.get(spans.partition_point(|span| span.to < to))).is_some_and(covers)
    };
    request.windows.iter().any(covers)
        && lies_in(&telescope.usable)
        && request.targets.iter().all(|&target| {
            let sky = snapshot.find_sky(target, telescope.site);
            sky.is_some_and(|sky| lies_in(&snapshot.skies[sky].spans))
        })
}

/// Whether the request has a possible start on the telescope.
pub fn has_start(snapshot: &Snapshot, request: u32, telescope: u16) -> bool {
    (FIRST..FIRST + SLICES as u64).any(|slice| {
        let start = Placement {
            request,
            telescope,
            slice: slice as u32,
        };
        is_possible(snapshot, start)
    })
}

/// The start, where it qualifies.
fn qualify(
    snapshot: &Snapshot,
    quota: Option<u16>,
    held: &[Held],
    start: Placement,
) -> Option<Found> {
    if !is_possible(snapshot, start) {
        return None;
    }
    let new = held_of(snapshot, quota, start);
    let mut flags = vec![false; snapshot.groups.len()];
    for other in held {
        if let Some(group) = other.and_place {
            if meets(&new, other) {
                flags[group] = true;
            }
        }
    }
    let goes =
        |other: &&Held| meets(&new, other) || other.and_place.is_some_and(|group| flags[group]);
    let lost: u64 = held.iter().filter(goes).map(|other| other.worth).sum();
    let counted: u64 = (held.iter().filter(|other| !goes(other)))
        .map(|other| other.counted)
        .sum();
    if lost >= new.worth {
        return None;
    }
    if quota.is_some_and(|quota| counted + new.counted > snapshot.quotas[usize::from(quota)]) {
        return None;
    }
    let placement = |other: &Held| other.placement;
    Some(Found {
        start,
        gone: held.iter().filter(goes).map(placement).collect(),
        kept: (held.iter().filter(|other| !goes(other)))
            .map(placement)
            .collect(),
        gain: new.worth - lost,
    })
}

/// The earliest start of the last request that qualifies, on the lowest telescope among equals.
pub fn earliest(snapshot: &Snapshot, plan: &[Placement]) -> Option<Found> {
    let group = snapshot.groups.last().unwrap();
    let request = &group.requests[0];
    let held: Vec<Held> = (plan.iter())
        .map(|&placement| held_of(snapshot, group.quota, placement))
        .collect();
    (FIRST..FIRST + SLICES as u64)
        .flat_map(|slice| {
            request
                .telescopes
                .iter()
                .map(move |&telescope| (slice, telescope))
        })
        .find_map(|(slice, telescope)| {
            let start = Placement {
                request: request.number,
                telescope,
                slice: slice as u32,
            };
            qualify(snapshot, group.quota, &held, start)
        })
}
