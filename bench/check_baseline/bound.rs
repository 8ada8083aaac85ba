// What starts are worth, and the bound that prices give.

use crate::parts::{FIRST, Group, LEN, Op, Placement, Request, SLICES, Snapshot};
use crate::sky::Telescope;
use crate::spans::Span;

pub fn worth_of(snapshot: &Snapshot, placement: Placement) -> u64 {
    let (_, request) = snapshot.known(placement.request);
    let delay = u64::from(placement.slice).saturating_sub(earliest_of(request));
    faded(u64::from(request.value), u64::from(request.fade), delay)
}

fn earliest_of(request: &Request) -> u64 {
    request
        .windows
        .iter()
        .map(|window| window.from)
        .min()
        .unwrap_or(0)
        .div_ceil(LEN)
}

fn faded(value: u64, fade: u64, delay: u64) -> u64 {
    value
        .saturating_sub(value * fade * delay.min(1_000) / 1_000)
        .max(1)
}

pub fn bound_of(snapshot: &Snapshot, prices: &[i64], quota_prices: &[u32]) -> u64 {
    let bests: i64 = (0..snapshot.telescopes.len())
        .map(|telescope| best_of(snapshot, telescope, prices))
        .sum();
    let rebates: i64 = snapshot
        .groups
        .iter()
        .map(|group| rebate_of(snapshot, group, prices, quota_prices))
        .sum();
    let quotas: u64 = snapshot
        .quotas
        .iter()
        .zip(quota_prices)
        .map(|(&quota, &price)| quota * u64::from(price))
        .sum();
    (bests + rebates) as u64 + quotas
}

fn rebate_of(snapshot: &Snapshot, group: &Group, prices: &[i64], quota_prices: &[u32]) -> i64 {
    let first = snapshot.place_of(group.requests[0].number).unwrap();
    let quota_price = match group.quota {
        Some(quota) => quota_prices.get(usize::from(quota)).copied().unwrap_or(0),
        None => 0,
    };
    let nets = group
        .requests
        .iter()
        .zip(&prices[first..first + group.requests.len()])
        .map(|(request, price)| price - i64::from(quota_price) * i64::from(request.seconds));
    match group.op {
        Op::Single | Op::Many => nets.map(|net| net.max(0)).sum(),
        Op::OneOf => nets.fold(0, i64::max),
        Op::And => nets.sum::<i64>().max(0),
    }
}

#[derive(Clone, Copy)]
pub struct Start {
    pub weight: i64,
    pub after: usize,
}

fn best_of(snapshot: &Snapshot, telescope: usize, prices: &[i64]) -> i64 {
    let rows = starts_of(snapshot, telescope, prices);
    let mut table = vec![0; rows.len() + 1];
    for slice in (0..rows.len()).rev() {
        let mut best = table[slice + 1];
        for start in &rows[slice] {
            best = best.max(start.weight + table[start.after]);
        }
        table[slice] = best;
    }
    table[0]
}

/// The possible starts of a telescope, by slice.
pub fn starts_of(snapshot: &Snapshot, telescope: usize, prices: &[i64]) -> Vec<Vec<Start>> {
    let mut rows = vec![Vec::new(); SLICES];
    let part = &snapshot.telescopes[telescope];
    let mut views = Vec::new();
    for place in 0..snapshot.rows.len() {
        let request = snapshot.request_at(place);
        if !request.telescopes.contains(&(telescope as u16)) {
            continue;
        }
        views.clear();
        let all = request.targets.iter().all(|&target| {
            let view = snapshot.find_sky(target, part.site);
            views.extend(view);
            view.is_some()
        });
        if all {
            list_starts(snapshot, part, request, &views, prices[place], &mut rows);
        }
    }
    rows
}

fn list_starts(
    snapshot: &Snapshot,
    telescope: &Telescope,
    request: &Request,
    views: &[usize],
    price: i64,
    rows: &mut [Vec<Start>],
) {
    let seconds = u64::from(request.seconds);
    let size = seconds.div_ceil(LEN);
    let earliest = earliest_of(request);
    let stop = (FIRST + SLICES as u64 + 1).saturating_sub(size);
    let mut slice = FIRST;
    while slice < stop {
        let stretch = stretch_in_sight(snapshot, telescope, request, views, slice);
        let end = stretch.end.min(stop);
        if stretch.fits {
            for slice in slice..end {
                let row = (slice - FIRST) as usize;
                let delay = slice.saturating_sub(earliest);
                let worth = faded(u64::from(request.value), u64::from(request.fade), delay);
                rows[row].push(Start {
                    weight: worth as i64 - price,
                    after: row + size as usize,
                });
            }
        }
        slice = end;
    }
}

/// Slices in a row at which an observation fits, or doesn't, up to the one before `end`.
#[derive(Clone, Copy)]
struct Stretch {
    pub fits: bool,
    pub end: u64,
}

const NEVER: Stretch = Stretch {
    fits: false,
    end: u64::MAX,
};

fn stretch_in_sight(
    snapshot: &Snapshot,
    telescope: &Telescope,
    request: &Request,
    views: &[usize],
    slice: u64,
) -> Stretch {
    let seconds = u64::from(request.seconds);
    let window = stretch_in_any(&request.windows, seconds, slice);
    if !window.fits {
        return window;
    }
    let usable = stretch_in_sorted(&telescope.usable, seconds, slice);
    if !usable.fits {
        return usable;
    }
    let mut end = window.end.min(usable.end);
    for &view in views {
        let sky = stretch_in_sorted(&snapshot.skies[view].spans, seconds, slice);
        if !sky.fits {
            return sky;
        }
        end = end.min(sky.end);
    }
    Stretch { fits: true, end }
}

fn stretch_in_any(spans: &[Span], seconds: u64, slice: u64) -> Stretch {
    let mut end = u64::MAX;
    for &span in spans {
        let stretch = stretch_in(span, seconds, slice);
        if stretch.fits {
            return stretch;
        }
        end = end.min(stretch.end);
    }
    Stretch { fits: false, end }
}

fn stretch_in_sorted(spans: &[Span], seconds: u64, slice: u64) -> Stretch {
    let end = slice * LEN + seconds;
    match spans.get(spans.partition_point(|span| span.to < end)) {
        Some(&span) => stretch_in(span, seconds, slice),
        None => NEVER,
    }
}

fn stretch_in(span: Span, seconds: u64, slice: u64) -> Stretch {
    if span.to < slice * LEN + seconds {
        return NEVER;
    }
    let first = span.from.div_ceil(LEN);
    if slice < first {
        return Stretch {
            fits: false,
            end: first,
        };
    }
    Stretch {
        fits: true,
        end: (span.to - seconds) / LEN + 1,
    }
}
