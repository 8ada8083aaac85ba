// What is said of each request that a claim leaves out.

use super::chart::{chart_of, Chart};
use super::opening::openings_of;
use super::{earliest_of, faded, rebate_of};
use crate::parts::{Claim, Op, Placement, Request, Snapshot, FIRST, LEN};

pub struct Left {
    pub request: u32,
    pub starts: u64,
    pub blocking: Vec<Placement>,
    pub forced: Option<i64>,
}

pub fn lefts_of(snapshot: &Snapshot, claim: &Claim) -> Vec<Left> {
    let charts: Vec<Chart> = (0..snapshot.telescopes.len())
        .map(|telescope| chart_of(snapshot, telescope, &claim.prices))
        .collect();
    (0..snapshot.rows.len())
        .filter(|&place| {
            let number = snapshot.rows[place].number;
            claim.placements.iter().all(|p| p.request != number)
        })
        .map(|place| left_of(snapshot, claim, &charts, place))
        .collect()
}

fn left_of(snapshot: &Snapshot, claim: &Claim, charts: &[Chart], place: usize) -> Left {
    let request = snapshot.request_at(place);
    let size = u64::from(request.seconds).div_ceil(LEN) as usize;
    let openings = openings_of(snapshot, request);
    let mut starts = 0;
    let mut detour = None;
    for (flags, chart) in openings.iter().zip(charts) {
        let (count, through) = gains_of(request, claim.prices[place], size, flags, chart);
        starts += count;
        detour = detour.max(through.map(|through| through - chart.after[0]));
    }
    Left {
        request: request.number,
        starts,
        blocking: blocking_of(snapshot, &claim.placements, size, &openings),
        forced: detour.map(|detour| forced_of(snapshot, claim, place, detour)),
    }
}

/// How many starts a telescope has, and the most that it gives through one of them.
fn gains_of(
    request: &Request,
    price: i64,
    size: usize,
    flags: &[bool],
    chart: &Chart,
) -> (u64, Option<i64>) {
    let earliest = earliest_of(request);
    let mut starts = 0;
    let mut greatest = None;
    for (index, _) in flags.iter().enumerate().filter(|(_, flag)| **flag) {
        let delay = (FIRST + index as u64).saturating_sub(earliest);
        let worth = faded(u64::from(request.value), u64::from(request.fade), delay);
        let gain = chart.until[index] + worth as i64 - price + chart.after[index + size];
        starts += 1;
        greatest = greatest.max(Some(gain));
    }
    (starts, greatest)
}

/// The placements that share a slice with a start.
fn blocking_of(
    snapshot: &Snapshot,
    plan: &[Placement],
    size: usize,
    openings: &[Vec<bool>],
) -> Vec<Placement> {
    plan.iter()
        .filter(|placement| blocks(snapshot, placement, size, openings))
        .copied()
        .collect()
}

fn blocks(
    snapshot: &Snapshot,
    placement: &Placement,
    size: usize,
    openings: &[Vec<bool>],
) -> bool {
    let flags = &openings[usize::from(placement.telescope)];
    if flags.is_empty() {
        return false;
    }
    let seconds = u64::from(snapshot.known(placement.request).1.seconds);
    let slice = (u64::from(placement.slice) - FIRST) as usize;
    let to = (slice + seconds.div_ceil(LEN) as usize).min(flags.len());
    let from = (slice + 1).saturating_sub(size);
    from < to && flags[from..to].contains(&true)
}

fn forced_of(snapshot: &Snapshot, claim: &Claim, place: usize, detour: i64) -> i64 {
    let group = &snapshot.groups[snapshot.rows[place].group];
    let rebate = rebate_of(snapshot, group, &claim.prices, &claim.quota_prices);
    let quota_price = match group.quota {
        Some(quota) => claim.quota_prices.get(usize::from(quota)).copied().unwrap_or(0),
        None => 0,
    };
    let net_of = |request: &Request| {
        let place = snapshot.place_of(request.number).unwrap();
        claim.prices[place] - i64::from(quota_price) * i64::from(request.seconds)
    };
    let net = net_of(snapshot.request_at(place));
    let with = match group.op {
        Op::Single | Op::Many => rebate + net.min(0),
        Op::OneOf => net,
        Op::And => group.requests.iter().map(net_of).sum(),
    };
    claim.bound as i64 - rebate + with + detour
}
