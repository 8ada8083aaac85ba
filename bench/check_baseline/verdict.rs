// The first reason against a claim, or its value and bound.

use crate::bound::{bound_of, worth_of};
use crate::parts::{Claim, FIRST, LEN, Op, Placement, Reason, SLICES, Snapshot};
use crate::spans::Span;

pub fn check(snapshot: &Snapshot, claim: &Claim) -> Result<(u64, u64), Reason> {
    placement_reason(snapshot, &claim.placements)?;
    group_reason(snapshot, &claim.placements)?;
    quota_reason(snapshot, &claim.placements)?;
    price_reason(snapshot, claim)?;
    let value = claim
        .placements
        .iter()
        .map(|&placement| worth_of(snapshot, placement))
        .sum();
    if value != claim.value {
        return Err(Reason::ValueDiffers(claim.value, value));
    }
    let bound = bound_of(snapshot, &claim.prices, &claim.quota_prices);
    if bound != claim.bound {
        return Err(Reason::BoundDiffers(claim.bound, bound));
    }
    Ok((value, bound))
}

fn placement_reason(snapshot: &Snapshot, plan: &[Placement]) -> Result<(), Reason> {
    if let Some(index) = plan
        .iter()
        .position(|p| snapshot.place_of(p.request).is_none())
    {
        return Err(Reason::UnknownRequest(index));
    }
    let mut placed = vec![false; snapshot.rows.len()];
    for (index, placement) in plan.iter().enumerate() {
        let place = snapshot.place_of(placement.request).unwrap();
        if std::mem::replace(&mut placed[place], true) {
            return Err(Reason::PlacedTwice(index));
        }
    }
    if let Some(index) = plan.iter().position(|&p| !is_possible(snapshot, p)) {
        return Err(Reason::NotPossible(index));
    }
    let mut occupied = vec![false; snapshot.telescopes.len() * SLICES];
    for (index, placement) in plan.iter().enumerate() {
        let size = u64::from(snapshot.known(placement.request).1.seconds).div_ceil(LEN) as usize;
        let row = (u64::from(placement.slice) - FIRST) as usize;
        let from = usize::from(placement.telescope) * SLICES + row;
        let slots = &mut occupied[from..from + size];
        if slots.contains(&true) {
            return Err(Reason::Overlap(index));
        }
        slots.fill(true);
    }
    Ok(())
}

fn is_possible(snapshot: &Snapshot, placement: Placement) -> bool {
    let (_, request) = snapshot.known(placement.request);
    let slice = u64::from(placement.slice);
    let size = u64::from(request.seconds).div_ceil(LEN);
    if !request.telescopes.contains(&placement.telescope)
        || slice < FIRST
        || slice + size > FIRST + SLICES as u64
    {
        return false;
    }
    let telescope = &snapshot.telescopes[usize::from(placement.telescope)];
    let from = slice * LEN;
    let to = from + u64::from(request.seconds);
    let has_all = |spans: &[Span]| spans.iter().any(|span| span.from <= from && to <= span.to);
    has_all(&request.windows)
        && has_all(&telescope.usable)
        && request.targets.iter().all(|&target| {
            let sky = snapshot.find_sky(target, telescope.site);
            sky.is_some_and(|sky| has_all(&snapshot.skies[sky].spans))
        })
}

fn group_reason(snapshot: &Snapshot, plan: &[Placement]) -> Result<(), Reason> {
    let mut counts = vec![0; snapshot.groups.len()];
    for placement in plan {
        counts[snapshot.known(placement.request).0] += 1;
    }
    for (group, &count) in snapshot.groups.iter().zip(&counts) {
        if group.op == Op::OneOf && count >= 2 {
            return Err(Reason::OneofTwice(group.number));
        }
    }
    for (group, &count) in snapshot.groups.iter().zip(&counts) {
        if group.op == Op::And && count > 0 && count < group.requests.len() {
            return Err(Reason::AndPartial(group.number));
        }
    }
    Ok(())
}

fn quota_reason(snapshot: &Snapshot, plan: &[Placement]) -> Result<(), Reason> {
    let mut sums = vec![0; snapshot.quotas.len()];
    for placement in plan {
        let (group, request) = snapshot.known(placement.request);
        if let Some(quota) = snapshot.groups[group].quota {
            sums[usize::from(quota)] += u64::from(request.seconds);
        }
    }
    match (0..sums.len()).find(|&quota| sums[quota] > snapshot.quotas[quota]) {
        Some(quota) => Err(Reason::QuotaOver(
            quota,
            sums[quota],
            snapshot.quotas[quota],
        )),
        None => Ok(()),
    }
}

fn price_reason(snapshot: &Snapshot, claim: &Claim) -> Result<(), Reason> {
    const MOST: i64 = 1_000_000_000_000;
    if claim.prices.len() != snapshot.rows.len() {
        return Err(Reason::PriceCount(claim.prices.len(), snapshot.rows.len()));
    }
    if let Some(index) = claim
        .prices
        .iter()
        .position(|price| !(-MOST..=MOST).contains(price))
    {
        return Err(Reason::PriceRange(index));
    }
    let given = claim.quota_prices.len();
    if given != 0 && given != snapshot.quotas.len() {
        return Err(Reason::QuotaPriceCount(given, snapshot.quotas.len()));
    }
    if let Some(index) = claim.quota_prices.iter().position(|&price| price > 200_000) {
        return Err(Reason::QuotaPriceRange(index));
    }
    Ok(())
}
