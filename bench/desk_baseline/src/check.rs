// The verdict on a claim.

use crate::snapshot::{Claim, Op, Placement, Snapshot};
use crate::solve::{bound_at, Rows};
use serde_json::{json, Value};

/// Why a claim isn't certified: the number, the name and the fields.
pub type Reason = (u8, &'static str, Value);

pub fn check(of: &Snapshot, claim: &Claim) -> Result<(), Reason> {
    placements(of, &claim.placements)?;
    groups(of, &claim.placements)?;
    quotas(of, &claim.placements)?;
    prices(of, claim)?;
    let found = of.value_of(&claim.placements);
    if found != claim.value {
        return Err((
            9,
            "ValueDiffers",
            json!({"claimed": claim.value, "found": found}),
        ));
    }
    let found = bound_at(
        of,
        &Rows::of(of, &of.runs()),
        &claim.prices,
        &claim.quota_prices,
    );
    if found != claim.bound {
        return Err((
            10,
            "BoundDiffers",
            json!({"claimed": claim.bound, "found": found}),
        ));
    }
    Ok(())
}

fn at(index: usize) -> Value {
    json!({ "index": index })
}

fn placements(of: &Snapshot, plan: &[Placement]) -> Result<(), Reason> {
    if let Some(index) = plan.iter().position(|p| of.place_of(p.request).is_none()) {
        return Err((1, "UnknownRequest", at(index)));
    }
    let places: Vec<_> = plan
        .iter()
        .map(|p| of.place_of(p.request).unwrap())
        .collect();
    let mut seen = vec![false; of.requests.len()];
    if let Some(index) = places
        .iter()
        .position(|place| std::mem::replace(&mut seen[*place], true))
    {
        return Err((2, "PlacedTwice", at(index)));
    }
    let possible = |(p, place): (&Placement, &usize)| of.is_possible(*place, p.telescope, p.slice);
    if let Some(index) = plan.iter().zip(&places).position(|pair| !possible(pair)) {
        return Err((3, "NotPossible", at(index)));
    }
    let mut taken = vec![false; of.telescopes.len() * of.slices as usize];
    for (index, (p, place)) in plan.iter().zip(&places).enumerate() {
        let from = usize::from(p.telescope) * of.slices as usize + (p.slice - of.first) as usize;
        let slots = &mut taken[from..from + of.size(&of.requests[*place]) as usize];
        if slots.contains(&true) {
            return Err((4, "Overlap", at(index)));
        }
        slots.fill(true);
    }
    Ok(())
}

fn groups(of: &Snapshot, plan: &[Placement]) -> Result<(), Reason> {
    let mut counts = vec![0; of.groups.len()];
    for p in plan {
        counts[of.group_of[of.place_of(p.request).unwrap()]] += 1;
    }
    let all = || of.groups.iter().zip(&counts);
    if let Some((group, _)) = all().find(|(group, count)| group.op == Op::OneOf && **count > 1) {
        return Err((5, "OneofTwice", json!({"group": group.number})));
    }
    let partial = |(group, count): &(&crate::snapshot::Group, &usize)| {
        group.op == Op::And && **count > 0 && **count < group.requests.len()
    };
    match all().find(partial) {
        Some((group, _)) => Err((6, "AndPartial", json!({"group": group.number}))),
        None => Ok(()),
    }
}

fn quotas(of: &Snapshot, plan: &[Placement]) -> Result<(), Reason> {
    let mut sums = vec![0; of.quotas.len()];
    for p in plan {
        let place = of.place_of(p.request).unwrap();
        if let Some(quota) = of.quota_of(place) {
            sums[quota] += of.requests[place].seconds;
        }
    }
    match (0..sums.len()).find(|quota| sums[*quota] > of.quotas[*quota]) {
        Some(quota) => Err((
            11,
            "QuotaOver",
            json!({"most": of.quotas[quota], "quota": quota, "seconds": sums[quota]}),
        )),
        None => Ok(()),
    }
}

fn prices(of: &Snapshot, claim: &Claim) -> Result<(), Reason> {
    const MOST: i64 = 1_000_000_000_000;
    let count = |no, name, given: usize, wanted: usize| {
        Err((no, name, json!({"given": given, "wanted": wanted})))
    };
    if claim.prices.len() != of.requests.len() {
        return count(7, "PriceCount", claim.prices.len(), of.requests.len());
    }
    if let Some(index) = claim
        .prices
        .iter()
        .position(|price| !(-MOST..=MOST).contains(price))
    {
        return Err((8, "PriceRange", at(index)));
    }
    let given = claim.quota_prices.len();
    if given != 0 && given != of.quotas.len() {
        return count(12, "QuotaPriceCount", given, of.quotas.len());
    }
    match claim.quota_prices.iter().position(|price| *price > 200_000) {
        Some(index) => Err((13, "QuotaPriceRange", at(index))),
        None => Ok(()),
    }
}
