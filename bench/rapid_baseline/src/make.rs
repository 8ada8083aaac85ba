// The document that is timed.

use crate::bound::{bound_of, worth_of};
use crate::made;
use crate::parts::{Claim, Group, Op, Snapshot};
use crate::write;
use serde_json::Value;

/// How many groups are inserted.
const LATER: usize = 128;

/// A large snapshot without its last requests, a claim on it, and each of these requests in a group of its own.
pub fn document() -> Value {
    let mut snapshot = made::snapshot();
    let mut claim = made::claim(&snapshot);
    let groups = take_last(&mut snapshot);
    keep_known(&snapshot, &mut claim);
    let mut document = write::document(&snapshot, &claim);
    document["groups"] = written(groups);
    document
}

/// Takes the last requests out of a snapshot, each into a group of its own, with the quota of the group that it was of.
fn take_last(snapshot: &mut Snapshot) -> Vec<Group> {
    let rows = snapshot.rows.split_off(snapshot.rows.len() - LATER);
    let first = rows[0].group;
    (snapshot.groups.split_off(first).into_iter())
        .flat_map(|group| {
            let quota = group.quota;
            group.requests.into_iter().map(move |it| (it, quota))
        })
        .zip(first as u32 + 1..)
        .map(|((request, quota), number)| Group {
            number,
            op: Op::Single,
            requests: vec![request],
            quota,
        })
        .collect()
}

/// Leaves of a claim what is of the snapshot's requests, and works out its value and bound.
fn keep_known(snapshot: &Snapshot, claim: &mut Claim) {
    claim
        .placements
        .retain(|placement| snapshot.place_of(placement.request).is_some());
    claim.prices.truncate(snapshot.rows.len());
    claim.value = (claim.placements.iter())
        .map(|&placement| worth_of(snapshot, placement))
        .sum();
    claim.bound = bound_of(snapshot, &claim.prices, &claim.quota_prices);
}

/// The groups as those of a document.
fn written(groups: Vec<Group>) -> Value {
    let snapshot = Snapshot {
        telescopes: Vec::new(),
        skies: Vec::new(),
        groups,
        quotas: Vec::new(),
        rows: Vec::new(),
    };
    let claim = Claim {
        placements: Vec::new(),
        prices: Vec::new(),
        quota_prices: Vec::new(),
        value: 0,
        bound: 0,
    };
    write::document(&snapshot, &claim)["snapshot"]["groups"].take()
}
