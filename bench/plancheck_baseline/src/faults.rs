// What is wrong with the parts of a snapshot.

use crate::document::Fault;
use crate::parts::{Group, Op, Request, Snapshot};
use crate::spans::Span;

fn requests(snapshot: &Snapshot) -> impl Iterator<Item = &Request> {
    snapshot.groups.iter().flat_map(|group| &group.requests)
}

fn is_empty(span: &Span) -> bool {
    span.from >= span.to
}

fn is_apart(spans: &[Span]) -> bool {
    spans.windows(2).all(|pair| pair[0].to < pair[1].from)
}

fn is_over(snapshot: &Snapshot) -> bool {
    snapshot.telescopes.len() > 32
        || snapshot.telescopes.iter().any(|t| t.usable.len() > 2_048)
        || snapshot.skies.len() > 32_768
        || snapshot.skies.iter().map(|y| y.spans.len()).sum::<usize>() > 262_144
        || snapshot.groups.len() > 1_024
        || snapshot.rows.len() > 1_024
        || requests(snapshot)
            .any(|q| q.windows.len() > 32 || q.targets.len() > 16 || q.telescopes.len() > 32)
        || snapshot.quotas.len() > 1_024
}

fn has_empty(snapshot: &Snapshot) -> bool {
    snapshot
        .telescopes
        .iter()
        .any(|t| t.usable.iter().any(is_empty))
        || snapshot.skies.iter().any(|y| y.spans.iter().any(is_empty))
        || requests(snapshot).any(|q| q.windows.iter().any(is_empty))
}

fn are_apart(snapshot: &Snapshot) -> bool {
    snapshot.telescopes.iter().all(|t| is_apart(&t.usable))
        && snapshot.skies.iter().all(|y| is_apart(&y.spans))
        && snapshot
            .skies
            .windows(2)
            .all(|pair| (pair[0].target, pair[0].site) < (pair[1].target, pair[1].site))
}

fn has_shape(group: &Group) -> bool {
    let most = match group.op {
        Op::Single => 1,
        Op::Many => 256,
        Op::OneOf | Op::And => 32,
    };
    (1..=most).contains(&group.requests.len())
}

fn fits(snapshot: &Snapshot, request: &Request) -> bool {
    request.telescopes.windows(2).all(|pair| pair[0] < pair[1])
        && request
            .telescopes
            .iter()
            .all(|&t| usize::from(t) < snapshot.telescopes.len())
}

/// The first fault of the parts.
pub fn first(snapshot: &Snapshot) -> Result<(), Fault> {
    let groups = &snapshot.groups;
    let faults = [
        (41, is_over(snapshot)),
        (42, has_empty(snapshot)),
        (43, !are_apart(snapshot)),
        (
            44,
            groups
                .windows(2)
                .any(|pair| pair[0].number >= pair[1].number),
        ),
        (
            45,
            snapshot
                .rows
                .windows(2)
                .any(|pair| pair[0].number >= pair[1].number),
        ),
        (46, !groups.iter().all(has_shape)),
        (47, !requests(snapshot).all(|q| fits(snapshot, q))),
        (48, requests(snapshot).any(|q| q.fade > 1_000)),
        (
            49,
            groups.iter().any(|x| {
                x.quota
                    .is_some_and(|q| usize::from(q) >= snapshot.quotas.len())
            }),
        ),
        (50, snapshot.quotas.iter().any(|&q| q > 100_000_000)),
    ];
    match faults.iter().find(|(_, is_so)| *is_so) {
        Some((number, _)) => Err(Fault(*number, "")),
        None => Ok(()),
    }
}
