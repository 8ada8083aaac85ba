// A snapshot and a claim as a document.

use crate::parts::{Claim, Group, Op, Request, Snapshot, FIRST, LEN, SLICES};
use crate::spans::Span;
use serde_json::{json, Value};

fn spans(spans: &[Span]) -> Value {
    spans
        .iter()
        .map(|span| json!([span.from, span.to]))
        .collect()
}

fn request(request: &Request) -> Value {
    json!({
        "request": request.number,
        "seconds": request.seconds,
        "value": request.value,
        "windows": spans(&request.windows),
        "telescopes": request.telescopes,
        "targets": request.targets,
        "fade": request.fade,
    })
}

fn group(group: &Group) -> Value {
    let operator = match group.op {
        Op::Single => "SINGLE",
        Op::Many => "MANY",
        Op::OneOf => "ONEOF",
        Op::And => "AND",
    };
    json!({
        "group": group.number,
        "operator": operator,
        "requests": group.requests.iter().map(request).collect::<Value>(),
        "quota": group.quota,
    })
}

pub fn document(snapshot: &Snapshot, claim: &Claim) -> Value {
    let telescopes: Value = (snapshot.telescopes.iter())
        .map(|telescope| json!({"site": telescope.site, "usable": spans(&telescope.usable)}))
        .collect();
    let skies: Value = (snapshot.skies.iter())
        .map(|sky| json!({"target": sky.target, "site": sky.site, "spans": spans(&sky.spans)}))
        .collect();
    let placements: Value = (claim.placements.iter())
        .map(|placement| json!([placement.request, placement.telescope, placement.slice]))
        .collect();
    json!({
        "snapshot": {
            "version": 0,
            "len": LEN,
            "first": FIRST,
            "slices": SLICES,
            "telescopes": telescopes,
            "skies": skies,
            "groups": snapshot.groups.iter().map(group).collect::<Value>(),
            "quotas": snapshot.quotas,
        },
        "claim": {
            "format": 2,
            "placements": placements,
            "prices": claim.prices,
            "quota_prices": claim.quota_prices,
            "value": claim.value,
            "bound": claim.bound,
        },
    })
}
