// A snapshot and a claim, member by member.

use crate::parts::{Claim, Group, Op, Placement, Request, Row, Snapshot};
use crate::sky::{Sky, Telescope};
use crate::spans::Span;
use serde_json::{Map, Value};

type Members = Map<String, Value>;

/// The number of a fault, and the member that it names.
#[derive(Debug)]
pub struct Fault(pub u8, pub &'static str);

fn value<'a>(members: &'a Members, name: &'static str) -> Result<&'a Value, Fault> {
    match members.get(name) {
        None | Some(Value::Null) => Err(Fault(3, name)),
        Some(value) => Ok(value),
    }
}

fn whole_in(value: &Value, name: &'static str, least: i64, most: i64) -> Result<i64, Fault> {
    if !value.is_number() {
        return Err(Fault(4, name));
    }
    if !value.is_u64() && !value.is_i64() {
        return Err(Fault(5, name));
    }
    value
        .as_i64()
        .filter(|whole| (least..=most).contains(whole))
        .ok_or(Fault(6, name))
}

fn whole(members: &Members, name: &'static str, least: i64, most: i64) -> Result<i64, Fault> {
    whole_in(value(members, name)?, name, least, most)
}

pub fn object<'a>(members: &'a Members, name: &'static str) -> Result<&'a Members, Fault> {
    value(members, name)?.as_object().ok_or(Fault(4, name))
}

fn counted<'a>(
    members: &'a Members,
    name: &'static str,
    most: usize,
) -> Result<&'a [Value], Fault> {
    let items = value(members, name)?.as_array().ok_or(Fault(4, name))?;
    if items.len() > most {
        return Err(Fault(6, name));
    }
    Ok(items)
}

fn each<T>(
    members: &Members,
    name: &'static str,
    read: impl Fn(&Members) -> Result<T, Fault>,
) -> Result<Vec<T>, Fault> {
    counted(members, name, 65_536)?
        .iter()
        .map(|item| read(item.as_object().ok_or(Fault(4, name))?))
        .collect()
}

fn numbers(
    members: &Members,
    name: &'static str,
    count: usize,
    least: i64,
    most: i64,
) -> Result<Vec<i64>, Fault> {
    counted(members, name, count)?
        .iter()
        .map(|item| whole_in(item, name, least, most))
        .collect()
}

fn spans(members: &Members, name: &'static str) -> Result<Vec<Span>, Fault> {
    counted(members, name, 65_536)?
        .iter()
        .map(|item| {
            let [from, to] = item.as_array().ok_or(Fault(4, name))?.as_slice() else {
                return Err(Fault(4, name));
            };
            Ok(Span {
                from: whole_in(from, name, 0, 1_000_000_000_000)? as u64,
                to: whole_in(to, name, 0, 1_000_000_000_000)? as u64,
            })
        })
        .collect()
}

fn telescope(members: &Members) -> Result<Telescope, Fault> {
    Ok(Telescope {
        site: whole(members, "site", 0, 65_535)? as u16,
        usable: spans(members, "usable")?,
    })
}

fn sky(members: &Members) -> Result<Sky, Fault> {
    Ok(Sky {
        target: whole(members, "target", 0, 65_535)? as u16,
        site: whole(members, "site", 0, 65_535)? as u16,
        spans: spans(members, "spans")?,
    })
}

fn request(members: &Members) -> Result<Request, Fault> {
    let number = whole(members, "request", 0, 4_294_967_295)? as u32;
    let seconds = whole(members, "seconds", 1, 86_400)? as u32;
    let value = whole(members, "value", 1, 288_000_000)? as u32;
    let telescopes = numbers(members, "telescopes", 65_536, 0, 65_535)?;
    let targets = numbers(members, "targets", 65_536, 0, 65_535)?;
    let windows = spans(members, "windows")?;
    let fade = match members.get("fade") {
        None | Some(Value::Null) => 0,
        Some(fade) => whole_in(fade, "fade", 0, 1_000)? as u16,
    };
    Ok(Request {
        number,
        seconds,
        value,
        windows,
        telescopes: telescopes.iter().map(|&number| number as u16).collect(),
        targets: targets.iter().map(|&number| number as u16).collect(),
        fade,
    })
}

fn operator(members: &Members) -> Result<Op, Fault> {
    match value(members, "operator")?.as_str() {
        None => Err(Fault(4, "operator")),
        Some("SINGLE") => Ok(Op::Single),
        Some("MANY") => Ok(Op::Many),
        Some("ONEOF") => Ok(Op::OneOf),
        Some("AND") => Ok(Op::And),
        Some(_) => Err(Fault(6, "operator")),
    }
}

fn group(members: &Members) -> Result<Group, Fault> {
    let number = whole(members, "group", 0, 4_294_967_295)? as u32;
    let op = operator(members)?;
    let requests = each(members, "requests", request)?;
    let quota = match members.get("quota") {
        None | Some(Value::Null) => None,
        Some(quota) => Some(whole_in(quota, "quota", 0, 65_535)? as u16),
    };
    Ok(Group {
        number,
        op,
        requests,
        quota,
    })
}

fn rows(groups: &[Group]) -> Vec<Row> {
    let mut rows = Vec::new();
    for (group, part) in groups.iter().enumerate() {
        for (place, request) in part.requests.iter().enumerate() {
            rows.push(Row {
                number: request.number,
                group,
                place,
            });
        }
    }
    rows
}

/// The snapshot of the document, whose horizon is that of the benchmark.
pub fn snapshot(members: &Members) -> Result<Snapshot, Fault> {
    whole(members, "version", 0, 524_288)?;
    whole(members, "len", 60, 3_600)?;
    whole(members, "first", 0, 4_223_371_680)?;
    whole(members, "slices", 1, 1_440)?;
    let telescopes = each(members, "telescopes", telescope)?;
    let skies = each(members, "skies", sky)?;
    let groups = each(members, "groups", group)?;
    let quotas = match members.get("quotas") {
        None | Some(Value::Null) => Vec::new(),
        Some(_) => numbers(members, "quotas", 65_536, 0, 1_000_000_000_000)?,
    };
    Ok(Snapshot {
        telescopes,
        skies,
        rows: rows(&groups),
        groups,
        quotas: quotas.iter().map(|&quota| quota as u64).collect(),
    })
}

fn placements(members: &Members) -> Result<Vec<Placement>, Fault> {
    let name = "placements";
    counted(members, name, 4_096)?
        .iter()
        .map(|item| {
            let [request, telescope, slice] = item.as_array().ok_or(Fault(4, name))?.as_slice()
            else {
                return Err(Fault(4, name));
            };
            Ok(Placement {
                request: whole_in(request, name, 0, 4_294_967_295)? as u32,
                telescope: whole_in(telescope, name, 0, 65_535)? as u16,
                slice: whole_in(slice, name, 0, 4_294_967_295)? as u32,
            })
        })
        .collect()
}

/// The claim of the document.
pub fn claim(members: &Members) -> Result<Claim, Fault> {
    let format = match members.get("format") {
        None | Some(Value::Null) => false,
        Some(format) => whole_in(format, "format", 2, 2)? == 2,
    };
    let placements = placements(members)?;
    let highest = 1_000_000_000_000_000;
    let prices = numbers(members, "prices", 4_096, -highest, highest)?;
    let quota_prices = if format {
        numbers(members, "quota_prices", 1_024, 0, 1_000_000_000)?
    } else {
        Vec::new()
    };
    Ok(Claim {
        placements,
        prices,
        quota_prices: quota_prices.iter().map(|&price| price as u32).collect(),
        value: whole(members, "value", 0, 1_000_000_000_000)? as u64,
        bound: whole(members, "bound", 0, 100_000_000_000_000_000)? as u64,
    })
}
