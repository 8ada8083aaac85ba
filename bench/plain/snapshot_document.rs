// Snapshots read from documents. (The claim beside one isn't read.)

use crate::document::OPS;
use crate::read::{element, find, list, number, object, parse, tuple, whole, word, Object, Read};
use crate::snapshot::{Group, Request, Sky, Snapshot, Telescope};
use crate::spans::{Span, Spans};
use serde_json::Value;

const MOST: usize = 65_536;

fn span(value: &Value, member: &str) -> Read<Span> {
    let pair = tuple(value, member, 2)?;
    let second = |place: usize| number(&pair[place], member, 0, 1_000_000_000_000);
    Ok(Span {
        from: second(0)? as u64,
        to: second(1)? as u64,
    })
}

fn spans(of: &Object, member: &str) -> Read<Vec<Span>> {
    list(of, member, 0, MOST)?
        .iter()
        .map(|value| span(value, member))
        .collect()
}

fn numbers(of: &Object, member: &str) -> Read<Vec<u16>> {
    list(of, member, 0, MOST)?
        .iter()
        .map(|value| Ok(number(value, member, 0, 65_535)? as u16))
        .collect()
}

fn each<T>(of: &Object, member: &str, read: impl Fn(&Object) -> Read<T>) -> Read<Vec<T>> {
    list(of, member, 0, MOST)?
        .iter()
        .map(|value| read(element(value, member)?))
        .collect()
}

fn telescope(of: &Object) -> Read<Telescope> {
    Ok(Telescope {
        site: whole(of, "site", 0, 65_535)? as u16,
        usable: Spans {
            items: spans(of, "usable")?,
        },
    })
}

fn sky(of: &Object) -> Read<Sky> {
    Ok(Sky {
        target: whole(of, "target", 0, 65_535)? as u16,
        site: whole(of, "site", 0, 65_535)? as u16,
        spans: Spans {
            items: spans(of, "spans")?,
        },
    })
}

fn request(of: &Object) -> Read<Request> {
    Ok(Request {
        number: whole(of, "request", 0, 4_294_967_295)? as u32,
        seconds: whole(of, "seconds", 1, 86_400)? as u64,
        value: whole(of, "value", 1, 288_000_000)? as u64,
        telescopes: numbers(of, "telescopes")?,
        targets: numbers(of, "targets")?,
        windows: spans(of, "windows")?,
        fade: crate::read::whole_or(of, "fade", 0, 1_000, 0)? as u64,
    })
}

/// Adds a group with its requests.
fn add_group(of: &Object, out: &mut Snapshot) -> Read<()> {
    let from = out.requests.len();
    let number = whole(of, "group", 0, 4_294_967_295)? as u32;
    let op = word(of, "operator", &OPS)?;
    out.requests.extend(each(of, "requests", request)?);
    out.group_of.resize(out.requests.len(), out.groups.len());
    let quota = match find(of, "quota") {
        Some(_) => Some(whole(of, "quota", 0, 65_535)? as usize),
        None => None,
    };
    let requests = from..out.requests.len();
    out.groups.push(Group {
        number,
        op,
        requests,
        quota,
    });
    Ok(())
}

fn quotas(of: &Object) -> Read<Vec<u64>> {
    if find(of, "quotas").is_none() {
        return Ok(Vec::new());
    }
    let most = 1_000_000_000_000;
    list(of, "quotas", 0, MOST)?
        .iter()
        .map(|value| Ok(number(value, "quotas", 0, most)? as u64))
        .collect()
}

/// The snapshot of a document.
pub fn read_snapshot(bytes: &[u8]) -> Read<Snapshot> {
    let document = parse(bytes)?;
    let of = object(&document, "snapshot")?;
    let mut out = Snapshot {
        version: whole(of, "version", 0, 524_288)? as u64,
        len: whole(of, "len", 60, 3_600)? as u64,
        first: whole(of, "first", 0, 4_223_371_680)? as u64,
        slices: whole(of, "slices", 1, 1_440)? as u64,
        telescopes: each(of, "telescopes", telescope)?,
        skies: each(of, "skies", sky)?,
        groups: Vec::new(),
        requests: Vec::new(),
        group_of: Vec::new(),
        quotas: quotas(of)?,
    };
    for value in list(of, "groups", 0, MOST)? {
        add_group(element(value, "groups")?, &mut out)?;
    }
    Ok(out)
}
