// The snapshot and the claim that are checked.

use crate::bound::{bound_of, worth_of};
use crate::parts::{Claim, FIRST, Group, LEN, Op, Placement, Request, Row, Snapshot};
use crate::sky::{Sky, Telescope};
use crate::spans::Span;

const TELESCOPES: u64 = 32;
const SITES: u64 = 8;
const TARGETS: u64 = 512;
const QUOTAS: u64 = 16;
const NIGHTS: u64 = 5;

/// A number below a limit that looks random.
fn mix(a: u64, b: u64, limit: u64) -> u64 {
    let mixed = a.wrapping_mul(0x9e37_79b9_7f4a_7c15).wrapping_add(b);
    let mixed = (mixed ^ (mixed >> 33)).wrapping_mul(0xff51_afd7_ed55_8ccd);
    (mixed ^ (mixed >> 33)) % limit
}

/// The first second of a night at a site.
fn night_of(site: u64, night: u64) -> u64 {
    (FIRST + 288 * night + 20 * site) * LEN
}

fn telescopes() -> Vec<Telescope> {
    (0..TELESCOPES)
        .map(|telescope| {
            let site = telescope / 4;
            let usable = |night| Span {
                from: night_of(site, night),
                to: night_of(site, night) + 120 * LEN,
            };
            Telescope {
                site: site as u16,
                usable: (0..NIGHTS).map(usable).collect(),
            }
        })
        .collect()
}

fn skies() -> Vec<Sky> {
    (0..TARGETS * SITES)
        .map(|place| {
            let site = place % SITES;
            let span = |night| Span {
                from: night_of(site, night) + mix(place, night, 3_000),
                to: night_of(site, night) + 120 * LEN - mix(place, 5 + night, 3_000),
            };
            Sky {
                target: (place / SITES) as u16,
                site: site as u16,
                spans: (0..NIGHTS).map(span).collect(),
            }
        })
        .collect()
}

/// How long the request at a place takes.
fn seconds_of(place: u64) -> u64 {
    60 + mix(place, 10, 3_541)
}

/// The site of the telescope that takes the request at a place.
fn site_of(place: u64) -> u64 {
    place / 4 % SITES
}

/// The slice at which the request at a place is placed, apart from all others on its telescope.
fn slice_of(place: u64) -> u64 {
    let turn = place / 32;
    FIRST
        + 288 * (turn % NIGHTS)
        + 20 * site_of(place)
        + 10
        + 14 * (turn / NIGHTS)
        + mix(place, 11, 2)
}

/// The three windows of the request at a place, the first of them round its placement.
fn windows(place: u64) -> Vec<Span> {
    let planned = slice_of(place) * LEN;
    let mut windows = vec![Span {
        from: planned - mix(place, 12, 18_000),
        to: planned + 3_600 + mix(place, 13, 18_000),
    }];
    for window in 0..2 {
        let from = FIRST * LEN + mix(place, 14 + window, 400_000);
        windows.push(Span {
            from,
            to: from + 35_500 + mix(place, 16 + window, 18_000),
        });
    }
    windows
}

fn request(place: u64) -> Request {
    let target = place / 2;
    let mut targets = vec![target as u16];
    if place % 8 == 7 {
        targets.push(((target + 100) % TARGETS) as u16);
    }
    Request {
        number: place as u32 + 1,
        seconds: seconds_of(place) as u32,
        value: (1_000 + mix(place, 18, 999_001)) as u32,
        windows: windows(place),
        telescopes: (0..SITES)
            .map(|site| (4 * site + place % 4) as u16)
            .collect(),
        targets,
        fade: if place % 3 == 0 {
            mix(place, 19, 20) as u16
        } else {
            0
        },
    }
}

/// Groups of each kind in turn, of 1, 9, 4 and 2 requests.
fn groups() -> Vec<Group> {
    let mut groups = Vec::new();
    let mut place = 0;
    for turn in 0..256u64 {
        let (op, count) = match turn % 4 {
            0 => (Op::Single, 1),
            1 => (Op::Many, 9),
            2 => (Op::OneOf, 4),
            _ => (Op::And, 2),
        };
        groups.push(Group {
            number: turn as u32 + 1,
            op,
            requests: (place..place + count).map(request).collect(),
            quota: (turn % 5 != 0).then_some((turn % QUOTAS) as u16),
        });
        place += count;
    }
    groups
}

pub fn snapshot() -> Snapshot {
    let groups = groups();
    let mut rows = Vec::new();
    for (group, part) in groups.iter().enumerate() {
        for (place, request) in part.requests.iter().enumerate() {
            rows.push(Row {
                number: request.number,
                group,
                place,
            });
        }
    }
    Snapshot {
        telescopes: telescopes(),
        skies: skies(),
        groups,
        quotas: vec![1_000_000; QUOTAS as usize],
        rows,
    }
}

/// Whether the request at a place is placed: of four that exclude each other, the first.
fn is_placed(place: u64) -> bool {
    !(11..14).contains(&(place % 16))
}

pub fn claim(snapshot: &Snapshot) -> Claim {
    let placements: Vec<Placement> = (0..1_024)
        .filter(|&place| is_placed(place))
        .map(|place| Placement {
            request: place as u32 + 1,
            telescope: (4 * site_of(place) + place % 4) as u16,
            slice: slice_of(place) as u32,
        })
        .collect();
    let prices: Vec<i64> = (0..1_024)
        .map(|place| mix(place, 20, 500_000) as i64)
        .collect();
    let quota_prices: Vec<u32> = (0..QUOTAS).map(|quota| mix(quota, 21, 20) as u32).collect();
    Claim {
        value: placements
            .iter()
            .map(|&placement| worth_of(snapshot, placement))
            .sum(),
        bound: bound_of(snapshot, &prices, &quota_prices),
        placements,
        prices,
        quota_prices,
    }
}
