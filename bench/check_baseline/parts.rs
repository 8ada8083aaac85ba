// What a snapshot and a claim hold.

use crate::sky::{Sky, Telescope};
use crate::spans::Span;

pub const LEN: u64 = 300;
pub const FIRST: u64 = 5_801_000;
pub const SLICES: usize = 1_440;

#[derive(Clone, Copy, PartialEq)]
pub enum Op {
    Single,
    Many,
    OneOf,
    And,
}

pub struct Request {
    pub number: u32,
    pub seconds: u32,
    pub value: u32,
    pub windows: Vec<Span>,
    pub telescopes: Vec<u16>,
    pub targets: Vec<u16>,
    pub fade: u16,
}

pub struct Group {
    pub number: u32,
    pub op: Op,
    pub requests: Vec<Request>,
    pub quota: Option<u16>,
}

/// Where a request stands.
pub struct Row {
    pub number: u32,
    pub group: usize,
    pub place: usize,
}

pub struct Snapshot {
    pub telescopes: Vec<Telescope>,
    pub skies: Vec<Sky>,
    pub groups: Vec<Group>,
    pub quotas: Vec<u64>,
    pub rows: Vec<Row>,
}

#[derive(Clone, Copy)]
pub struct Placement {
    pub request: u32,
    pub telescope: u16,
    pub slice: u32,
}

pub struct Claim {
    pub placements: Vec<Placement>,
    pub prices: Vec<i64>,
    pub quota_prices: Vec<u32>,
    pub value: u64,
    pub bound: u64,
}

#[derive(Debug)]
#[allow(dead_code)] // What a reason tells is read where it is printed alone.
pub enum Reason {
    UnknownRequest(usize),
    PlacedTwice(usize),
    NotPossible(usize),
    Overlap(usize),
    OneofTwice(u32),
    AndPartial(u32),
    QuotaOver(usize, u64, u64),
    PriceCount(usize, usize),
    PriceRange(usize),
    QuotaPriceCount(usize, usize),
    QuotaPriceRange(usize),
    ValueDiffers(u64, u64),
    BoundDiffers(u64, u64),
}

impl Snapshot {
    pub fn place_of(&self, request: u32) -> Option<usize> {
        self.rows
            .binary_search_by_key(&request, |row| row.number)
            .ok()
    }

    pub fn request_at(&self, place: usize) -> &Request {
        let row = &self.rows[place];
        &self.groups[row.group].requests[row.place]
    }

    /// A request that is known, with the place of its group.
    pub fn known(&self, request: u32) -> (usize, &Request) {
        let place = self.place_of(request).unwrap();
        (self.rows[place].group, self.request_at(place))
    }

    pub fn find_sky(&self, target: u16, site: u16) -> Option<usize> {
        self.skies
            .binary_search_by_key(&(target, site), |sky| (sky.target, sky.site))
            .ok()
    }
}
