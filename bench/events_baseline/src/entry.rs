// What entries hold, and those that are written.

use crate::snapshot::{Claim, Snapshot};

pub struct Balance {
    pub account: &'static str,
    pub available: u64,
    pub balance: u64,
    pub instrument: String,
    pub proposal: String,
}

pub enum Reply {
    /// An `ok` word alone.
    Plain(&'static str),
    Granted(u64),
    Telescope(u16),
    Submitted {
        group: u32,
        ipp_charged: u64,
        requests: Vec<u32>,
    },
    Amended {
        group: u32,
        ipp_charged: u64,
        refunded: Vec<(u32, u64)>,
        replaces: u32,
        requests: Vec<u32>,
    },
    Withdrawn(Vec<(u32, u64)>),
    Clocked {
        expired: Vec<u32>,
        failed: Vec<u32>,
        refunded: Vec<(u32, u64)>,
        started: Vec<u32>,
    },
    Completed {
        canceled: Vec<u32>,
        charged: u64,
    },
    Failed {
        expired: Vec<u32>,
        refunded: Vec<(u32, u64)>,
    },
    Balances(Vec<Balance>),
    Published(Claim),
    Exported(Claim, Snapshot),
    NotEnoughTime {
        available: u64,
        needed: u64,
    },
    Missing(&'static str),
}

pub struct Entry {
    pub line: u32,
    pub version: u64,
    pub reply: Reply,
}

/// An entry of each kind but for claims.
pub fn mixed() -> Vec<Entry> {
    let refund = || vec![(3, 80)];
    let balance = || Balance {
        account: "standard",
        available: 700,
        balance: 1_000,
        instrument: "1M0-SCICAM-SINISTRO".to_owned(),
        proposal: "M31-NOVAE".to_owned(),
    };
    let replies = [
        Reply::Plain("closed"),
        Reply::Granted(1_000_000),
        Reply::Telescope(31),
        Reply::Submitted {
            group: 40_001,
            ipp_charged: 30,
            requests: vec![70_001, 70_002],
        },
        Reply::Amended {
            group: 40_002,
            ipp_charged: 0,
            refunded: refund(),
            replaces: 40_001,
            requests: vec![70_003],
        },
        Reply::Withdrawn(Vec::new()),
        Reply::Clocked {
            expired: vec![69_003, 69_005],
            failed: vec![69_002],
            refunded: refund(),
            started: vec![69_001],
        },
        Reply::Completed {
            canceled: vec![69_002],
            charged: 300,
        },
        Reply::Failed {
            expired: Vec::new(),
            refunded: refund(),
        },
        Reply::Balances(vec![balance(), balance(), balance()]),
        Reply::NotEnoughTime {
            available: 400,
            needed: 500,
        },
        Reply::Missing("operator"),
    ];
    replies.into_iter().map(entry).collect()
}

pub fn entry(reply: Reply) -> Entry {
    Entry {
        line: 60_007,
        version: 52_005,
        reply,
    }
}
