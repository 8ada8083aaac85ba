// The text of an entry by serde's Serialize, member by member in byte order: what a derive would write, by hand.

use crate::document::op_word;
use crate::entry::{Balance, Entry, Reply};
use crate::snapshot::{Claim, Group, Placement, Request, Sky, Snapshot, Telescope};
use crate::spans::Span;
use serde::ser::{SerializeSeq, SerializeStruct};
use serde::{Serialize, Serializer};

/// Serializes a struct of these members. (serde_json takes no members of a struct that is said to have none.)
macro_rules! members {
    ($to:expr, $($name:literal: $value:expr),* $(,)?) => {{
        let mut out = $to.serialize_struct("", 1)?;
        $(out.serialize_field($name, $value)?;)*
        out.end()
    }};
}

/// A list whose items are serialized as others.
struct Each<'a, T, F>(&'a [T], F);

impl<'a, T, U: Serialize, F: Fn(&'a T) -> U> Serialize for Each<'a, T, F> {
    fn serialize<S: Serializer>(&self, to: S) -> Result<S::Ok, S::Error> {
        let mut out = to.serialize_seq(Some(self.0.len()))?;
        for item in self.0 {
            out.serialize_element(&(self.1)(item))?;
        }
        out.end()
    }
}

fn pairs(spans: &[Span]) -> impl Serialize + '_ {
    Each(spans, |span: &Span| (span.from, span.to))
}

struct ClaimText<'a>(&'a Claim);

impl Serialize for ClaimText<'_> {
    fn serialize<S: Serializer>(&self, to: S) -> Result<S::Ok, S::Error> {
        let of = self.0;
        let triples = Each(&of.placements, |p: &Placement| {
            (p.request, p.telescope, p.slice)
        });
        if of.quota_prices.is_empty() {
            return members!(to, "bound": &of.bound, "placements": &triples, "prices": &of.prices, "value": &of.value);
        }
        members!(to, "bound": &of.bound, "format": &2, "placements": &triples, "prices": &of.prices,
            "quota_prices": &of.quota_prices, "value": &of.value)
    }
}

struct RequestText<'a>(&'a Request);

impl Serialize for RequestText<'_> {
    fn serialize<S: Serializer>(&self, to: S) -> Result<S::Ok, S::Error> {
        let of = self.0;
        let mut out = to.serialize_struct("", 1)?;
        if of.fade > 0 {
            out.serialize_field("fade", &of.fade)?;
        }
        out.serialize_field("request", &of.number)?;
        out.serialize_field("seconds", &of.seconds)?;
        out.serialize_field("targets", &of.targets)?;
        out.serialize_field("telescopes", &of.telescopes)?;
        out.serialize_field("value", &of.value)?;
        out.serialize_field("windows", &pairs(&of.windows))?;
        out.end()
    }
}

struct GroupText<'a>(&'a Group, &'a [Request]);

impl Serialize for GroupText<'_> {
    fn serialize<S: Serializer>(&self, to: S) -> Result<S::Ok, S::Error> {
        let of = self.0;
        let mut out = to.serialize_struct("", 1)?;
        out.serialize_field("group", &of.number)?;
        out.serialize_field("operator", op_word(of.op))?;
        if let Some(quota) = of.quota {
            out.serialize_field("quota", &quota)?;
        }
        out.serialize_field("requests", &Each(&self.1[of.requests.clone()], RequestText))?;
        out.end()
    }
}

struct SkyText<'a>(&'a Sky);

impl Serialize for SkyText<'_> {
    fn serialize<S: Serializer>(&self, to: S) -> Result<S::Ok, S::Error> {
        let of = self.0;
        members!(to, "site": &of.site, "spans": &pairs(&of.spans.items), "target": &of.target)
    }
}

struct TelescopeText<'a>(&'a Telescope);

impl Serialize for TelescopeText<'_> {
    fn serialize<S: Serializer>(&self, to: S) -> Result<S::Ok, S::Error> {
        let of = self.0;
        members!(to, "site": &of.site, "usable": &pairs(&of.usable.items))
    }
}

struct SnapshotText<'a>(&'a Snapshot);

impl Serialize for SnapshotText<'_> {
    fn serialize<S: Serializer>(&self, to: S) -> Result<S::Ok, S::Error> {
        let of = self.0;
        let mut out = to.serialize_struct("", 1)?;
        out.serialize_field("first", &of.first)?;
        let group = |group| GroupText(group, &of.requests);
        out.serialize_field("groups", &Each(&of.groups, group))?;
        out.serialize_field("len", &of.len)?;
        if !of.quotas.is_empty() {
            out.serialize_field("quotas", &of.quotas)?;
        }
        out.serialize_field("skies", &Each(&of.skies, SkyText))?;
        out.serialize_field("slices", &of.slices)?;
        out.serialize_field("telescopes", &Each(&of.telescopes, TelescopeText))?;
        out.serialize_field("version", &of.version)?;
        out.end()
    }
}

struct BalanceText<'a>(&'a Balance);

impl Serialize for BalanceText<'_> {
    fn serialize<S: Serializer>(&self, to: S) -> Result<S::Ok, S::Error> {
        let of = self.0;
        members!(to, "account": of.account, "available": &of.available, "balance": &of.balance,
            "instrument_type": &of.instrument, "proposal": &of.proposal)
    }
}

impl Serialize for Entry {
    fn serialize<S: Serializer>(&self, to: S) -> Result<S::Ok, S::Error> {
        let (line, version) = (&self.line, &self.version);
        match &self.reply {
            Reply::Plain(word) => {
                members!(to, "caller": &0, "line": line, "ok": word, "version": version)
            }
            Reply::Granted(balance) => {
                members!(to, "balance": balance, "caller": &0, "line": line, "ok": "granted", "version": version)
            }
            Reply::Telescope(telescope) => {
                members!(to, "caller": &0, "line": line, "ok": "telescope",
                "telescope": telescope, "version": version)
            }
            Reply::Submitted {
                group,
                ipp_charged,
                requests,
            } => members!(to, "caller": &0, "group": group,
                "ipp_charged": ipp_charged, "line": line, "ok": "submitted", "requests": requests, "version": version),
            Reply::Amended {
                group,
                ipp_charged,
                refunded,
                replaces,
                requests,
            } => members!(to, "caller": &0,
                "group": group, "ipp_charged": ipp_charged, "line": line, "ok": "amended", "refunded": refunded,
                "replaces": replaces, "requests": requests, "version": version),
            Reply::Withdrawn(refunded) => {
                members!(to, "caller": &0, "line": line, "ok": "withdrawn",
                "refunded": refunded, "version": version)
            }
            Reply::Clocked {
                expired,
                failed,
                refunded,
                started,
            } => members!(to, "caller": &0,
                "expired": expired, "failed": failed, "line": line, "ok": "clocked", "refunded": refunded,
                "started": started, "version": version),
            Reply::Completed { canceled, charged } => {
                members!(to, "caller": &0, "canceled": canceled,
                "charged": charged, "line": line, "ok": "completed", "version": version)
            }
            Reply::Failed { expired, refunded } => {
                members!(to, "caller": &0, "expired": expired, "line": line,
                "ok": "failed", "refunded": refunded, "version": version)
            }
            Reply::Balances(balances) => {
                members!(to, "balances": &Each(balances, BalanceText), "caller": &0,
                "line": line, "ok": "balances", "version": version)
            }
            Reply::Published(claim) => {
                members!(to, "caller": &0, "claim": &ClaimText(claim), "line": line,
                "ok": "published", "version": version)
            }
            Reply::Exported(claim, snapshot) => {
                members!(to, "caller": &0, "claim": &ClaimText(claim),
                "line": line, "ok": "exported", "snapshot": &SnapshotText(snapshot), "version": version)
            }
            Reply::NotEnoughTime { available, needed } => {
                members!(to, "available": available, "caller": &0,
                "line": line, "needed": needed, "no": &19, "refused": "NotEnoughTime", "version": version)
            }
            Reply::Missing(member) => {
                members!(to, "caller": &0, "line": line, "member": member, "no": &3,
                "refused": "Missing", "version": version)
            }
        }
    }
}

pub fn write(of: &Entry, into: &mut Vec<u8>) {
    serde_json::to_writer(&mut *into, of).unwrap();
    into.push(b'\n');
}
