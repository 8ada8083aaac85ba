// The text of an entry by way of serde_json's Value.

use crate::entry::{Balance, Entry, Reply};
use crate::snapshot::{write_claim, write_snapshot};
use serde_json::{json, Value};

fn balance(of: &Balance) -> Value {
    json!({
        "account": of.account, "available": of.available, "balance": of.balance,
        "instrument_type": of.instrument, "proposal": of.proposal,
    })
}

/// The `ok` word, if there is one, and the further members.
fn members(of: &Reply) -> (Option<&'static str>, Value) {
    match of {
        Reply::Plain(word) => (Some(word), json!({})),
        Reply::Granted(balance) => (Some("granted"), json!({"balance": balance})),
        Reply::Telescope(telescope) => (Some("telescope"), json!({"telescope": telescope})),
        Reply::Submitted {
            group,
            ipp_charged,
            requests,
        } => (
            Some("submitted"),
            json!({"group": group, "ipp_charged": ipp_charged, "requests": requests}),
        ),
        Reply::Amended {
            group,
            ipp_charged,
            refunded,
            replaces,
            requests,
        } => (
            Some("amended"),
            json!({
                "group": group, "ipp_charged": ipp_charged, "refunded": refunded,
                "replaces": replaces, "requests": requests,
            }),
        ),
        Reply::Withdrawn(refunded) => (Some("withdrawn"), json!({"refunded": refunded})),
        Reply::Clocked {
            expired,
            failed,
            refunded,
            started,
        } => (
            Some("clocked"),
            json!({"expired": expired, "failed": failed, "refunded": refunded, "started": started}),
        ),
        Reply::Completed { canceled, charged } => (
            Some("completed"),
            json!({"canceled": canceled, "charged": charged}),
        ),
        Reply::Failed { expired, refunded } => (
            Some("failed"),
            json!({"expired": expired, "refunded": refunded}),
        ),
        Reply::Balances(balances) => (
            Some("balances"),
            json!({"balances": balances.iter().map(balance).collect::<Value>()}),
        ),
        Reply::Published(claim) => (Some("published"), json!({"claim": write_claim(claim)})),
        Reply::Exported(claim, snapshot) => (
            Some("exported"),
            json!({"claim": write_claim(claim), "snapshot": write_snapshot(snapshot)}),
        ),
        Reply::NotEnoughTime { available, needed } => (
            None,
            json!({"available": available, "needed": needed, "no": 19, "refused": "NotEnoughTime"}),
        ),
        Reply::Missing(member) => (
            None,
            json!({"member": member, "no": 3, "refused": "Missing"}),
        ),
    }
}

pub fn write(of: &Entry, into: &mut Vec<u8>) {
    let (word, mut value) = members(&of.reply);
    value["caller"] = 0.into();
    value["line"] = of.line.into();
    if let Some(word) = word {
        value["ok"] = word.into();
    }
    value["version"] = of.version.into();
    serde_json::to_writer(&mut *into, &value).unwrap();
    into.push(b'\n');
}
