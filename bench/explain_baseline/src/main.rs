// Why a claim in a document leaves requests out, written plainly: the document is read from standard input with serde_json,
// and the verdict and each request that is left out are written as lines. With the word `make` a large document is
// written, and with the word `starts` how many possible starts that document has.

mod bound {
    // The plain check, with what explains a claim beside it.
    include!("../../check_baseline/bound.rs");
    pub mod chart;
    pub mod left;
    mod opening;
}
#[path = "../../plancheck_baseline/src/document.rs"]
mod document;
#[path = "../../plancheck_baseline/src/faults.rs"]
mod faults;
#[path = "../../check_baseline/made.rs"]
mod made;
#[path = "../../check_baseline/parts.rs"]
mod parts;
#[path = "../../plain/sky.rs"]
mod sky;
#[path = "../../plain/spans.rs"]
mod spans;
#[path = "../../check_baseline/verdict.rs"]
mod verdict;
#[path = "../../plancheck_baseline/src/write.rs"]
mod write;

use bound::left::{lefts_of, Left};
use parts::{Claim, Placement};
use serde_json::{json, Value};
use std::io::{Read, Write};

fn placement(placement: &Placement) -> Value {
    json!([placement.request, placement.telescope, placement.slice])
}

fn line(claim: &Claim, left: &Left) -> Value {
    json!({
        "blocking": left.blocking.iter().map(placement).collect::<Value>(),
        "excluded": left.forced.is_none_or(|forced| forced < claim.value as i64),
        "forced": left.forced,
        "request": left.request,
        "starts": left.starts,
    })
}

fn answer(bytes: &[u8]) -> Result<Vec<Value>, document::Fault> {
    let value: Value = serde_json::from_slice(bytes).map_err(|_| document::Fault(1, ""))?;
    let members = value.as_object().ok_or(document::Fault(2, ""))?;
    let snapshot = document::snapshot(document::object(members, "snapshot")?)?;
    faults::first(&snapshot)?;
    let claim = document::claim(document::object(members, "claim")?)?;
    Ok(match verdict::check(&snapshot, &claim) {
        Ok((value, bound)) => {
            let mut lines = vec![json!({"ok": "yes", "value": value, "bound": bound})];
            lines.extend(
                lefts_of(&snapshot, &claim)
                    .iter()
                    .map(|left| line(&claim, left)),
            );
            lines
        }
        Err(reason) => vec![json!({"reason": format!("{reason:?}")})],
    })
}

fn main() {
    match std::env::args().nth(1).as_deref() {
        Some("make") => {
            let snapshot = made::snapshot();
            let claim = made::claim(&snapshot);
            println!("{}", write::document(&snapshot, &claim));
        }
        Some("starts") => {
            let snapshot = made::snapshot();
            let claim = made::claim(&snapshot);
            println!("{}", bound::chart::count_of(&snapshot, &claim.prices));
        }
        _ => explain(),
    }
}

fn explain() {
    let mut bytes = Vec::new();
    std::io::stdin().read_to_end(&mut bytes).unwrap();
    let lines =
        answer(&bytes).unwrap_or_else(|fault| vec![json!({"no": fault.0, "member": fault.1})]);
    let mut text = Vec::new();
    for line in lines {
        writeln!(text, "{line}").unwrap();
    }
    std::io::stdout().write_all(&text).unwrap();
}
