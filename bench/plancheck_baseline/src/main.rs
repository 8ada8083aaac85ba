// The check of a claim in a document, written plainly: the document is read from standard input with serde_json, and the
// verdict written as a line. With the word `make` a large document is written.

#[path = "../../check_baseline/bound.rs"]
mod bound;
mod document;
mod faults;
#[path = "../../check_baseline/made.rs"]
mod made;
#[path = "../../check_baseline/parts.rs"]
mod parts;
#[path = "../../plain/sky.rs"]
mod sky;
#[path = "../../plain/spans.rs"]
mod spans;
#[path = "../../check_baseline/verdict.rs"]
mod verdict;
mod write;

use serde_json::{json, Value};
use std::io::Read;

fn answer(bytes: &[u8]) -> Result<Value, document::Fault> {
    let value: Value = serde_json::from_slice(bytes).map_err(|_| document::Fault(1, ""))?;
    let members = value.as_object().ok_or(document::Fault(2, ""))?;
    let snapshot = document::snapshot(document::object(members, "snapshot")?)?;
    faults::first(&snapshot)?;
    let claim = document::claim(document::object(members, "claim")?)?;
    Ok(match verdict::check(&snapshot, &claim) {
        Ok((value, bound)) => json!({"ok": "yes", "value": value, "bound": bound}),
        Err(reason) => json!({"reason": format!("{reason:?}")}),
    })
}

fn main() {
    if std::env::args().nth(1).as_deref() == Some("make") {
        let snapshot = made::snapshot();
        let claim = made::claim(&snapshot);
        println!("{}", write::document(&snapshot, &claim));
        return;
    }
    let mut bytes = Vec::new();
    std::io::stdin().read_to_end(&mut bytes).unwrap();
    match answer(&bytes) {
        Ok(line) => println!("{line}"),
        Err(fault) => println!("{}", json!({"no": fault.0, "member": fault.1})),
    }
}
