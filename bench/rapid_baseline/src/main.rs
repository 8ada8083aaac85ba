// Insertions into a claim, written plainly. Standard input is a document with a snapshot, a claim and groups. The claim is begun
// with four times. With a word the groups are inserted each time, one after another, and what comes of them is written as lines;
// with two words the claim is checked a hundred times besides. With the word `make` such a document is written.

#[path = "../../check_baseline/bound.rs"]
mod bound;
#[path = "../../plancheck_baseline/src/document.rs"]
mod document;
#[path = "../../plancheck_baseline/src/faults.rs"]
mod faults;
#[path = "../../check_baseline/made.rs"]
mod made;
mod make;
#[path = "../../check_baseline/parts.rs"]
mod parts;
mod rapid;
mod seek;
#[path = "../../plain/sky.rs"]
mod sky;
#[path = "../../plain/spans.rs"]
mod spans;
#[path = "../../check_baseline/verdict.rs"]
mod verdict;
#[path = "../../plancheck_baseline/src/write.rs"]
mod write;

use parts::{Claim, Group, Snapshot};
use rapid::Rapid;
use serde_json::{json, Value};
use std::hint::black_box;
use std::io::Read as _;

const TURNS: usize = 4;
const CHECKS: usize = 100;

/// The snapshot, the claim and the groups of a document.
fn read(bytes: &[u8]) -> Result<(Snapshot, Claim, Vec<Group>), document::Fault> {
    let value: Value = serde_json::from_slice(bytes).map_err(|_| document::Fault(1, ""))?;
    let members = value.as_object().ok_or(document::Fault(2, ""))?;
    let snapshot = document::snapshot(document::object(members, "snapshot")?)?;
    faults::first(&snapshot)?;
    let claim = document::claim(document::object(members, "claim")?)?;
    // (the groups are read as those of a snapshot)
    let later = json!({
        "version": 0, "len": 300, "first": 0, "slices": 1, "telescopes": [], "skies": [], "groups": members["groups"]
    });
    let later = document::snapshot(later.as_object().ok_or(document::Fault(2, ""))?)?;
    Ok((snapshot, claim, later.groups))
}

/// Begins with the claim, and inserts the groups, if they are to be.
fn turn(bytes: &[u8], inserts: bool) {
    let (snapshot, claim, groups) = read(bytes).unwrap();
    let mut rapid = Rapid::new(snapshot, claim).unwrap();
    if inserts {
        for group in groups {
            let placed = rapid.insert(group).unwrap();
            rapid.show(placed);
        }
    }
}

fn main() {
    let words: Vec<String> = std::env::args().skip(1).collect();
    if words.first().is_some_and(|word| word == "make") {
        println!("{}", make::document());
        return;
    }
    let mut bytes = Vec::new();
    std::io::stdin().read_to_end(&mut bytes).unwrap();
    for _ in 0..TURNS {
        turn(&bytes, words.len() == 1);
    }
    if words.len() == 2 {
        let (snapshot, claim, _) = read(&bytes).unwrap();
        for _ in 0..CHECKS {
            black_box(verdict::check(black_box(&snapshot), black_box(&claim))).unwrap();
        }
    }
}
