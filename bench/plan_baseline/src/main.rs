// Plans in plain Rust, as bench/plan and bench/repair time those of the crates lanes and repair. Standard input is a document with a
// snapshot and a claim. With the word `repair` the plan of what telescopes start at the claim's prices is repaired again and again; with
// the word `count` possible starts are counted; with a number the planned claim is sought by so many workers and printed.

#[path = "../../desk_baseline/src/document.rs"]
#[allow(dead_code)]
mod document;
mod draft;
mod lane;
mod plan;
#[path = "../../desk_baseline/src/read.rs"]
#[allow(dead_code)]
mod read;
mod repair;
mod rows;
#[path = "../../desk_baseline/src/snapshot.rs"]
#[allow(dead_code)]
mod snapshot;
#[path = "../../plain/snapshot_document.rs"]
mod snapshot_document;
#[path = "../../plain/spans.rs"]
mod spans;
mod timing;

use std::io::Read as _;

const LANES: u32 = 8;
const ROUNDS: u32 = 256;

fn main() {
    let mut bytes = Vec::new();
    std::io::stdin().read_to_end(&mut bytes).unwrap();
    let snapshot = snapshot_document::read_snapshot(&bytes).unwrap();
    let word = std::env::args().nth(1).unwrap();
    match word.as_str() {
        "repair" => timing::time_repair(&bytes, &snapshot),
        "count" => {
            let runs = snapshot.runs();
            println!(
                "{}",
                runs.iter().map(|run| run.end - run.first).sum::<u64>()
            );
        }
        workers => {
            let claim = plan::plan(&snapshot, LANES, ROUNDS, workers.parse().unwrap());
            println!("{}", snapshot::write_claim(&claim));
        }
    }
}
