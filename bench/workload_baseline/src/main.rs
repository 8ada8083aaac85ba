// A night from a number, as `netsched workload` does it, in plain Rust with serde_json: the lines are drawn, done on the desk of
// bench/desk_baseline and summed up in one line. The word is the number. The plan is sought by the workers of bench/plan_baseline, which
// are faster at it than that desk's own rounds. With a second word, a number of workers, the lines for so many are printed, and not done.

#[path = "../../desk_baseline/src/check.rs"]
mod check;
#[path = "../../desk_baseline/src/command.rs"]
mod command;
#[path = "../../desk_baseline/src/desk.rs"]
mod desk;
#[path = "../../desk_baseline/src/document.rs"]
mod document;
#[path = "../../plan_baseline/src/draft.rs"]
mod draft;
mod draws;
#[path = "../../plan_baseline/src/lane.rs"]
mod lane;
#[path = "../../desk_baseline/src/ledger.rs"]
mod ledger;
#[path = "../../desk_baseline/src/network.rs"]
mod network;
mod night;
mod places;
#[path = "../../plan_baseline/src/plan.rs"]
mod plan;
#[path = "../../desk_baseline/src/read.rs"]
#[allow(dead_code)]
mod read;
#[path = "../../plan_baseline/src/repair.rs"]
mod repair;
mod request;
#[path = "../../plan_baseline/src/rows.rs"]
mod rows;
#[path = "../../desk_baseline/src/snapshot.rs"]
mod snapshot;
#[path = "../../desk_baseline/src/solve.rs"]
#[allow(dead_code)]
mod solve;
#[path = "../../plain/spans.rs"]
mod spans;
mod summary;

use command::{read_command, Command};
use desk::Desk;
use std::error::Error;
use summary::{Reply, Summary};

/// How many workers seek the plan.
const WORKERS: usize = 4;

/// Seeks the plan and publishes it. (With 120 requests, 144 slices and 3 telescopes of a class, possible starts are never too many.)
fn publish_plan(desk: &mut Desk) -> Reply {
    let (snapshot, lanes, rounds) = desk.take()?;
    let claim = plan::plan(&snapshot, lanes, rounds, WORKERS);
    Ok(("published", desk.publish(snapshot, claim)))
}

/// What is replied to a line: where it asks for a plan, the plan that is published.
fn reply_to(desk: &mut Desk, line: &str) -> Reply {
    match read_command(line.as_bytes())? {
        Command::Plan => publish_plan(desk),
        command => {
            let (ok, members, _) = desk.apply(command)?;
            Ok((ok, members))
        }
    }
}

/// Does the lines of the night of this number, and prints their summary.
fn do_night(number: u32) {
    let mut desk = Desk::default();
    let mut summary = Summary::default();
    for line in night::lines(number, WORKERS) {
        summary.add(&reply_to(&mut desk, &line));
    }
    println!("{summary}");
}

fn main() -> Result<(), Box<dyn Error>> {
    let mut words = std::env::args().skip(1);
    let number = words.next().ok_or("a number is needed")?.parse()?;
    match words.next() {
        None => do_night(number),
        Some(workers) => {
            let workers = workers.parse()?;
            night::lines(number, workers).for_each(|line| println!("{line}"));
        }
    }
    Ok(())
}
