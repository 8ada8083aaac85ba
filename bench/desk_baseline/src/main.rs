// A whole session as netsched runs it, in plain Rust with serde_json: lines from standard input, replies to standard output.

mod check;
mod command;
mod desk;
mod document;
mod ledger;
mod network;
mod read;
mod snapshot;
mod solve;
#[path = "../../plain/spans.rs"]
mod spans;

use command::{read_command, Command};
use desk::Desk;
use read::{Read, Refusal};
use serde_json::{json, Value};
use std::io::{self, BufRead, BufReader, BufWriter, Write};

/// The text of an entry.
fn entry(line: usize, version: u64, ok: &str, mut members: Value) -> Value {
    members["caller"] = 0.into();
    members["line"] = line.into();
    members["ok"] = ok.into();
    members["version"] = version.into();
    members
}

fn refused(line: usize, version: u64, refusal: Refusal) -> Value {
    let mut out = json!({
        "caller": 0, "line": line, "no": refusal.no, "refused": refusal.name, "version": version,
    });
    for (member, value) in refusal.fields {
        out[member] = value;
    }
    out
}

fn plan(desk: &mut Desk, line: usize, out: &mut Vec<Value>) -> Read<()> {
    let (snapshot, lanes, rounds) = desk.take()?;
    let version = desk.version;
    out.push(entry(line, version, "taken", json!({})));
    match solve::solve(&snapshot, lanes, rounds) {
        Ok(claim) => {
            let members = desk.publish(snapshot, claim);
            out.push(entry(line, version, "published", members));
            Ok(())
        }
        Err(count) => read::refuse(38, "TooManyStarts", vec![("count", count.into())]),
    }
}

fn do_line(desk: &mut Desk, line: usize, bytes: &[u8], out: &mut Vec<Value>) {
    let version = desk.version;
    let done = match read_command(bytes) {
        Ok(Command::Plan) => plan(desk, line, out),
        Ok(command) => desk
            .apply(command)
            .map(|(ok, members, _)| out.push(entry(line, version, ok, members))),
        Err(refusal) => Err(refusal),
    };
    if let Err(refusal) = done {
        out.push(refused(line, version, refusal));
    }
}

fn main() -> io::Result<()> {
    let mut input = BufReader::with_capacity(65_536, io::stdin().lock());
    let mut output = BufWriter::with_capacity(65_536, io::stdout().lock());
    let mut desk = Desk::default();
    let mut bytes = Vec::new();
    let mut entries = Vec::new();
    for line in 1.. {
        bytes.clear();
        if input.read_until(b'\n', &mut bytes)? == 0 {
            break;
        }
        if bytes.last() == Some(&b'\n') {
            bytes.pop();
        }
        do_line(&mut desk, line, &bytes, &mut entries);
        for entry in entries.drain(..) {
            serde_json::to_writer(&mut output, &entry)?;
            output.write_all(b"\n")?;
        }
        if input.buffer().is_empty() {
            output.flush()?;
        }
    }
    output.flush()
}
