// What a line asks for.

use crate::document::{read_group, GroupDoc};
use crate::ledger::{Account, Key, ACCOUNTS};
use crate::network::{Scope, Times};
use crate::read::{
    find, list, moment, name, object, out_of_range, parse, refuse, span, spans, text, whole, word,
    Object, Read,
};
use crate::snapshot::{read_claim_member, Claim};
use crate::spans::Span;

pub struct Opening {
    pub now: u64,
    pub slice: u64,
    pub horizon: u64,
    pub semester: Span,
    pub lanes: u32,
    pub rounds: u32,
    pub quota: Option<u64>,
}

pub enum Command {
    Open(Opening),
    Instrument {
        name: String,
        times: Times,
    },
    Telescope {
        codes: (String, String, String),
        class: String,
        instruments: Vec<String>,
    },
    Night {
        site: String,
        spans: Vec<Span>,
    },
    Visibility {
        target: String,
        site: String,
        spans: Vec<Span>,
    },
    Close {
        scope: Scope,
        spans: Vec<Span>,
        closes: bool,
    },
    Grant {
        key: Key,
        seconds: u64,
    },
    Submit(GroupDoc),
    Amend {
        group: u32,
        document: GroupDoc,
    },
    Withdraw {
        group: u32,
    },
    Clock {
        at: u64,
    },
    Report {
        request: u32,
        percent: u8,
        used: u64,
    },
    Plan,
    Publish {
        version: u64,
        claim: Claim,
    },
    Export,
    Balances,
    Show {
        group: u32,
    },
}

fn open(of: &Object) -> Read<Command> {
    Ok(Command::Open(Opening {
        now: moment(of, "now")?,
        slice: whole(of, "slice", 60, 3_600)? as u64,
        horizon: whole(of, "horizon", 1, 1_440)? as u64,
        semester: span(of, "semester")?,
        lanes: whole(of, "lanes", 1, 8)? as u32,
        rounds: whole(of, "rounds", 1, 256)? as u32,
        quota: {
            whole(of, "workers", 1, 8)?;
            match find(of, "quota") {
                Some(_) => Some(whole(of, "quota", 1, 100_000_000)? as u64),
                None => None,
            }
        },
    }))
}

fn instrument(of: &Object) -> Read<Command> {
    let name = text(of, "type")?;
    let ms = |member| Ok(whole(of, member, 0, 86_400_000)? as u64);
    let times = Times {
        front: ms("front_ms")?,
        config: ms("config_ms")?,
        readout: ms("readout_ms")?,
        change: ms("change_ms")?,
    };
    Ok(Command::Instrument { name, times })
}

fn telescope(of: &Object) -> Read<Command> {
    let codes = (
        text(of, "site")?,
        text(of, "enclosure")?,
        text(of, "telescope")?,
    );
    let class = text(of, "class")?;
    let names = list(of, "instruments", 1, 16)?
        .iter()
        .map(|value| name(value, "instruments"));
    Ok(Command::Telescope {
        codes,
        class,
        instruments: names.collect::<Read<_>>()?,
    })
}

fn scope(of: &Object) -> Read<Scope> {
    if find(of, "telescope").is_none() {
        return Ok(Scope::Site(text(of, "site")?));
    }
    let telescope = text(of, "telescope")?;
    Ok(Scope::Telescope {
        site: text(of, "site")?,
        enclosure: text(of, "enclosure")?,
        telescope,
    })
}

fn grant(of: &Object) -> Read<Command> {
    let proposal = text(of, "proposal")?;
    let account = word(of, "account", &ACCOUNTS)?;
    let instrument = if account == Account::Ipp {
        String::new()
    } else {
        text(of, "instrument_type")?
    };
    let seconds = whole(of, "seconds", 1, 1_000_000_000)? as u64;
    Ok(Command::Grant {
        key: Key {
            proposal,
            account,
            instrument,
        },
        seconds,
    })
}

fn group_number(of: &Object) -> Read<u32> {
    Ok(whole(of, "group_number", 0, 4_294_967_295)? as u32)
}

fn members(word: &str, of: &Object) -> Read<Command> {
    Ok(match word {
        "open" => open(of)?,
        "instrument" => instrument(of)?,
        "telescope" => telescope(of)?,
        "night" => Command::Night {
            site: text(of, "site")?,
            spans: spans(of, "spans")?,
        },
        "visibility" => Command::Visibility {
            target: text(of, "target")?,
            site: text(of, "site")?,
            spans: spans(of, "spans")?,
        },
        "close" | "reopen" => Command::Close {
            scope: scope(of)?,
            spans: spans(of, "spans")?,
            closes: word == "close",
        },
        "grant" => grant(of)?,
        "submit" => Command::Submit(read_group(object(of, "group")?)?),
        "amend" => Command::Amend {
            group: group_number(of)?,
            document: read_group(object(of, "group")?)?,
        },
        "withdraw" => Command::Withdraw {
            group: group_number(of)?,
        },
        "clock" => Command::Clock {
            at: moment(of, "at")?,
        },
        "report" => Command::Report {
            request: whole(of, "request", 0, 4_294_967_295)? as u32,
            percent: whole(of, "percent", 0, 100)? as u8,
            used: whole(of, "used", 0, 86_400)? as u64,
        },
        "plan" => Command::Plan,
        "publish" => Command::Publish {
            version: whole(of, "version", 0, 524_288)? as u64,
            claim: read_claim_member(of)?,
        },
        "export" => Command::Export,
        "balances" => Command::Balances,
        "show" => Command::Show {
            group: group_number(of)?,
        },
        _ => return refuse(33, "UnknownCommand", vec![]),
    })
}

pub fn read_command(line: &[u8]) -> Read<Command> {
    if line.len() > 1_048_576 {
        return refuse(34, "LineTooLong", vec![]);
    }
    let of = parse(line)?;
    let word = match find(&of, "do") {
        Some(serde_json::Value::String(word)) if word.is_empty() || word.len() > 128 => {
            return out_of_range("do")
        }
        _ => text(&of, "do")?,
    };
    members(&word, &of)
}
