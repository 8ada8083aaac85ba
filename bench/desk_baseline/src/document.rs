// Documents of request groups, read and written.

use crate::read::{
    element, find, list, missing, moment, object, optional_text, refuse, text, whole, whole_or,
    word, Object, Read,
};
use crate::snapshot::Op;
use crate::spans::Span;
use serde_json::{json, Value};

#[derive(Clone, Copy, PartialEq, Eq)]
pub enum Kind {
    Normal,
    TimeCritical,
    RapidResponse,
}

pub const OPS: [(&str, Op); 4] = [
    ("SINGLE", Op::Single),
    ("MANY", Op::Many),
    ("ONEOF", Op::OneOf),
    ("AND", Op::And),
];

const KINDS: [(&str, Kind); 3] = [
    ("NORMAL", Kind::Normal),
    ("TIME_CRITICAL", Kind::TimeCritical),
    ("RAPID_RESPONSE", Kind::RapidResponse),
];

pub fn op_word(op: Op) -> &'static str {
    OPS[op as usize].0
}

#[derive(Clone, Copy)]
pub struct Cadence {
    pub start: u64,
    pub end: u64,
    pub period: u64,
    pub jitter: u64,
}

pub enum When {
    Windows(Vec<Span>),
    Cadence(Cadence),
}

pub struct Location {
    pub class: String,
    pub site: Option<String>,
    pub enclosure: Option<String>,
    pub telescope: Option<String>,
}

pub struct Configuration {
    pub target: String,
    /// Milliseconds and count.
    pub exposures: Vec<(u64, u64)>,
}

pub struct RequestDoc {
    pub location: Location,
    pub when: When,
    pub instrument: String,
    pub configurations: Vec<Configuration>,
    pub threshold: u8,
    pub fade: u16,
}

pub struct GroupDoc {
    pub name: String,
    pub proposal: String,
    pub op: Op,
    pub kind: Kind,
    pub ipp: u64,
    pub priority: u64,
    pub requests: Vec<RequestDoc>,
}

fn location(of: &Object) -> Read<Location> {
    let of = object(of, "location")?;
    Ok(Location {
        class: text(of, "telescope_class")?,
        site: optional_text(of, "site")?,
        enclosure: optional_text(of, "enclosure")?,
        telescope: optional_text(of, "telescope")?,
    })
}

fn windows(of: &Object, index: usize) -> Read<Vec<Span>> {
    let mut windows = Vec::new();
    for (place, value) in list(of, "windows", 1, 32)?.iter().enumerate() {
        let value = element(value, "windows")?;
        let (from, to) = (moment(value, "start")?, moment(value, "end")?);
        if from >= to {
            return refuse(
                9,
                "BadWindow",
                vec![("index", index.into()), ("window", place.into())],
            );
        }
        windows.push(Span { from, to });
    }
    Ok(windows)
}

fn when(of: &Object, index: usize) -> Read<When> {
    if find(of, "cadence").is_none() {
        return Ok(When::Windows(windows(of, index)?));
    }
    let of = object(of, "cadence")?;
    Ok(When::Cadence(Cadence {
        start: moment(of, "start")?,
        end: moment(of, "end")?,
        period: whole(of, "period", 0, 15_552_000)? as u64,
        jitter: whole(of, "jitter", 0, 15_552_000)? as u64,
    }))
}

fn configuration(value: &Value) -> Read<(String, Configuration)> {
    let of = element(value, "configurations")?;
    let instrument = text(of, "instrument_type")?;
    let target = text(object(of, "target")?, "name")?;
    let mut exposures = Vec::new();
    for value in list(of, "instrument_configs", 1, 16)? {
        let of = element(value, "instrument_configs")?;
        let ms = whole(of, "exposure_time_ms", 1, 86_400_000)? as u64;
        exposures.push((ms, whole(of, "exposure_count", 1, 10_000)? as u64));
    }
    Ok((instrument, Configuration { target, exposures }))
}

fn request(value: &Value, index: usize) -> Read<RequestDoc> {
    let of = element(value, "requests")?;
    let location = location(of)?;
    let when = when(of, index)?;
    let read: Vec<_> = list(of, "configurations", 1, 16)?
        .iter()
        .map(configuration)
        .collect::<Read<_>>()?;
    let instrument = read[0].0.clone();
    if read.iter().any(|(other, _)| *other != instrument) {
        return refuse(35, "MixedInstruments", vec![("index", index.into())]);
    }
    Ok(RequestDoc {
        location,
        when,
        instrument,
        configurations: read
            .into_iter()
            .map(|(_, configuration)| configuration)
            .collect(),
        threshold: whole_or(of, "acceptability_threshold", 0, 100, 90)? as u8,
        fade: whole_or(of, "fade", 0, 1_000, 0)? as u16,
    })
}

fn ipp(of: &Object) -> Read<u64> {
    if find(of, "ipp_thousandths").is_none() && find(of, "ipp_value").is_some() {
        return missing("ipp_thousandths");
    }
    Ok(whole_or(of, "ipp_thousandths", 500, 2_000, 1_000)? as u64)
}

pub fn read_group(of: &Object) -> Read<GroupDoc> {
    let name = text(of, "name")?;
    let proposal = text(of, "proposal")?;
    let op = word(of, "operator", &OPS)?;
    let kind = word(of, "observation_type", &KINDS)?;
    let ipp = ipp(of)?;
    let priority = whole_or(of, "priority", 1, 100, 10)? as u64;
    let requests = list(of, "requests", 0, 1_024)?;
    let count = requests.len();
    if !(if op == Op::Single {
        count == 1
    } else {
        (2..=32).contains(&count)
    }) {
        return refuse(
            8,
            "BadShape",
            vec![("count", count.into()), ("operator", op_word(op).into())],
        );
    }
    let requests = requests
        .iter()
        .enumerate()
        .map(|(index, value)| request(value, index))
        .collect::<Read<_>>()?;
    Ok(GroupDoc {
        name,
        proposal,
        op,
        kind,
        ipp,
        priority,
        requests,
    })
}

fn write_configuration(instrument: &str, of: &Configuration) -> Value {
    let exposures: Vec<_> = of
        .exposures
        .iter()
        .map(|(ms, count)| json!({"exposure_count": count, "exposure_time_ms": ms}))
        .collect();
    json!({"instrument_configs": exposures, "instrument_type": instrument, "target": {"name": of.target}})
}

fn write_location(of: &Location) -> Value {
    let mut out = json!({"telescope_class": of.class});
    for (member, text) in [
        ("site", &of.site),
        ("enclosure", &of.enclosure),
        ("telescope", &of.telescope),
    ] {
        if let Some(text) = text {
            out[member] = text.as_str().into();
        }
    }
    out
}

fn write_request(of: &RequestDoc) -> Value {
    let configurations: Vec<_> = of
        .configurations
        .iter()
        .map(|one| write_configuration(&of.instrument, one))
        .collect();
    let mut out = json!({
        "acceptability_threshold": of.threshold,
        "configurations": configurations,
        "location": write_location(&of.location),
    });
    match &of.when {
        When::Windows(windows) => {
            out["windows"] = windows
                .iter()
                .map(|span| json!({"end": span.to, "start": span.from}))
                .collect();
        }
        When::Cadence(of) => {
            out["cadence"] =
                json!({"end": of.end, "jitter": of.jitter, "period": of.period, "start": of.start});
        }
    }
    if of.fade > 0 {
        out["fade"] = of.fade.into();
    }
    out
}

pub fn write_group(of: &GroupDoc) -> Value {
    json!({
        "ipp_thousandths": of.ipp,
        "name": of.name,
        "observation_type": KINDS[of.kind as usize].0,
        "operator": op_word(of.op),
        "priority": of.priority,
        "proposal": of.proposal,
        "requests": of.requests.iter().map(write_request).collect::<Vec<_>>(),
    })
}
