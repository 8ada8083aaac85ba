// The lines of a night that is drawn from a number.

use crate::document::op_word;
use crate::draws::Draws;
use crate::places::{Class, Site, CLASSES, SITES};
use crate::request::{Request, TARGETS};
use crate::snapshot::Op;
use std::iter::once;

const PROPOSALS: u32 = 4;
const GROUPS: u32 = 70;

/// What a line is about. Targets, proposals and groups are counted from 0.
enum Subject {
    Open {
        workers: usize,
    },
    Instrument(&'static Class),
    Telescope {
        site: &'static Site,
        class: &'static Class,
    },
    Night(&'static Site),
    Visibility {
        target: u32,
        site: &'static Site,
    },
    Grant {
        proposal: u32,
        class: &'static Class,
    },
    Submit {
        group: u32,
    },
    Plan,
}

fn open(workers: usize) -> String {
    format!(
        r#"{{"do":"open","horizon":144,"lanes":4,"now":0,"rounds":32,"semester":[0,15552000],"slice":300,"workers":{workers}}}"#
    )
}

fn instrument(class: &Class) -> String {
    let name = class.instrument;
    format!(
        r#"{{"change_ms":2000,"config_ms":16000,"do":"instrument","front_ms":90000,"readout_ms":28000,"type":"{name}"}}"#
    )
}

fn telescope(site: &Site, class: &Class) -> String {
    let site = site.name;
    let Class {
        name,
        instrument,
        enclosure,
        telescope,
    } = class;
    let head = format!(
        r#""class":"{name}","do":"telescope","enclosure":"{enclosure}","instruments":["{instrument}"]"#
    );
    format!(r#"{{{head},"site":"{site}","telescope":"{telescope}"}}"#)
}

fn night(site: &Site) -> String {
    let Site { name, dusk } = site;
    let dawn = dusk + 28_800;
    format!(r#"{{"do":"night","site":"{name}","spans":[[{dusk},{dawn}]]}}"#)
}

fn visibility(draws: &mut Draws, target: u32, site: &Site) -> String {
    let site = site.name;
    let rise = 300 * draws.below(96);
    let set = rise + 10_800 + 300 * draws.below(24);
    format!(
        r#"{{"do":"visibility","site":"{site}","spans":[[{rise},{set}]],"target":"T{target}"}}"#
    )
}

fn grant(proposal: u32, class: &Class) -> String {
    let instrument = class.instrument;
    format!(
        r#"{{"account":"standard","do":"grant","instrument_type":"{instrument}","proposal":"P{proposal}","seconds":1000000}}"#
    )
}

/// The kind of a group, and how many requests it has.
fn shape_of(group: u32) -> (Op, usize) {
    match group % 7 {
        0..=3 => (Op::Single, 1),
        4 => (Op::Many, 3),
        5 => (Op::OneOf, 3),
        _ => (Op::And, 2),
    }
}

fn submit(draws: &mut Draws, group: u32) -> String {
    let (op, count) = shape_of(group);
    let operator = op_word(op);
    let priority = 1 + draws.below(30);
    let proposal = group % PROPOSALS;
    let requests: Vec<_> = (0..count)
        .map(|_| Request::drawn(draws).to_string())
        .collect();
    let requests = requests.join(",");
    let head = format!(
        r#""name":"g","observation_type":"NORMAL","operator":"{operator}","priority":{priority},"proposal":"P{proposal}""#
    );
    format!(r#"{{"do":"submit","group":{{{head},"requests":[{requests}]}}}}"#)
}

impl Subject {
    /// The line about this, with what is drawn for it.
    fn line(self, draws: &mut Draws) -> String {
        match self {
            Subject::Open { workers } => open(workers),
            Subject::Instrument(class) => instrument(class),
            Subject::Telescope { site, class } => telescope(site, class),
            Subject::Night(site) => night(site),
            Subject::Visibility { target, site } => visibility(draws, target, site),
            Subject::Grant { proposal, class } => grant(proposal, class),
            Subject::Submit { group } => submit(draws, group),
            Subject::Plan => r#"{"do":"plan"}"#.to_owned(),
        }
    }
}

/// What the lines are about, in order.
fn subjects(workers: usize) -> impl Iterator<Item = Subject> {
    let telescopes = SITES.iter().flat_map(|site| {
        CLASSES
            .iter()
            .map(move |class| Subject::Telescope { site, class })
    });
    let visibilities = (0..TARGETS).flat_map(|target| {
        SITES
            .iter()
            .map(move |site| Subject::Visibility { target, site })
    });
    let grants = (0..PROPOSALS).flat_map(|proposal| {
        CLASSES
            .iter()
            .map(move |class| Subject::Grant { proposal, class })
    });
    once(Subject::Open { workers })
        .chain(CLASSES.iter().map(Subject::Instrument))
        .chain(telescopes)
        .chain(SITES.iter().map(Subject::Night))
        .chain(visibilities)
        .chain(grants)
        .chain((0..GROUPS).map(|group| Subject::Submit { group }))
        .chain(once(Subject::Plan))
}

/// The lines of a number's night, whose plan is sought by so many workers.
pub fn lines(number: u32, workers: usize) -> impl Iterator<Item = String> {
    let mut draws = Draws::new(number);
    subjects(workers).map(move |subject| subject.line(&mut draws))
}
