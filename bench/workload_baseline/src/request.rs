// Requests as they are drawn, and their documents.

use crate::draws::Draws;
use crate::places::{Class, CLASSES};
use std::fmt;

/// How many targets there are.
pub const TARGETS: u32 = 40;

/// One exposure of a target, by telescopes of a class, within a window of seconds.
pub struct Request {
    class: &'static Class,
    target: u32,
    exposure_ms: u32,
    start: u32,
    end: u32,
}

impl Request {
    pub fn drawn(draws: &mut Draws) -> Self {
        let class = &CLASSES[draws.below(2) as usize];
        let target = draws.below(TARGETS);
        let exposure_ms = 60_000 * (1 + draws.below(20));
        let start = 300 * draws.below(72);
        let end = start + 7_200 + 300 * draws.below(48);
        Request {
            class,
            target,
            exposure_ms,
            start,
            end,
        }
    }
}

impl fmt::Display for Request {
    fn fmt(&self, out: &mut fmt::Formatter) -> fmt::Result {
        let Class {
            name, instrument, ..
        } = self.class;
        let Request {
            target,
            exposure_ms,
            start,
            end,
            ..
        } = self;
        write!(
            out,
            r#"{{"configurations":[{{"instrument_configs":[{{"exposure_count":1,"exposure_time_ms":{exposure_ms}}}],"#
        )?;
        write!(
            out,
            r#""instrument_type":"{instrument}","target":{{"name":"T{target}"}}}}],"#
        )?;
        write!(
            out,
            r#""location":{{"telescope_class":"{name}"}},"windows":[{{"end":{end},"start":{start}}}]}}"#
        )
    }
}
