// What was replied to lines, in one line.

use crate::read::Read;
use serde_json::Value;
use std::fmt;

/// The ok word and the further members of what is replied, or why the line is refused.
pub type Reply = Read<(&'static str, Value)>;

#[derive(Default)]
pub struct Summary {
    /// The bound of the last claim that was published, or 0.
    bound: u64,
    lines: usize,
    refused: usize,
    /// How many requests were submitted.
    requests: usize,
    /// The value of the last claim that was published, or 0.
    value: u64,
}

fn count(list: &Value) -> usize {
    list.as_array().map_or(0, Vec::len)
}

impl Summary {
    /// Adds a line, by its reply.
    pub fn add(&mut self, reply: &Reply) {
        self.lines += 1;
        match reply {
            Ok(("submitted", members)) => self.requests += count(&members["requests"]),
            Ok(("published", members)) => {
                let number = |name| members["claim"][name].as_u64().unwrap_or(0);
                self.bound = number("bound");
                self.value = number("value");
            }
            Ok(_) => {}
            Err(_) => self.refused += 1,
        }
    }
}

impl fmt::Display for Summary {
    fn fmt(&self, out: &mut fmt::Formatter) -> fmt::Result {
        let Summary {
            bound,
            lines,
            refused,
            requests,
            value,
        } = self;
        write!(
            out,
            r#"{{"bound":{bound},"lines":{lines},"refused":{refused},"requests":{requests},"value":{value}}}"#
        )
    }
}
