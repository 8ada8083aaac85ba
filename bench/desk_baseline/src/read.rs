// Members of JSON documents, with the first fault of each.

use crate::spans::Span;
use serde_json::{Map, Value};

pub type Object = Map<String, Value>;
pub type Read<T> = Result<T, Refusal>;

/// Why a line is refused: its number, its name and the further members.
#[derive(Debug, Clone)]
pub struct Refusal {
    pub no: u8,
    pub name: &'static str,
    pub fields: Vec<(&'static str, Value)>,
}

pub fn refuse<T>(no: u8, name: &'static str, fields: Vec<(&'static str, Value)>) -> Read<T> {
    Err(Refusal { no, name, fields })
}

fn fault<T>(no: u8, name: &'static str, member: &str) -> Read<T> {
    refuse(no, name, vec![("member", member.into())])
}

pub fn missing<T>(member: &str) -> Read<T> {
    fault(3, "Missing", member)
}

pub fn wrong_kind<T>(member: &str) -> Read<T> {
    fault(4, "WrongKind", member)
}

pub fn out_of_range<T>(member: &str) -> Read<T> {
    fault(6, "OutOfRange", member)
}

pub const LAST_MOMENT: i64 = 253_402_300_799;

pub fn parse(line: &[u8]) -> Read<Object> {
    match serde_json::from_slice(line) {
        Err(_) => refuse(1, "NotJson", vec![]),
        Ok(Value::Object(object)) => Ok(object),
        Ok(_) => refuse(2, "NotObject", vec![]),
    }
}

/// The member, where it is there and not `null`.
pub fn find<'a>(object: &'a Object, member: &str) -> Option<&'a Value> {
    object.get(member).filter(|value| !value.is_null())
}

pub fn need<'a>(object: &'a Object, member: &str) -> Read<&'a Value> {
    find(object, member).map_or_else(|| missing(member), Ok)
}

pub fn number(value: &Value, member: &str, least: i64, most: i64) -> Read<i64> {
    let Value::Number(number) = value else {
        return wrong_kind(member);
    };
    match (number.as_i64(), number.as_u64()) {
        (Some(n), _) if least <= n && n <= most => Ok(n),
        (Some(_), _) | (None, Some(_)) => out_of_range(member),
        (None, None) => fault(5, "NotWhole", member),
    }
}

pub fn whole(object: &Object, member: &str, least: i64, most: i64) -> Read<i64> {
    number(need(object, member)?, member, least, most)
}

pub fn whole_or(object: &Object, member: &str, least: i64, most: i64, absent: i64) -> Read<i64> {
    find(object, member).map_or(Ok(absent), |value| number(value, member, least, most))
}

pub fn name(value: &Value, member: &str) -> Read<String> {
    match value {
        Value::String(text) if (1..=128).contains(&text.len()) => Ok(text.clone()),
        Value::String(_) => out_of_range(member),
        _ => wrong_kind(member),
    }
}

pub fn text(object: &Object, member: &str) -> Read<String> {
    name(need(object, member)?, member)
}

pub fn optional_text(object: &Object, member: &str) -> Read<Option<String>> {
    find(object, member)
        .map(|value| name(value, member))
        .transpose()
}

/// One of some words.
pub fn word<T: Copy>(object: &Object, member: &str, words: &[(&str, T)]) -> Read<T> {
    let text = text(object, member)?;
    let found = words.iter().find(|(word, _)| *word == text);
    found.map_or_else(|| out_of_range(member), |(_, kind)| Ok(*kind))
}

pub fn object<'a>(object: &'a Object, member: &str) -> Read<&'a Object> {
    need(object, member)?
        .as_object()
        .map_or_else(|| wrong_kind(member), Ok)
}

pub fn list<'a>(
    object: &'a Object,
    member: &str,
    least: usize,
    most: usize,
) -> Read<&'a Vec<Value>> {
    let list = need(object, member)?
        .as_array()
        .map_or_else(|| wrong_kind(member), Ok)?;
    if list.len() < least || most < list.len() {
        return out_of_range(member);
    }
    Ok(list)
}

/// An element of a list that is to be an object.
pub fn element<'a>(value: &'a Value, member: &str) -> Read<&'a Object> {
    value.as_object().map_or_else(|| wrong_kind(member), Ok)
}

/// An element of a list that is to be a list of so many.
pub fn tuple<'a>(value: &'a Value, member: &str, count: usize) -> Read<&'a [Value]> {
    match value {
        Value::Array(list) if list.len() == count => Ok(list),
        _ => wrong_kind(member),
    }
}

fn digits(bytes: &[u8]) -> Option<i64> {
    bytes.iter().try_fold(0, |sum, byte| {
        byte.is_ascii_digit()
            .then(|| sum * 10 + i64::from(byte - b'0'))
    })
}

fn days_before(year: i64, month: i64, day: i64) -> i64 {
    let year = if month <= 2 { year - 1 } else { year };
    let era_year = year.rem_euclid(400);
    let day_of_year = (153 * ((month + 9) % 12) + 2) / 5 + day - 1;
    year.div_euclid(400) * 146_097 + era_year * 365 + era_year / 4 - era_year / 100 + day_of_year
        - 719_468
}

fn days_in(year: i64, month: i64) -> i64 {
    let leap = year % 4 == 0 && (year % 100 != 0 || year % 400 == 0);
    [
        31,
        if leap { 29 } else { 28 },
        31,
        30,
        31,
        30,
        31,
        31,
        30,
        31,
        30,
        31,
    ][month as usize - 1]
}

/// What stands after the seconds: perhaps a point with 1 to 9 zeros, then nothing, `Z` or `+00:00`.
fn is_utc(tail: &str) -> bool {
    let zone = match tail.strip_prefix('.') {
        Some(rest) => {
            let zone = rest.trim_start_matches('0');
            if !(1..=9).contains(&(rest.len() - zone.len())) {
                return false;
            }
            zone
        }
        None => tail,
    };
    matches!(zone, "" | "Z" | "+00:00")
}

fn second_of(text: &str) -> Option<i64> {
    let bytes = text.as_bytes();
    if bytes.len() < 19 || !text.is_char_boundary(19) || !is_utc(&text[19..]) {
        return None;
    }
    let marks = [(4, b"-"), (7, b"-"), (13, b":"), (16, b":")];
    if marks.iter().any(|(at, mark)| bytes[*at] != mark[0]) || !matches!(bytes[10], b'T' | b' ') {
        return None;
    }
    let part = |from, to| digits(&bytes[from..to]);
    let (year, month, day) = (part(0, 4)?, part(5, 7)?, part(8, 10)?);
    let (hour, minute, second) = (part(11, 13)?, part(14, 16)?, part(17, 19)?);
    if year < 1970 || !(1..=12).contains(&month) || day < 1 || days_in(year, month) < day {
        return None;
    }
    if hour > 23 || minute > 59 || second > 59 {
        return None;
    }
    Some(days_before(year, month, day) * 86_400 + hour * 3_600 + minute * 60 + second)
}

pub fn moment_of(value: &Value, member: &str) -> Read<u64> {
    match value {
        Value::String(text) => second_of(text)
            .map_or_else(|| fault(7, "BadMoment", member), |second| Ok(second as u64)),
        _ => Ok(number(value, member, 0, LAST_MOMENT)? as u64),
    }
}

pub fn moment(object: &Object, member: &str) -> Read<u64> {
    moment_of(need(object, member)?, member)
}

fn span_of(value: &Value, member: &str) -> Read<Span> {
    let pair = tuple(value, member, 2)?;
    let from = moment_of(&pair[0], member)?;
    let to = moment_of(&pair[1], member)?;
    if from >= to {
        return out_of_range(member);
    }
    Ok(Span { from, to })
}

pub fn span(object: &Object, member: &str) -> Read<Span> {
    span_of(need(object, member)?, member)
}

pub fn spans(object: &Object, member: &str) -> Read<Vec<Span>> {
    let list = list(object, member, 0, 512)?;
    list.iter().map(|value| span_of(value, member)).collect()
}
