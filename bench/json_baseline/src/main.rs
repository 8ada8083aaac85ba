// What Rust's serde_json answers on the bytes that crates/plan_json tries, one line a case: `cargo run`.
// With a file's name it reads the file's lines nine times, and prints for each time how many are objects, and how many
// microseconds it took: bench/json calls it so.

use serde_json::Value;
use std::time::Instant;

// The answer of `parse_object`, and then of a whole number, or a text, at the member `at`.
fn answer(bytes: &[u8]) -> String {
    let value: Value = match serde_json::from_slice(bytes) {
        Ok(value) => value,
        Err(_) => return "NotJson".into(),
    };
    let Some(members) = value.as_object() else {
        return "NotObject".into();
    };
    match members.get("at") {
        None | Some(Value::Null) => "Missing".into(),
        Some(Value::Number(n)) if n.is_u64() || n.is_i64() => format!("whole {n}"),
        Some(Value::Number(_)) => "NotWhole".into(),
        Some(Value::String(text)) => format!("text {:?}", text.as_bytes()),
        Some(_) => "WrongKind".into(),
    }
}

fn nested(levels: usize) -> Vec<u8> {
    let lists = levels - 1;
    format!("{{\"at\":{}{}}}", "[".repeat(lists), "]".repeat(lists)).into_bytes()
}

fn cases() -> Vec<Vec<u8>> {
    let numbers = [
        "0",
        "-0",
        "-0.0",
        "1.0",
        "1e3",
        "1E+2",
        "-1",
        "01",
        "1.",
        ".5",
        "+1",
        "-",
        "0x10",
        "NaN",
        "1e400",
        "-1e400",
        "1e-400",
        "0.1e1000",
        "1e308",
        "18446744073709551615",
        "18446744073709551616",
        "9223372036854775808",
        "-9223372036854775808",
        "-9223372036854775809",
        "123456789012345678901234567890",
    ];
    let texts = [
        r#""""#,
        r#""a""#,
        r#""\u0000""#,
        r#""\/""#,
        r#""\x41""#,
        r#""\u004""#,
        r#""\ud83d\ude00""#,
        r#""\ud83d""#,
        r#""\ude00""#,
        r#""\ud83dx""#,
        r#""\ud83d\u0041""#,
        r#""\ude00\ud83d""#,
        "\"\t\"",
        "\"\n\"",
        "\"\u{1f}\"",
        "\"\u{7f}\"",
        "\"\u{80}\"",
        "'a'",
        "\"a",
    ];
    let mut cases: Vec<Vec<u8>> = numbers
        .iter()
        .chain(texts.iter())
        .map(|text| format!("{{\"at\":{text}}}").into_bytes())
        .collect();
    let whole = [
        "",
        " ",
        "\n",
        "null",
        "[]",
        "5",
        "\"a\"",
        "{}",
        " {} ",
        "\t{\"at\":1}\r\n",
        "\u{b}{}",
        "\u{c}{}",
        "\u{feff}{}",
        "{}\u{feff}",
        "{}{}",
        "{} x",
        "{},",
        "{\"at\":1,}",
        "{\"at\":1 \"b\":2}",
        "{at:1}",
        "{\"at\":1,\"at\":2}",
        "{\"at\":1,\"at\":null}",
        "{\"at\":1e400,\"at\":2}",
        "{\"\\u0061t\":7}",
        "{\"at\":true}",
        "{\"at\":null}",
        "{\"at\":{}}",
        "{\"at\":nul}",
        "/**/{}",
    ];
    cases.extend(whole.iter().map(|text| text.as_bytes().to_vec()));
    let bytes: [&[u8]; 6] = [
        b"{\"at\":\"\x00\"}",
        b"{\"at\":\"\xff\"}",
        b"{\"at\":\"\xc3\"}",
        b"{\"at\":\"\xed\xa0\x80\"}",
        b"{\"at\":\"\xc0\x80\"}",
        b"\xff{}",
    ];
    cases.extend(bytes.iter().map(|bytes| bytes.to_vec()));
    cases.extend([127, 128, 129].map(nested));
    cases
}

fn time(path: &str) {
    let bytes = std::fs::read(path).unwrap();
    for _ in 0..9 {
        let start = Instant::now();
        let count = bytes
            .split(|byte| *byte == b'\n')
            .filter(|line| matches!(serde_json::from_slice(line), Ok(Value::Object(_))))
            .count();
        println!("{count} {}", start.elapsed().as_micros());
    }
}

fn main() {
    if let Some(path) = std::env::args().nth(1) {
        return time(&path);
    }
    for case in cases() {
        let shown = String::from_utf8_lossy(&case[..case.len().min(60)])
            .escape_debug()
            .to_string();
        println!("{shown}  ->  {}", answer(&case));
    }
}
