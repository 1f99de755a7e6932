//! JSON text, as much of it as the answers need.

use crate::failure::Failure;
use std::fmt::{self, Write};

#[derive(Clone, Debug)]
pub enum Json {
    Null,
    Truth(bool),
    Number(u64),
    Text(String),
    List(Vec<Json>),
    Object(Vec<(&'static str, Json)>),
}

impl Json {
    pub fn text(words: impl Into<String>) -> Json {
        Json::Text(words.into())
    }

    pub fn hex(bytes: &[u8]) -> Json {
        let digit = |half: u8| char::from(b"0123456789abcdef"[usize::from(half)]);
        Json::Text(bytes.iter().flat_map(|byte| [digit(byte >> 4), digit(byte & 15)]).collect())
    }

    pub fn numbers(numbers: &[u64]) -> Json {
        Json::List(numbers.iter().copied().map(Json::Number).collect())
    }

    /// A number, or null where there is none.
    pub fn slot(slot: Option<u64>) -> Json {
        slot.map_or(Json::Null, Json::Number)
    }
}

/// The one object that a command leaves: how it went, then its own fields.
pub fn success(command: &'static str, fields: Vec<(&'static str, Json)>) -> Json {
    let mut object = vec![("ok", Json::Truth(true)), ("command", Json::text(command))];
    object.extend(fields);
    Json::Object(object)
}

/// The object of a command that failed; a refusal has its number and slot, and
/// what failed only after all was done says so.
pub fn failure(command: Option<&'static str>, failure: &Failure) -> Json {
    let mut object = vec![
        ("ok", Json::Truth(false)),
        ("command", command.map_or(Json::Null, Json::text)),
        ("status", Json::Number(failure.status().into())),
    ];
    if let Failure::Refused(refusal) | Failure::Explained(refusal, _) = failure {
        object.push(("refusal", Json::Number(refusal.number)));
        object.push(("words", Json::text(refusal.words())));
        object.push(("slot", Json::slot(refusal.slot)));
    }
    if let Failure::Explained(_, reason) = failure {
        object.extend(reason.facts.iter().map(|(name, fact)| (*name, Json::Number(*fact))));
    }
    object.push(("message", Json::text(failure.to_string())));
    if matches!(failure, Failure::Done(..)) {
        object.push(("done", Json::Truth(true)));
    }
    Json::Object(object)
}

impl fmt::Display for Json {
    fn fmt(&self, out: &mut fmt::Formatter<'_>) -> fmt::Result {
        match self {
            Json::Null => out.write_str("null"),
            Json::Truth(truth) => write!(out, "{truth}"),
            Json::Number(number) => write!(out, "{number}"),
            Json::Text(text) => quoted(out, text),
            Json::List(items) => {
                out.write_char('[')?;
                for (place, item) in items.iter().enumerate() {
                    write!(out, "{}{item}", comma(place))?;
                }
                out.write_char(']')
            }
            Json::Object(fields) => {
                out.write_char('{')?;
                for (place, (name, value)) in fields.iter().enumerate() {
                    write!(out, "{}\"{name}\":{value}", comma(place))?;
                }
                out.write_char('}')
            }
        }
    }
}

fn comma(place: usize) -> &'static str {
    if place == 0 {
        ""
    } else {
        ","
    }
}

fn quoted(out: &mut fmt::Formatter<'_>, text: &str) -> fmt::Result {
    out.write_char('"')?;
    for letter in text.chars() {
        match letter {
            '"' => out.write_str("\\\"")?,
            '\\' => out.write_str("\\\\")?,
            '\n' => out.write_str("\\n")?,
            letter if u32::from(letter) < 0x20 => write!(out, "\\u{:04x}", u32::from(letter))?,
            letter => out.write_char(letter)?,
        }
    }
    out.write_char('"')
}

#[cfg(test)]
mod tests {
    use super::*;

    #[test]
    fn text_is_quoted() {
        assert_eq!(Json::text("a\"b\\c\nd\u{1}").to_string(), r#""a\"b\\c\nd\u0001""#);
    }

    #[test]
    fn objects_and_lists() {
        let list = Json::List(vec![Json::Number(1), Json::Null]);
        let object = success("ls", vec![("blobs", list), ("hex", Json::hex(&[0, 255]))]);
        let wanted = r#"{"ok":true,"command":"ls","blobs":[1,null],"hex":"00ff"}"#;
        assert_eq!(object.to_string(), wanted);
    }
}
