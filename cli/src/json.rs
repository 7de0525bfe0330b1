//! JSON, written from a value, so that it is always whole.

use crate::failure::Failure;
use crate::out::Out;
use crate::text::is_unseen;
use std::fmt::{self, Display, Formatter, Write};
use std::io::Write as _;

pub enum Json {
    Null,
    Bool(bool),
    Number(usize),
    Text(String),
    List(Vec<Json>),
    Object(Vec<(&'static str, Json)>),
}

impl Json {
    pub fn text(text: impl Into<String>) -> Json {
        Json::Text(text.into())
    }

    pub fn texts<'a>(texts: impl IntoIterator<Item = &'a String>) -> Json {
        Json::List(texts.into_iter().map(Json::text).collect())
    }

    /// The value on one line of standard output.
    pub fn print(&self, out: &mut Out) -> Result<(), Failure> {
        Ok(writeln!(out.stdout, "{self}")?)
    }

    pub fn number(number: Option<u32>) -> Json {
        Json::offset(number.map(|number| number as usize))
    }

    pub fn offset(offset: Option<usize>) -> Json {
        offset.map_or(Json::Null, Json::Number)
    }
}

impl Display for Json {
    fn fmt(&self, f: &mut Formatter<'_>) -> fmt::Result {
        match self {
            Json::Null => f.write_str("null"),
            Json::Bool(value) => write!(f, "{value}"),
            Json::Number(value) => write!(f, "{value}"),
            Json::Text(text) => string(f, text),
            Json::List(list) => {
                f.write_char('[')?;
                for (i, value) in list.iter().enumerate() {
                    write!(f, "{}{value}", if i > 0 { "," } else { "" })?;
                }
                f.write_char(']')
            }
            Json::Object(fields) => {
                f.write_char('{')?;
                for (i, (name, value)) in fields.iter().enumerate() {
                    write!(f, "{}\"{name}\":{value}", if i > 0 { "," } else { "" })?;
                }
                f.write_char('}')
            }
        }
    }
}

/// A string of any characters. Those that are not seen are written by their number.
fn string(f: &mut Formatter<'_>, text: &str) -> fmt::Result {
    f.write_char('"')?;
    for c in text.chars() {
        match c {
            '"' => f.write_str("\\\"")?,
            '\\' => f.write_str("\\\\")?,
            c if is_unseen(c) => {
                for unit in c.encode_utf16(&mut [0; 2]) {
                    write!(f, "\\u{unit:04x}")?;
                }
            }
            c => f.write_char(c)?,
        }
    }
    f.write_char('"')
}

#[cfg(test)]
mod tests {
    use super::*;

    #[test]
    fn strings_and_nests() {
        let json = Json::Object(vec![
            ("a", Json::text("tab\t quote\" back\\ nul\0 del\u{7f} turn\u{202e} tag\u{e0041} é")),
            ("b", Json::List(vec![Json::Null, Json::Bool(true), Json::Number(7), Json::List(vec![])])),
        ]);
        assert_eq!(json.to_string(), r#"{"a":"tab\u0009 quote\" back\\ nul\u0000 del\u007f turn\u202e tag\udb40\udc41 é","b":[null,true,7,[]]}"#);
    }
}
