//! `--decide FILE`: for each conflict the side that is kept, by key or for all below one. The lines of a report that tell a side begin as decisions do; so the
//! report of a refused merge is such a file once the lines of the sides that are not wanted are deleted.

use crate::both::Side;
use crate::content::Place;
use crate::failure::Failure;
use crate::text;
use std::borrow::Cow;
use std::cell::Cell;
use std::collections::BTreeMap;

/// What the other lines of a report begin with.
const OTHER_LINES: &[&[u8]] = &[
    b"merge",
    b"conflict",
    b"same",
    b"tables",
    b"note",
    b"changed",
    b"removed",
    b"before",
    b"now",
    b"holds",
    b"kept",
    b"dropped",
    b"merged",
    b"would",
    b"refused:",
];

pub struct Decisions {
    rules: BTreeMap<Place, Rule>,
    separator: Option<u8>,
    name: String,
}

struct Rule {
    /// None where both sides are named: that decides nothing.
    side: Option<Side>,
    line: usize,
    used: Cell<bool>,
}

impl Decisions {
    pub fn none() -> Decisions {
        Decisions { rules: BTreeMap::new(), separator: None, name: String::new() }
    }

    pub fn parse(name: String, input: &[u8], separator: Option<u8>) -> Result<Decisions, Failure> {
        let mut decisions = Decisions { rules: BTreeMap::new(), separator, name };
        for (at, line) in input.split(|&byte| byte == b'\n').enumerate() {
            let bad = |why: &str| Failure::usage(format!("{}: line {}: {why}", decisions.name, at + 1));
            let line = line.strip_suffix(b"\r").unwrap_or(line).trim_ascii_start();
            let (word, rest) = line.split_at(line.iter().position(|byte| byte.is_ascii_whitespace()).unwrap_or(line.len()));
            let Some(side) = Side::named(word) else {
                match word.first().is_none_or(|&byte| byte == b'#') || OTHER_LINES.contains(&word) {
                    true => continue,
                    false => return Err(bad("it begins neither with own nor with other (a line of notes begins with #)")),
                }
            };
            let place = place(rest.trim_ascii_start()).map_err(|why| bad(&why))?;
            let rule = decisions.rules.entry(place).or_insert(Rule { side: Some(side), line: at + 1, used: Cell::new(false) });
            rule.side = rule.side.filter(|decided| *decided == side);
        }
        Ok(decisions)
    }

    /// The side that is kept at a place: what the nearest line says that names it, or what is around it.
    pub fn side(&self, path: &[String], key: &str) -> Option<Side> {
        let around = |(around, named): &Place| {
            let deeper = path.len() > around.len() && path[..around.len()] == around[..] && covers(named, &path[around.len()], self.separator);
            deeper || (around[..] == *path && covers(named, key, self.separator))
        };
        let (_, rule) = self.rules.iter().filter(|(place, _)| around(place)).max_by_key(|((path, key), _)| (path.len(), key.len()))?;
        rule.used.set(true);
        rule.side
    }

    /// The lines that met no conflict, for the report: one of them may be a slip.
    pub fn idle(&self) -> Vec<String> {
        let idle = self.rules.iter().filter(|(_, rule)| !rule.used.get());
        idle.map(|((path, key), rule)| format!("{}: line {} meets no conflict: {}", self.name, rule.line, text::path(path, key))).collect()
    }
}

/// Whether a named key is this one, or ends in the separator and is in front of it.
fn covers(named: &str, key: &str, separator: Option<u8>) -> bool {
    named == key || (separator.is_some() && named.bytes().last() == separator && key.starts_with(named))
}

/// A key as `gvdb dump` writes it, with those of the tables around it in front and a TAB between; or in quotes, as the report has it.
fn place(field: &[u8]) -> Result<Place, Cow<'static, str>> {
    let mut keys = if field.starts_with(b"\"") { quoted(field)? } else { field.split(|&byte| byte == b'\t').map(text::unescaped).collect::<Result<_, _>>()? };
    let key = keys.pop().filter(|key| !field.is_empty() || !key.is_empty()).ok_or("no key behind the side")?;
    let read = |key| String::from_utf8(key).map_err(|error| text::bad_key(error.as_bytes(), error.utf8_error().valid_up_to()));
    Ok((keys.into_iter().map(read).collect::<Result<_, _>>()?, read(key)?))
}

/// `"table" > "key"`, and what the report says of it behind a colon.
fn quoted(mut rest: &[u8]) -> Result<Vec<Vec<u8>>, &'static str> {
    const BAD: &str = "a key in quotes has no end, or something stands behind it";
    let mut keys = Vec::new();
    loop {
        rest = rest.strip_prefix(b"\"").ok_or(BAD)?;
        let mut escaped = false;
        let ends = |&byte: &u8| {
            let ends = byte == b'"' && !escaped;
            escaped = byte == b'\\' && !escaped;
            ends
        };
        let end = rest.iter().position(ends).ok_or(BAD)?;
        keys.push(text::unescaped(&rest[..end])?);
        rest = &rest[end + 1..];
        match rest.strip_prefix(b" > ") {
            Some(next) => rest = next,
            None if rest.is_empty() || rest.starts_with(b":") => return Ok(keys),
            None => return Err(BAD),
        }
    }
}

#[cfg(test)]
mod tests {
    use super::*;

    fn keys(field: &str) -> Result<Vec<String>, Cow<'static, str>> {
        place(field.as_bytes()).map(|(path, key)| path.into_iter().chain([key]).collect())
    }

    #[test]
    fn keys_as_they_are_printed() {
        for key in ["a/b", "tab\tnewline\nback\\slash", "quote\" \\\" colon: > \"x\"", "é木 \u{7f}", ""] {
            let around = vec!["t\"".to_string()];
            let expected = Ok(vec![around[0].clone(), key.to_string()]);
            assert_eq!(keys(&text::path(&around, key)), expected);
            assert_eq!(keys(&(text::path(&around, key) + ": value of 1 byte: 01")), expected);
            assert_eq!(keys(&format!("t\\x22\t{}", text::escaped(key))), expected);
        }
        for bad in ["", "\"a", "\"a\\", "\"a\\\"", "\"a\"b", "\"a\" > b", "\\q", "\"a\" >", "\\xff"] {
            assert!(keys(bad).is_err(), "{bad}");
        }
        assert_eq!(keys("t\tcaf\\xe9"), Err("the key is not UTF-8 at byte 3 (E9)".into()));
    }

    #[test]
    fn the_nearest_line_decides() {
        let lines = b"own /p/\nother /p/2/\nown /p/2/x\nother t\n own \"t\" > \"u\"\nown both\nother both\nother /q\n# a note\n";
        let decisions = Decisions::parse("d".to_string(), lines, Some(b'/')).ok().unwrap();
        let side = |path: &[&str], key: &str| decisions.side(&path.iter().map(|key| key.to_string()).collect::<Vec<_>>(), key);
        assert_eq!([side(&[], "/p/1"), side(&[], "/p/2/y"), side(&[], "/p/2/x"), side(&[], "/p")], [Some(Side::Own), Some(Side::Other), Some(Side::Own), None]);
        assert_eq!([side(&["t"], "a"), side(&["t"], "u"), side(&["t", "u"], "b")], [Some(Side::Other), Some(Side::Own), Some(Side::Own)]);
        assert_eq!([side(&[], "both"), side(&[], "/q/r"), side(&["x"], "/p/1")], [None; 3]);
        assert_eq!(decisions.idle(), ["d: line 8 meets no conflict: \"/q\""]);
        assert_eq!(
            Decisions::parse("d".to_string(), b"\nonw /p\n", None).err().unwrap().line.split(" (").next(),
            Some("d: line 2: it begins neither with own nor with other")
        );
    }
}
