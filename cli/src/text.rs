//! Keys, file names and bytes as text: escapes, hex, quotes.

use crate::failure::Failure;
use std::ffi::OsStr;
use std::fmt::Write;
use std::os::unix::ffi::OsStrExt;

/// A key on one line, with nothing in it that is not seen: `\\`, `\t`, `\n`, `\r`, and `\xHH` for each byte of any other unseen character.
pub fn escaped(key: &str) -> String {
    let mut out = String::with_capacity(key.len());
    for c in key.chars() {
        match c {
            '\\' => out.push_str("\\\\"),
            _ => seen(&mut out, c),
        }
    }
    out
}

/// Bytes that may be no text, as a file name has them: what is UTF-8 is escaped as a key is, and each other byte is `\xHH`.
pub fn escaped_bytes(bytes: &[u8]) -> String {
    let mut out = String::with_capacity(bytes.len());
    let mut rest = bytes;
    while !rest.is_empty() {
        let good = std::str::from_utf8(rest).map_or_else(|error| error.valid_up_to(), str::len);
        out.push_str(&escaped(std::str::from_utf8(&rest[..good]).unwrap_or_default()));
        if let Some(bad) = rest.get(good) {
            let _ = write!(out, "\\x{bad:02x}");
        }
        rest = rest.get(good + 1..).unwrap_or_default();
    }
    out
}

/// The key that a word of the command line means: it is given as `gvdb list` prints it.
pub fn given(word: &OsStr) -> Result<Vec<u8>, Failure> {
    let wrong = |why| Failure::usage(format!("key {}: {why}; give it as gvdb list prints it, a backslash as \\\\", shown(&word.to_string_lossy())));
    unescaped(word.as_bytes()).map_err(wrong)
}

/// The bytes that an escaped key means, or what is wrong with it.
pub fn unescaped(field: &[u8]) -> Result<Vec<u8>, &'static str> {
    let mut out = Vec::with_capacity(field.len());
    let mut bytes = field.iter();
    while let Some(&byte) = bytes.next() {
        if byte != b'\\' {
            out.push(byte);
            continue;
        }
        out.push(match bytes.next() {
            Some(quoted @ (b'\\' | b'"')) => *quoted,
            Some(b't') => b'\t',
            Some(b'n') => b'\n',
            Some(b'r') => b'\r',
            Some(b'x') => match (bytes.next().and_then(digit), bytes.next().and_then(digit)) {
                (Some(high), Some(low)) => high * 16 + low,
                _ => return Err("\\x wants two hex digits"),
            },
            _ => return Err("a backslash stands before one of \\ \" t n r x"),
        });
    }
    Ok(out)
}

/// A key in quotes, for a sentence or a report.
pub fn quoted(key: &str) -> String {
    quoted_bytes(key.as_bytes())
}

/// A key that was given, and may be no text.
pub fn quoted_bytes(key: &[u8]) -> String {
    format!("\"{}\"", escaped_bytes(key).replace('"', "\\\""))
}

/// Where a key is not UTF-8: `the key is not UTF-8 at byte 3 (E9)`.
pub fn bad_key(key: &[u8], at: usize) -> String {
    let byte = key.get(at).map_or(String::new(), |byte| format!(" ({byte:02X})"));
    format!("the key is not UTF-8 at byte {at}{byte}")
}

/// Whether a text is not UTF-8, and each byte that makes it so would be a letter in Latin-1.
pub fn latin1(text: &[u8]) -> bool {
    let mut rest = text;
    while let Some(at) = gvdb::first_bad(rest) {
        if !char::from(rest[at]).is_alphabetic() {
            return false;
        }
        rest = &rest[at + 1..];
    }
    rest.len() < text.len()
}

/// The keys of nested tables and a key in the last of them.
pub fn path(tables: &[String], key: &str) -> String {
    tables.iter().map(String::as_str).chain([key]).map(quoted).collect::<Vec<_>>().join(" > ")
}

/// A text that is not a key, with what is not seen escaped.
pub fn shown(text: &str) -> String {
    let mut out = String::with_capacity(text.len());
    text.chars().for_each(|c| seen(&mut out, c));
    out
}

/// A text that is cut where it would fill the screen.
pub fn cut(text: &str) -> String {
    match text.char_indices().nth(120) {
        Some((at, _)) => format!("{}...", &text[..at]),
        None => text.to_string(),
    }
}

fn seen(out: &mut String, c: char) {
    match c {
        '\t' => out.push_str("\\t"),
        '\n' => out.push_str("\\n"),
        '\r' => out.push_str("\\r"),
        c if is_unseen(c) => {
            for byte in c.encode_utf8(&mut [0; 4]).bytes() {
                let _ = write!(out, "\\x{byte:02x}");
            }
        }
        c => out.push(c),
    }
}

/// Whether a character is a control character, ends a line, turns the direction of what stands around it, or takes no room: with one of these a key
/// could look like another. Unicode's Cc, Zl, Zp and Default_Ignorable_Code_Point, and the marks of annotations.
pub fn is_unseen(c: char) -> bool {
    c.is_control()
        || matches!(c,
            '\u{AD}' | '\u{34F}' | '\u{61C}' | '\u{115F}'..='\u{1160}' | '\u{17B4}'..='\u{17B5}' | '\u{180B}'..='\u{180F}' | '\u{200B}'..='\u{200F}'
            | '\u{2028}'..='\u{202E}' | '\u{2060}'..='\u{206F}' | '\u{3164}' | '\u{FE00}'..='\u{FE0F}' | '\u{FEFF}' | '\u{FFA0}' | '\u{FFF0}'..='\u{FFFB}'
            | '\u{1BCA0}'..='\u{1BCA3}' | '\u{1D173}'..='\u{1D17A}' | '\u{E0000}'..='\u{E0FFF}')
}

pub fn hex(bytes: &[u8]) -> String {
    let digits = b"0123456789abcdef";
    let mut out = String::with_capacity(bytes.len() * 2);
    for &byte in bytes {
        out.push(digits[usize::from(byte >> 4)] as char);
        out.push(digits[usize::from(byte & 15)] as char);
    }
    out
}

/// The bytes of an even number of hex digits.
pub fn unhex(digits: &[u8]) -> Option<Vec<u8>> {
    if !digits.len().is_multiple_of(2) {
        return None;
    }
    digits.chunks_exact(2).map(|pair| Some(digit(&pair[0])? * 16 + digit(&pair[1])?)).collect()
}

fn digit(byte: &u8) -> Option<u8> {
    (*byte as char).to_digit(16).map(|digit| digit as u8)
}

/// `1 byte`, `2 bytes`, `1,024 bytes`.
pub fn count(number: usize, what: &str) -> String {
    format!("{} {what}{}", grouped(number), if number == 1 { "" } else { "s" })
}

/// A number with a comma between groups of three digits.
pub fn grouped(number: usize) -> String {
    let digits = number.to_string();
    let mut out = String::new();
    for (i, digit) in digits.chars().enumerate() {
        if i > 0 && (digits.len() - i).is_multiple_of(3) {
            out.push(',');
        }
        out.push(digit);
    }
    out
}

#[cfg(test)]
mod tests {
    use super::*;

    #[test]
    fn every_key_comes_back() {
        for key in ["", "a/b", "tab\tnewline\nreturn\rback\\slash", "nul\0 bell\x07 del\x7f csi\u{9b}", "é \"quoted\" 木", "\u{202e}\u{feff}\u{e0041}"] {
            assert_eq!(unescaped(escaped(key).as_bytes()).unwrap(), key.as_bytes());
            assert_eq!(unescaped(quoted(key)[1..].strip_suffix('"').unwrap().as_bytes()).unwrap(), key.as_bytes());
            assert_eq!(escaped_bytes(key.as_bytes()), escaped(key));
            assert!(!escaped(key).chars().any(is_unseen));
        }
        for bytes in [&b"\xff"[..], b"a\xe6\x9c", b"\xe6\x9c\xa8\xe9b\\", b"\xed\xa0\x80"] {
            assert_eq!(unescaped(escaped_bytes(bytes).as_bytes()).unwrap(), bytes);
        }
        assert_eq!(escaped("\u{9b}\t\\"), "\\xc2\\x9b\\t\\\\");
        for bad in ["\\", "\\q", "\\x", "\\x1", "\\xg0"] {
            assert!(unescaped(bad.as_bytes()).is_err(), "{bad}");
        }
    }

    #[test]
    fn where_a_key_is_bad() {
        for (key, words) in
            [(&b"caf\xe9"[..], "3 (E9)"), (b"\xe9t\xe9", "0 (E9)"), (b"a\xc3", "1 (C3)"), (b"ok\xc0\x80", "2 (C0)"), (b"\xc3\xa9\xff", "2 (FF)")]
        {
            assert_eq!(bad_key(key, gvdb::first_bad(key).unwrap()), format!("the key is not UTF-8 at byte {words}"));
        }
    }

    #[test]
    fn letters_of_latin1() {
        for letters in [&b"caf\xe9"[..], b"\xe9t\xe9", b"Gr\xfc\xdfe", b"\xc3\xa9\xff", b"\xaa\xb5\xba"] {
            assert!(latin1(letters), "{letters:?}");
        }
        for other in [&b""[..], b"cafe", "caf\u{e9}".as_bytes(), b"2 \xd7 3", b"caf\xe9 \xa4", b"\xe2\x82", b"\xed\xa0\x80", b"\x80"] {
            assert!(!latin1(other), "{other:?}");
        }
    }

    #[test]
    fn hex_comes_back() {
        let all: Vec<u8> = (0..=255).collect();
        assert_eq!(unhex(hex(&all).as_bytes()), Some(all));
        assert_eq!(unhex(b"FFff"), Some(vec![255, 255]));
        for bad in ["0", "0g", "+1", " 1", "é"] {
            assert_eq!(unhex(bad.as_bytes()), None, "{bad}");
        }
    }

    #[test]
    fn numbers_read_well() {
        assert_eq!([grouped(0), grouped(999), grouped(1000), grouped(16_777_216)], ["0", "999", "1,000", "16,777,216"]);
        assert_eq!([count(1, "byte"), count(0, "byte")], ["1 byte", "0 bytes"]);
    }
}
