//! The words of a command line: options by name, and the rest.

use crate::failure::{name, Failure};
use std::ffi::{OsStr, OsString};
use std::os::unix::ffi::{OsStrExt, OsStringExt};

/// What a command takes.
pub struct Spec {
    /// Options without a word.
    pub flags: &'static [&'static str],
    /// Options with a word.
    pub valued: &'static [&'static str],
    /// Names of the words beside the options; a name in brackets may be missing, one with `...` may repeat.
    pub words: &'static [&'static str],
}

/// Options that may be given more than once.
const REPEATED: &[&str] = &["--table"];

pub struct Args {
    words: Vec<OsString>,
    flags: Vec<&'static str>,
    valued: Vec<(&'static str, OsString)>,
}

impl Args {
    pub fn parse(spec: &Spec, given: impl Iterator<Item = OsString>) -> Result<Args, Failure> {
        let mut args = Args { words: Vec::new(), flags: Vec::new(), valued: Vec::new() };
        let mut given = given;
        let mut options = true;
        while let Some(word) = given.next() {
            if options && word == "--" {
                options = false;
            } else if options && word.len() > 1 && word.as_bytes()[0] == b'-' {
                args.option(spec, &word, &mut given)?;
            } else {
                args.words.push(word);
            }
        }
        args.counted(spec)?;
        Ok(args)
    }

    fn option(&mut self, spec: &Spec, word: &OsStr, given: &mut dyn Iterator<Item = OsString>) -> Result<(), Failure> {
        let (option, joined) = split(word);
        if let Some(&flag) = spec.flags.iter().find(|flag| flag.as_bytes() == option) {
            if joined.is_some() {
                return Err(Failure::usage(format!("{flag} takes no word")));
            }
            self.flags.push(flag);
            return Ok(());
        }
        let Some(&valued) = spec.valued.iter().find(|valued| valued.as_bytes() == option) else {
            let hint = match near(option, spec.flags.iter().chain(spec.valued).copied()) {
                Some(near) => format!("; is {near} meant?"),
                None => " (a key that begins with - stands behind --)".to_string(),
            };
            return Err(Failure::usage(format!("unknown option {}{hint}", name(word))));
        };
        if !REPEATED.contains(&valued) && self.value(valued).is_some() {
            return Err(Failure::usage(format!("{valued} is given twice")));
        }
        let value = joined.or_else(|| given.next()).ok_or_else(|| Failure::usage(format!("{valued} wants a word behind it")))?;
        self.valued.push((valued, value));
        Ok(())
    }

    /// Whether there are as many words as the command takes.
    fn counted(&self, spec: &Spec) -> Result<(), Failure> {
        let least = spec.words.iter().filter(|word| !word.starts_with('[')).count();
        if let Some(missing) = spec.words.get(self.words.len()).filter(|_| self.words.len() < least) {
            return Err(Failure::usage(format!("{} is missing", missing.trim_end_matches("..."))));
        }
        let endless = spec.words.last().is_some_and(|word| word.ends_with("..."));
        match self.words.get(spec.words.len()) {
            Some(extra) if !endless => Err(Failure::usage(format!("one word too many: {}", name(extra)))),
            _ => Ok(()),
        }
    }

    pub fn words(&self) -> &[OsString] {
        &self.words
    }

    pub fn flag(&self, flag: &str) -> bool {
        self.flags.contains(&flag)
    }

    pub fn value(&self, option: &'static str) -> Option<&OsStr> {
        self.values(option).next()
    }

    pub fn values(&self, option: &'static str) -> impl Iterator<Item = &OsStr> {
        self.valued.iter().filter(move |(name, _)| *name == option).map(|(_, value)| value.as_os_str())
    }

    /// The word of an option that has to be there.
    pub fn needed(&self, option: &'static str) -> Result<&OsStr, Failure> {
        self.value(option).ok_or_else(|| Failure::usage(format!("{option} is missing")))
    }
}

/// The known word that was most likely meant by another: one that it begins, or that is a slip or two away.
pub fn near(word: &[u8], known: impl Iterator<Item = &'static str>) -> Option<&'static str> {
    let begins = |known: &str| word.len() > 3 && known.as_bytes().starts_with(word);
    let slips = |known: &str| if begins(known) { 1 } else { slips(word, known.as_bytes()) };
    let likely = |slips: usize| slips <= 2 && word.len() > 2 && slips * 2 <= word.len();
    known.map(|known| (slips(known), known)).filter(|(slips, _)| likely(*slips)).min().map(|(_, known)| known)
}

/// How many letters are changed, left out or put in between two words. Two that are swapped count as two.
fn slips(a: &[u8], b: &[u8]) -> usize {
    let mut row: Vec<usize> = (0..=b.len()).collect();
    for (i, from) in a.iter().enumerate() {
        let mut corner = row[0];
        row[0] = i + 1;
        for (j, to) in b.iter().enumerate() {
            let changed = corner + usize::from(from != to);
            corner = row[j + 1];
            row[j + 1] = changed.min(row[j] + 1).min(corner + 1);
        }
    }
    row[b.len()]
}

/// `--name=word` in two.
fn split(word: &OsStr) -> (&[u8], Option<OsString>) {
    let bytes = word.as_bytes();
    match bytes.iter().position(|&byte| byte == b'=') {
        Some(at) if bytes.starts_with(b"--") => (&bytes[..at], Some(OsString::from_vec(bytes[at + 1..].to_vec()))),
        _ => (bytes, None),
    }
}

#[cfg(test)]
mod tests {
    use super::*;

    const SPEC: Spec = Spec { flags: &["--json"], valued: &["-o", "--table"], words: &["FILE", "[KEY]"] };

    fn parse(line: &str) -> Result<Args, String> {
        Args::parse(&SPEC, line.split_whitespace().map(OsString::from)).map_err(|failure| failure.line)
    }

    #[test]
    fn options_stand_anywhere() {
        let args = parse("f --table a -o out --json --table=b=c -- --k").unwrap();
        assert_eq!(args.words(), ["f", "--k"]);
        assert!(args.flag("--json") && args.value("-o") == Some(OsStr::new("out")));
        assert_eq!(args.values("--table").collect::<Vec<_>>(), ["a", "b=c"]);
    }

    #[test]
    fn slips_are_counted() {
        for (a, b, count) in [("", "", 0), ("", "ab", 2), ("check", "chek", 1), ("merge", "mrege", 2), ("list", "tree", 4), ("get", "got", 1)] {
            assert_eq!((slips(a.as_bytes(), b.as_bytes()), slips(b.as_bytes(), a.as_bytes())), (count, count), "{a} {b}");
        }
    }

    #[test]
    fn bad_usage_is_named() {
        for (line, said) in [
            ("", "FILE is missing"),
            ("a b c", "one word too many: c"),
            ("a -o", "-o wants a word behind it"),
            ("a -o b -o c", "-o is given twice"),
            ("a --json=1", "--json takes no word"),
            ("a --nope", "unknown option --nope (a key that begins with - stands behind --)"),
            ("a --jsno", "unknown option --jsno; is --json meant?"),
            ("a -json", "unknown option -json; is --json meant?"),
            ("a --tab=b", "unknown option --tab=b; is --table meant?"),
            ("a -k", "unknown option -k (a key that begins with - stands behind --)"),
        ] {
            assert_eq!(parse(line).err().as_deref(), Some(said), "{line}");
        }
    }
}
