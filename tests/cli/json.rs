//! Reads JSON, strictly: what the program prints has to be whole.

use std::collections::BTreeMap;

#[derive(Clone, Debug, PartialEq)]
pub enum Json {
    Null,
    Bool(bool),
    Number(u64),
    Text(String),
    List(Vec<Json>),
    Object(BTreeMap<String, Json>),
}

impl Json {
    #[track_caller]
    pub fn parse(text: &str) -> Json {
        let mut reader = Reader { rest: text.strip_suffix('\n').expect("a newline at the end") };
        let value = reader.value();
        assert_eq!(reader.rest, "", "something behind the value");
        value
    }

    #[track_caller]
    pub fn at(&self, name: &str) -> &Json {
        match self {
            Json::Object(fields) => fields.get(name).unwrap_or_else(|| panic!("no {name} in {fields:?}")),
            other => panic!("no object: {other:?}"),
        }
    }

    pub fn has(&self, name: &str) -> bool {
        matches!(self, Json::Object(fields) if fields.contains_key(name))
    }

    #[track_caller]
    pub fn list(&self) -> &[Json] {
        match self {
            Json::List(list) => list,
            other => panic!("no list: {other:?}"),
        }
    }

    #[track_caller]
    pub fn text(&self) -> &str {
        match self {
            Json::Text(text) => text,
            other => panic!("no text: {other:?}"),
        }
    }
}

struct Reader<'a> {
    rest: &'a str,
}

impl Reader<'_> {
    fn take(&mut self) -> char {
        let c = self.rest.chars().next().expect("more");
        self.rest = &self.rest[c.len_utf8()..];
        c
    }

    fn word(&mut self, word: &str, value: Json) -> Json {
        self.rest = self.rest.strip_prefix(word).expect(word);
        value
    }

    fn value(&mut self) -> Json {
        match self.rest.chars().next().expect("a value") {
            'n' => self.word("null", Json::Null),
            't' => self.word("true", Json::Bool(true)),
            'f' => self.word("false", Json::Bool(false)),
            '"' => Json::Text(self.string()),
            '[' => Json::List(self.many(']', Reader::value)),
            '{' => {
                let fields = self.many('}', |reader| {
                    let name = reader.string();
                    assert_eq!(reader.take(), ':');
                    (name, reader.value())
                });
                let count = fields.len();
                let fields: BTreeMap<_, _> = fields.into_iter().collect();
                assert_eq!(fields.len(), count, "a name twice");
                Json::Object(fields)
            }
            _ => {
                let end = self.rest.find(|c: char| !c.is_ascii_digit()).unwrap_or(self.rest.len());
                let (digits, rest) = self.rest.split_at(end);
                self.rest = rest;
                Json::Number(digits.parse().expect("a number"))
            }
        }
    }

    fn many<T>(&mut self, end: char, one: impl Fn(&mut Self) -> T) -> Vec<T> {
        self.take();
        let mut all = Vec::new();
        if self.rest.starts_with(end) {
            self.take();
            return all;
        }
        loop {
            all.push(one(self));
            match self.take() {
                ',' => {}
                c => {
                    assert_eq!(c, end);
                    return all;
                }
            }
        }
    }

    fn string(&mut self) -> String {
        assert_eq!(self.take(), '"');
        let mut text = String::new();
        loop {
            match self.take() {
                '"' => return text,
                '\\' => match self.take() {
                    'u' => {
                        let mut units = vec![self.unit()];
                        if (0xD800..0xDC00).contains(&units[0]) {
                            assert_eq!((self.take(), self.take()), ('\\', 'u'), "half of a pair");
                            units.push(self.unit());
                        }
                        text += &String::from_utf16(&units).expect("a pair");
                    }
                    c @ ('"' | '\\') => text.push(c),
                    c => panic!("\\{c}"),
                },
                c => {
                    assert!(!c.is_control(), "a control character in a string");
                    text.push(c);
                }
            }
        }
    }

    fn unit(&mut self) -> u16 {
        let (digits, rest) = self.rest.split_at(4);
        self.rest = rest;
        u16::from_str_radix(digits, 16).expect("hex")
    }
}
