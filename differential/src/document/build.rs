//! The builder: what each call answers, from what was accepted before.

use super::read::utf8;
use crate::ffi::{MAX_FILTER_WORDS, MAX_ITEMS, MAX_KEY, MAX_NESTING, MAX_TABLES};
use crate::tally::Why;
use std::collections::BTreeMap;

#[derive(Clone, PartialEq, Eq, Debug)]
pub enum Held {
    Value(Vec<u8>),
    Table(usize),
    Container,
}

impl Held {
    fn byte(&self) -> u32 {
        u32::from(match self {
            Held::Value(_) => b'v',
            Held::Table(_) => b'H',
            Held::Container => b'L',
        })
    }
}

pub struct Table {
    pub separator: Option<u8>,
    pub items: BTreeMap<Vec<u8>, Held>,
    placed: bool,
}

pub struct Builder {
    pub tables: Vec<Table>,
    room: usize,
    used: usize,
    items: usize,
}

/// The prefixes of a key that end at each separator, then the key itself.
fn prefixes(key: &[u8], separator: Option<u8>) -> Vec<&[u8]> {
    let mut ends: Vec<usize> = (1..key.len()).filter(|end| Some(key[end - 1]) == separator).collect();
    ends.push(key.len());
    ends.into_iter().map(|end| &key[..end]).collect()
}

impl Builder {
    pub fn fresh(room: usize) -> Builder {
        Builder { tables: Vec::new(), room, used: 0, items: 0 }
    }

    /// 28, 27.
    pub fn new_table(&mut self, separator: &[u8]) -> Result<usize, u32> {
        let separator = match separator {
            [] => None,
            [byte @ 1..=127] => Some(*byte),
            _ => return Err(28),
        };
        if self.tables.len() == MAX_TABLES {
            return Err(27);
        }
        self.tables.push(Table { separator, items: BTreeMap::new(), placed: false });
        Ok(self.tables.len() - 1)
    }

    fn usable(&self, table: u32) -> Result<usize, u32> {
        match self.tables.get(table as usize) {
            Some(known) if !known.placed => Ok(table as usize),
            _ => Err(24),
        }
    }

    /// 8, 20, 21.
    fn path<'k>(&self, table: usize, key: &'k [u8]) -> Result<Vec<&'k [u8]>, Why> {
        utf8(key, 8)?;
        if key.len() > MAX_KEY {
            return Err(Why::from(20));
        }
        let path = prefixes(key, self.tables[table].separator);
        let other = |prefix: &&&[u8]| self.tables[table].items.get(**prefix).is_some_and(|held| *held != Held::Container);
        match path[..path.len() - 1].iter().find(other) {
            Some(_) => Err(Why::from(21)),
            None => Ok(path),
        }
    }

    /// 22, 23, or the kind that was replaced.
    fn put(&mut self, table: usize, path: Vec<&[u8]>, held: Held) -> Result<u32, u32> {
        let missing: Vec<&[u8]> = path.iter().copied().filter(|prefix| !self.tables[table].items.contains_key(*prefix)).collect();
        if self.items + missing.len() > MAX_ITEMS {
            return Err(22);
        }
        let value = if let Held::Value(bytes) = &held { bytes.len() } else { 0 };
        let used = self.used + missing.iter().map(|prefix| prefix.len()).sum::<usize>() + value;
        if used > self.room {
            return Err(23);
        }
        (self.used, self.items) = (used, self.items + missing.len());
        for prefix in missing {
            self.tables[table].items.insert(prefix.to_vec(), Held::Container);
        }
        let key = path[path.len() - 1];
        let old = self.tables[table].items.insert(key.to_vec(), held).expect("made before");
        Ok(old.byte())
    }

    /// Whether a key is there; a new one is answered as 0.
    fn news(&mut self, table: usize, path: Vec<&[u8]>, held: Held) -> Result<u32, u32> {
        let there = self.tables[table].items.contains_key(path[path.len() - 1]);
        self.put(table, path, held).map(|old| if there { old } else { 0 })
    }

    /// 24, 8, 20, 21, 22, 23.
    pub fn insert(&mut self, table: u32, key: &[u8], value: &[u8]) -> Result<u32, Why> {
        let table = self.usable(table)?;
        let path = self.path(table, key)?;
        Ok(self.news(table, path, Held::Value(value.to_vec()))?)
    }

    /// 24 for the receiver, 24 for the guest, 25, 8, 20, 21, 26, 22, 23.
    pub fn insert_table(&mut self, table: u32, key: &[u8], guest: u32) -> Result<u32, Why> {
        let table = self.usable(table)?;
        let guest = self.usable(guest)?;
        if table == guest {
            return Err(Why::from(25));
        }
        let path = self.path(table, key)?;
        if self.height(guest) + 1 > MAX_NESTING {
            return Err(Why::from(26));
        }
        let news = self.news(table, path, Held::Table(guest))?;
        self.tables[guest].placed = true;
        Ok(news)
    }

    fn guests(&self, table: usize) -> impl Iterator<Item = usize> + '_ {
        self.tables[table].items.values().filter_map(|held| if let Held::Table(guest) = held { Some(*guest) } else { None })
    }

    /// 1 for a table that now holds no table, else 1 plus the greatest height held.
    fn height(&self, table: usize) -> usize {
        1 + self.guests(table).map(|guest| self.height(guest)).max().unwrap_or(0)
    }

    pub fn item_count(&self, table: u32) -> Result<u32, u32> {
        self.tables.get(table as usize).map(|known| known.items.len() as u32).ok_or(24)
    }

    fn has_empty(&self, table: usize) -> bool {
        self.tables[table].items.contains_key(&[][..]) || self.guests(table).any(|guest| self.has_empty(guest))
    }

    /// 24, 33, 30, before the image's length is asked.
    pub fn write(&self, table: u32, filter: u32) -> Result<usize, u32> {
        let table = self.usable(table)?;
        if filter as usize > MAX_FILTER_WORDS {
            return Err(33);
        }
        if self.has_empty(table) {
            return Err(30);
        }
        Ok(table)
    }
}
