//! The layout of a table, lookup, listing and the check's six rules.

use super::{hash, Lookup, Manner};
use crate::ffi::MAX_FILE;
use crate::tally::{Broken, Child, Place, Why};

const ROOT: u32 = u32::MAX;

pub fn word(file: &[u8], at: usize) -> u32 {
    u32::from_le_bytes(file[at..at + 4].try_into().expect("four bytes"))
}

fn half(file: &[u8], at: usize) -> u16 {
    u16::from_le_bytes(file[at..at + 2].try_into().expect("two bytes"))
}

/// 2 for start above end, then 3, then 2 for end past the file.
fn pointer(file: &[u8], start: usize, end: usize, alignment: usize) -> Result<(), u32> {
    if start > end {
        return Err(2);
    }
    if !start.is_multiple_of(alignment) {
        return Err(3);
    }
    if end > file.len() {
        return Err(2);
    }
    Ok(())
}

/// A text, or the number of its refusal with the offset of the first sequence that RFC 3629 does not allow.
pub fn utf8(text: &[u8], number: u32) -> Result<&[u8], Why> {
    match std::str::from_utf8(text) {
        Ok(_) => Ok(text),
        Err(error) => Err(Why { number, at: error.valid_up_to() }),
    }
}

pub struct Table<'f> {
    file: &'f [u8],
    start: usize,
    pub blooms: usize,
    pub buckets: usize,
    pub count: usize,
    manner: Manner,
}

/// 1, the pointer's errors, 4, 5, 6, 7. The manner plays no part in that.
pub fn open(file: &[u8], start: u32, end: u32, manner: impl Into<Manner>) -> Result<Table<'_>, u32> {
    if file.len() > MAX_FILE {
        return Err(1);
    }
    let (start, end) = (start as usize, end as usize);
    pointer(file, start, end, 4)?;
    let size = end - start;
    if size < 8 {
        return Err(4);
    }
    let blooms = (word(file, start) & 0x07FF_FFFF) as usize;
    let buckets = word(file, start + 4) as usize;
    if 8 + 4 * blooms > size {
        return Err(5);
    }
    if 8 + 4 * blooms + 4 * buckets > size {
        return Err(6);
    }
    let rest = size - 8 - 4 * blooms - 4 * buckets;
    if !rest.is_multiple_of(24) {
        return Err(7);
    }
    Ok(Table { file, start, blooms, buckets, count: rest / 24, manner: manner.into() })
}

impl<'f> Table<'f> {
    /// Where an item's 24 bytes are.
    pub fn item(&self, index: usize) -> usize {
        self.start + 8 + 4 * self.blooms + 4 * self.buckets + 24 * index
    }

    pub fn hash(&self, index: usize) -> u32 {
        word(self.file, self.item(index))
    }

    fn parent(&self, index: usize) -> u32 {
        word(self.file, self.item(index) + 4)
    }

    pub fn kind(&self, index: usize) -> u8 {
        self.file[self.item(index) + 14]
    }

    pub fn value(&self, index: usize) -> (u32, u32) {
        (word(self.file, self.item(index) + 16), word(self.file, self.item(index) + 20))
    }

    /// 2, then 9.
    pub fn fragment(&self, index: usize) -> Result<&'f [u8], Why> {
        let start = word(self.file, self.item(index) + 8) as usize;
        let end = start + half(self.file, self.item(index) + 12) as usize;
        pointer(self.file, start, end, 1)?;
        utf8(&self.file[start..end], 9)
    }

    /// The key of an item: 2, 9, 10 from the item towards the root, 11 where that never ends.
    pub fn key(&self, index: usize) -> Result<Vec<u8>, Why> {
        let (mut at, mut fragments) = (index, Vec::new());
        for _ in 0..self.count {
            fragments.push(self.fragment(at)?);
            match self.parent(at) {
                ROOT => {
                    fragments.reverse();
                    return Ok(fragments.concat());
                }
                parent if parent as usize >= self.count => return Err(Why::from(10)),
                parent => at = parent as usize,
            }
        }
        Err(Why::from(11))
    }

    /// The items whose hashes are compared for a key.
    fn run(&self, hash: u32) -> std::ops::Range<usize> {
        if self.buckets == 0 || self.count == 0 {
            return 0..0;
        }
        if self.blooms > 0 {
            let filter = word(self.file, self.start + 8 + 4 * (hash as usize / 32 % self.blooms));
            let shift = if self.manner.lookup == Lookup::Strict { word(self.file, self.start) >> 27 } else { 0 };
            if [hash, hash >> shift].iter().any(|bit| filter & (1 << (bit % 32)) == 0) {
                return 0..0;
            }
        }
        let bucket = hash as usize % self.buckets;
        let at = self.start + 8 + 4 * self.blooms + 4 * bucket;
        let last = if bucket + 1 < self.buckets { word(self.file, at + 4) as usize } else { self.count };
        word(self.file, at) as usize..last.min(self.count)
    }

    /// The first item of the run with equal hash whose chain names the key.
    pub fn find(&self, key: &[u8]) -> Option<usize> {
        let hash = hash(key, self.manner.form);
        self.run(hash).find(|index| self.hash(*index) == hash && self.key(*index).is_ok_and(|found| found == key))
    }

    fn found(&self, key: &[u8], kind: u8) -> Place {
        utf8(key, 8)?;
        let index = self.find(key).ok_or(12u32)?;
        if self.kind(index) != kind {
            return Err(Why::from(13));
        }
        Ok(self.value(index))
    }

    fn value_opens(&self, (start, end): (u32, u32)) -> Place {
        pointer(self.file, start as usize, end as usize, 8)?;
        Ok((start, end))
    }

    pub fn get(&self, key: &[u8]) -> Place {
        self.value_opens(self.found(key, b'v')?)
    }

    pub fn get_table(&self, key: &[u8]) -> Place {
        let (start, end) = self.found(key, b'H')?;
        open(self.file, start, end, self.manner)?;
        Ok((start, end))
    }

    /// The child at a position of the container under a key: 8, 12, 13; 2, 3 and 13 of its list; 15; of the child 10, 13, then 2 or 9.
    pub fn child(&self, key: &[u8], position: usize) -> Child {
        let (start, end) = self.found(key, b'L')?;
        pointer(self.file, start as usize, end as usize, 4)?;
        if !(end - start).is_multiple_of(4) {
            return Err(Why::from(13));
        }
        let children = self.children_between(start, end);
        let index = *children.get(position).ok_or(15u32)? as usize;
        if index >= self.count {
            return Err(Why::from(10));
        }
        let kind = self.kind(index);
        if !b"vHL".contains(&kind) {
            return Err(Why::from(13));
        }
        let size = self.fragment(index)?.len() as u32;
        let from = word(self.file, self.item(index) + 8);
        Ok((u32::from(kind), from, from + size, index))
    }

    /// The bytes of an item.
    pub fn record(&self, index: usize) -> &'f [u8] {
        &self.file[self.item(index)..self.item(index) + 24]
    }

    /// Each item of kind 'v', with its place or 2 or 3.
    pub fn values(&self) -> Vec<(usize, Place)> {
        (0..self.count).filter(|index| self.kind(*index) == b'v').map(|index| (index, self.value_opens(self.value(index)))).collect()
    }

    /// Whether gvdb-rs, which follows parents without a count, would never come back from a lookup of this key: a loop of empty fragments.
    pub fn recurses(&self, key: &[u8]) -> bool {
        let hash = hash(key, self.manner.form);
        for index in self.run(hash) {
            if self.hash(index) == hash {
                match self.follows(index, key) {
                    None => return true,
                    Some(true) => return false,
                    Some(false) => {}
                }
            }
        }
        false
    }

    fn follows(&self, mut index: usize, mut key: &[u8]) -> Option<bool> {
        let mut still = 0;
        loop {
            let Ok(fragment) = self.fragment(index) else { return Some(false) };
            let Some(rest) = key.strip_suffix(fragment) else { return Some(false) };
            let parent = self.parent(index);
            if parent == ROOT {
                return Some(rest.is_empty());
            }
            if parent as usize >= self.count {
                return Some(false);
            }
            still = if fragment.is_empty() { still + 1 } else { 0 };
            if still > self.count {
                return None;
            }
            (index, key) = (parent as usize, rest);
        }
    }

    /// The indices that a container's value holds.
    fn children(&self, index: usize) -> Vec<u32> {
        let (start, end) = self.value(index);
        self.children_between(start, end)
    }

    fn children_between(&self, start: u32, end: u32) -> Vec<u32> {
        (start as usize..end as usize).step_by(4).map(|at| word(self.file, at)).collect()
    }

    fn keeps_four(&self, index: usize) -> bool {
        let (start, end) = self.value(index);
        match self.kind(index) {
            b'v' => pointer(self.file, start as usize, end as usize, 8).is_ok(),
            b'H' => open(self.file, start, end, self.manner).is_ok(),
            _ => pointer(self.file, start as usize, end as usize, 4).is_ok() && (end - start) % 4 == 0,
        }
    }

    fn keeps_five(&self, index: usize) -> bool {
        let children = self.children(index);
        let mut sorted = children.clone();
        sorted.sort();
        sorted.dedup();
        sorted.len() == children.len() && children.iter().all(|child| (*child as usize) < self.count && self.parent(*child as usize) as usize == index)
    }

    fn keeps_six(&self, index: usize) -> bool {
        let parent = self.parent(index) as usize;
        self.kind(parent) == b'L' && self.keeps_four(parent) && self.children(parent).contains(&(index as u32))
    }

    /// The first rule that an item breaks, but for the first rule, which `check` asks.
    fn broken(&self, index: usize, key: &[u8]) -> Option<u32> {
        if self.find(key) != Some(index) {
            return Some(2);
        }
        if !b"vHL".contains(&self.kind(index)) {
            return Some(3);
        }
        if !self.keeps_four(index) {
            return Some(4);
        }
        if self.kind(index) == b'L' && !self.keeps_five(index) {
            return Some(5);
        }
        if self.parent(index) != ROOT && !self.keeps_six(index) {
            return Some(6);
        }
        None
    }

    /// The first item that breaks a rule, with its first broken rule; where its key does not list, with what listing says.
    pub fn check(&self) -> Option<Broken> {
        (0..self.count).find_map(|index| match self.key(index) {
            Ok(key) => self.broken(index, &key).map(|rule| (rule, index, None)),
            Err(why) => Some((1, index, Some(why))),
        })
    }
}
