//! The items of a table that passes the check, container by container: a key is its container's and a fragment, and is not joined from the root again.

use crate::builder::Kind;
use crate::refusal::Refusal;
use crate::table::{Entry, Item, Table, KEY_ROOM};
use std::collections::HashSet;

/// A root with a longer key is not sought among the fronts of a key below it.
const ROOT_KEY: usize = 32;

/// A walk that goes down wherever it meets a container, and meets each item once.
struct Levels<'a> {
    table: Table<'a>,
    /// By index.
    values: Vec<Option<Result<&'a [u8], Refusal>>>,
    /// By index: whether an item is still to be met; and how many are.
    wanted: Vec<bool>,
    left: usize,
    /// Where the walk begins anew when all below was met: the items that were wanted, the first last.
    starts: Vec<usize>,
    /// Whether it goes down.
    down: bool,
    /// The keys of the roots that it went down from, and how many of these are still to be met: of a front of a key the index is not known.
    roots: HashSet<String>,
    unmet: usize,
    /// How many fronts may still be tried for a root: not more than there are items.
    tries: usize,
    /// The containers around, the outermost first: where the key of each ends, and which position of its list is next.
    around: Vec<(usize, usize)>,
    /// The key of the item that was met last; the keys of the containers around are its fronts.
    key: String,
    buffer: Vec<u8>,
}

/// An item's index, and its kind or why its key does not read.
type Met = (usize, Result<Kind, Refusal>);

impl<'a> Levels<'a> {
    fn of(table: &Table<'a>, values_too: bool) -> Levels<'a> {
        let mut values = vec![None; table.len()];
        table.value_places().for_each(|(index, bytes)| values[index] = Some(bytes));
        let (others, of_values): (Vec<usize>, Vec<usize>) = (0..table.len()).rev().partition(|&index| values[index].is_none());
        // A child costs one lookup, be it wanted or not, and a start about three: few that are wanted are each a start.
        let down = values_too || others.len() > table.len() / 3;
        let starts = if values_too { [of_values, others].concat() } else { others };
        let mut wanted = vec![false; table.len()];
        starts.iter().for_each(|&index| wanted[index] = true);
        let (left, roots, tries) = (starts.len(), HashSet::new(), table.len());
        Levels { table: *table, values, wanted, left, starts, down, roots, unmet: 0, tries, around: Vec::new(), key: String::new(), buffer: Vec::new() }
    }

    /// The next item, whose key is in `key` then.
    fn step(&mut self) -> Option<Met> {
        while self.left > 0 {
            if self.left == self.unmet {
                // No list has a root: what is around has no more.
                self.around.clear();
            }
            let met = match self.around.pop() {
                Some((end, position)) => self.child(end, position),
                None => Some(self.starts.pop()?).filter(|&index| self.wanted[index]).and_then(|index| self.start(index)),
            };
            if met.is_some_and(|(index, _)| std::mem::take(&mut self.wanted[index])) {
                self.left -= 1;
                return met;
            }
        }
        None
    }

    /// The child at a position of the innermost container, whose key ends there. One whose key has no room is met as a start.
    fn child(&mut self, end: usize, position: usize) -> Option<Met> {
        self.key.truncate(end);
        let child = self.table.child(self.key.as_bytes(), position);
        if child != Err(Refusal::PastTheLast) {
            self.around.push((end, position + 1));
        }
        let child = child.ok().filter(|child| end + child.fragment.len() <= KEY_ROOM)?;
        self.key.push_str(child.fragment);
        if child.kind == Kind::Container && self.wanted[child.index] {
            self.around.push((self.key.len(), 0));
        }
        Some((child.index, Ok(child.kind)))
    }

    /// An item that was not met below another, unless it is put off.
    fn start(&mut self, index: usize) -> Option<Met> {
        match self.table.key_in(index, &mut self.buffer) {
            Ok(key) => self.key = key,
            Err(refusal) => return Some((index, Err(refusal))),
        }
        let kind = match self.values[index] {
            Some(_) => Kind::Value,
            None if self.table.container(self.key.as_bytes()).is_err() => Kind::Table,
            None => Kind::Container,
        };
        (kind != Kind::Container || !self.down || self.begin(index)).then_some((index, Ok(kind)))
    }

    /// Goes down from a container, or first from its root, and then says no: it may be met below that.
    fn begin(&mut self, index: usize) -> bool {
        let end = self.root();
        let itself = end == self.key.len();
        let new = self.roots.insert(self.key[..end].to_string());
        match (new, itself) {
            (true, true) | (false, false) => self.around.push((self.key.len(), 0)),
            (false, true) => self.unmet = self.unmet.saturating_sub(1),
            (true, false) => {
                self.unmet += 1;
                self.starts.push(index);
                self.around.push((end, 0));
            }
        }
        !new || itself
    }

    /// Where the key of a root ends that this key is below: its shortest front that is a container's, or all of it.
    fn root(&mut self) -> usize {
        let fronts = (0..self.key.len().min(ROOT_KEY + 1)).filter(|&end| self.key.is_char_boundary(end));
        let found = fronts.take(self.tries).inspect(|_| self.tries -= 1).find(|&end| self.table.container(&self.key.as_bytes()[..end]).is_ok());
        found.unwrap_or(self.key.len())
    }

    fn entry(&self, (index, kind): Met) -> Entry<'a> {
        let item = match (self.values[index], kind) {
            (Some(bytes), _) => bytes.map(Item::Value),
            (None, Ok(Kind::Container)) => Ok(Item::Container),
            (None, Ok(_)) => self.table.get_table(&self.key).map(Item::Table),
            (None, Err(refusal)) => Err(refusal),
        };
        Entry { index, key: kind.map(|_| self.key.clone()), item }
    }
}

impl<'a> Table<'a> {
    /// The [`entries`](Table::entries) of a table that passes the [`check`](Table::check), in an order of their own. A child costs a lookup of its container's key,
    /// where `entries` joins each key from the root and looks it up: in long chains of containers that is far less. Of a table that does not pass, an item may come
    /// with another key than its own.
    ///
    /// ```
    /// # use gvdb::{Builder, Refusal, Table};
    /// # fn main() -> Result<(), Refusal> {
    /// # let mut builder = Builder::new(4096);
    /// # let root = builder.new_table(Some(b'/'))?;
    /// # builder.insert(root, "a/c", [7])?;
    /// # builder.insert(root, "a/b/d", [8])?;
    /// # let image = builder.write(root)?;
    /// # let table = Table::open(&image.bytes, image.root.start, image.root.end)?;
    /// assert_eq!(table.check(), Ok(()));
    /// let mut keys: Vec<String> = table.sound_entries().map(|entry| entry.key).collect::<Result<_, _>>()?;
    /// keys.sort();
    /// assert_eq!(keys, ["a/", "a/b/", "a/b/d", "a/c"]);
    /// # Ok(())
    /// # }
    /// ```
    pub fn sound_entries(&self) -> impl Iterator<Item = Entry<'a>> + 'a {
        let mut levels = Levels::of(self, true);
        std::iter::from_fn(move || levels.step().map(|met| levels.entry(met)))
    }

    /// The [`tables`](Table::tables) of a table that passes the [`check`](Table::check), in an order of their own, at about a lookup for each item.
    pub fn sound_tables(&self) -> impl Iterator<Item = (String, Table<'a>)> + 'a {
        let mut levels = Levels::of(self, false);
        std::iter::from_fn(move || loop {
            if let (_, Ok(Kind::Table)) = levels.step()? {
                if let Ok(nested) = levels.table.get_table(&levels.key) {
                    return Some((levels.key.clone(), nested));
                }
            }
        })
    }
}
