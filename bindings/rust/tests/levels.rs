//! The walk over a sound table container by container meets what the listing by index does, in whatever order the items lie.

use gvdb::{Entry, Item, Kind, Table};

/// An item of a table laid by hand: its parent, its fragment and its kind.
type Laid = (Option<usize>, String, Kind);

fn key(items: &[Laid], index: usize) -> String {
    let (parent, fragment, _) = &items[index];
    parent.map_or(String::new(), |parent| key(items, parent)) + fragment
}

/// Lays a table from byte 0 on, with the items in the order in which they are given, all in one bucket. Values hold nothing, and all tables are one empty one.
fn lay(items: &[Laid]) -> (Vec<u8>, u32) {
    let word = |number: usize| (number as u32).to_le_bytes();
    let table_end = 12 + 24 * items.len();
    let mut behind = vec![0; 8];
    let mut file = [0, 1, 0].map(word).concat();
    for (index, (parent, fragment, kind)) in items.iter().enumerate() {
        let hash = key(items, index).bytes().fold(5381u32, |hash, byte| hash.wrapping_mul(33).wrapping_add(byte.into()));
        let list = table_end + behind.len();
        let (letter, start, end) = match kind {
            Kind::Value => (b'v', 0, 0),
            Kind::Table => (b'H', table_end, table_end + 8),
            Kind::Container => {
                behind.extend((0..items.len()).filter(|&child| items[child].0 == Some(index)).flat_map(word));
                (b'L', list, table_end + behind.len())
            }
        };
        let text = table_end + behind.len();
        let kind = fragment.len() | usize::from(letter) << 16;
        file.extend([hash as usize, parent.unwrap_or(u32::MAX as usize), text, kind, start, end].map(word).concat());
        behind.extend(fragment.bytes());
        behind.resize(behind.len().next_multiple_of(4), 0);
    }
    (file.into_iter().chain(behind).collect(), table_end as u32)
}

/// An entry as a line, with what shows that a value or table is the right one.
fn line(entry: Entry) -> String {
    let held = match entry.item.unwrap() {
        Item::Value(bytes) => format!("value {bytes:?}"),
        Item::Table(nested) => format!("table {:?}", nested.pointer()),
        Item::Container => "container".to_string(),
    };
    format!("{:06} {:?} {held}", entry.index, entry.key.unwrap())
}

/// Holds both walks to the listings by index.
fn compare(items: &[Laid]) {
    let (file, end) = lay(items);
    let table = Table::open(&file, 0, end).unwrap();
    assert_eq!(table.check(), Ok(()), "{items:?}");
    let (by_index, mut by_level): (Vec<_>, Vec<_>) = (table.entries().map(line).collect(), table.sound_entries().map(line).collect());
    by_level.sort();
    assert_eq!(by_index, by_level);
    let keys = |tables: &mut dyn Iterator<Item = (String, Table)>| {
        let mut keys: Vec<String> = tables.map(|(key, _)| key).collect();
        keys.sort();
        keys
    };
    assert_eq!(keys(&mut table.tables()), keys(&mut table.sound_tables()));
}

fn item(parent: Option<usize>, fragment: &str, kind: Kind) -> Laid {
    (parent, fragment.to_string(), kind)
}

#[test]
fn chains_in_either_order() {
    let kind = |depth: usize, last: Kind| if depth == 99 { last } else { Kind::Container };
    for last in [Kind::Value, Kind::Table, Kind::Container] {
        for root in ["a", "a root whose key is longer than those that are sought as fronts", ""] {
            let fragment = |depth: usize| if depth == 0 { root } else { "é" };
            compare(&(0..100).map(|at: usize| item(at.checked_sub(1), fragment(at), kind(at, last))).collect::<Vec<_>>());
            let upwards = |at: usize| item((at < 99).then_some(at + 1), fragment(99 - at), kind(99 - at, last));
            compare(&(0..100).map(upwards).collect::<Vec<_>>());
        }
    }
}

/// What is below "ab" is not below "a", which is a front of it and a root too.
#[test]
fn a_root_in_front_of_another() {
    let (below, left) = (item(Some(3), "c", Kind::Container), item(Some(0), "d", Kind::Value));
    let roots = [item(None, "a", Kind::Container), item(None, "ab", Kind::Container)];
    compare(&[below.clone(), left.clone(), roots[0].clone(), roots[1].clone()]);
    compare(&[below, left, item(None, "", Kind::Container), roots[1].clone(), roots[0].clone()]);
    compare(&[item(Some(2), "c", Kind::Container), roots[0].clone(), roots[1].clone(), item(Some(2), "d", Kind::Table)]);
}

/// Random forests, whose items lie in a random order.
#[test]
fn forests() {
    let mut dice = 0x9E37_79B9_7F4A_7C15u64;
    let mut below = |limit: usize| {
        dice = dice.wrapping_mul(6_364_136_223_846_793_005).wrapping_add(1_442_695_040_888_963_407);
        (dice >> 33) as usize % limit
    };
    for _ in 0..300 {
        let count = 1 + below(60);
        let containers = 1 + below(count);
        let kind = |at: usize| if at < containers { Kind::Container } else { [Kind::Value, Kind::Value, Kind::Table][at % 3] };
        let mut places: Vec<usize> = (0..count).collect();
        (1..count).rev().for_each(|at| places.swap(at, below(at + 1)));
        let mut items = vec![item(None, "", Kind::Value); count];
        for at in 0..count {
            let parent = Some(below(at + 2)).filter(|&parent| parent < at.min(containers));
            // no two keys are alike: the names end in another byte than they have
            items[places[at]] = item(parent.map(|parent| places[parent]), &format!("{at}{}", ["/", "."][at % 2]), kind(at));
        }
        compare(&items);
    }
}
