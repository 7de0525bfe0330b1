//! GLib's reader, compiled by bench/run to a library of its own and opened here, so that it is measured in the same process and turns.

use crate::{timed, turn, Asked, Ground, Turn};
use std::ffi::{c_char, c_int, c_void, CString};
use std::hint::black_box;

extern "C" {
    fn dlopen(path: *const c_char, flags: c_int) -> *mut c_void;
    fn dlsym(library: *mut c_void, name: *const c_char) -> *mut c_void;
}

type Open = extern "C" fn(*const u8, usize) -> *mut c_void;
type Has = extern "C" fn(*mut c_void, *const c_char) -> c_int;
type List = extern "C" fn(*mut c_void) -> usize;

/// The calls of bench/glib.c.
#[derive(Clone, Copy)]
pub struct Reader {
    open: Open,
    has: Has,
    list: List,
}

fn text(text: &str) -> CString {
    CString::new(text).expect("no 0 inside")
}

impl Reader {
    /// The library at a path, which stays open.
    pub fn load(path: &str) -> Reader {
        const NOW: c_int = 2;
        let library = unsafe { dlopen(text(path).as_ptr(), NOW) };
        assert!(!library.is_null(), "{path} does not load");
        let symbol = |name: &str| {
            let found = unsafe { dlsym(library, text(name).as_ptr()) };
            assert!(!found.is_null(), "{path} has no {name}");
            found
        };
        // The types are those of bench/glib.c.
        unsafe {
            Reader {
                open: std::mem::transmute::<*mut c_void, Open>(symbol("reader_open")),
                has: std::mem::transmute::<*mut c_void, Has>(symbol("reader_has")),
                list: std::mem::transmute::<*mut c_void, List>(symbol("reader_list")),
            }
        }
    }

    /// A table over a file, which is used as long as the bench runs.
    pub fn table(self, file: &[u8]) -> Table {
        let table = (self.open)(file.as_ptr(), file.len());
        assert!(!table.is_null(), "GLib opens no table");
        Table { reader: self, table }
    }
}

#[derive(Clone, Copy)]
pub struct Table {
    reader: Reader,
    table: *mut c_void,
}

impl Table {
    pub fn lookups<'a>(self, keys: &[String], there: bool) -> Turn<'a> {
        let mut asked = Asked::new(keys.iter().map(|key| text(key)).collect::<Vec<CString>>());
        turn(keys.len(), move || asked.timed(|key| assert_eq!((self.reader.has)(self.table, key.as_ptr()) != 0, there)))
    }

    /// All keys in one call, as GLib lists them.
    pub fn listing<'a>(self, ground: &Ground) -> Turn<'a> {
        let items = ground.items();
        turn(items, move || timed(|| assert_eq!((self.reader.list)(black_box(self.table)), items)).0)
    }
}
