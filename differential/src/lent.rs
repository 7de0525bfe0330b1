//! Lent buffers with guards on both sides, which must stay as they were.

const GUARD: u8 = 0xA5;
const GUARD_WORD: usize = 0xA5A5_5A5A_C3C3_3C3C;
const MARGIN: usize = 64;

/// A file's bytes at an address that is a multiple of 8, as gvdb-rs wants it, or just behind one.
pub struct File {
    words: Vec<u64>,
    shift: usize,
    size: usize,
}

impl File {
    pub fn new(bytes: &[u8]) -> File {
        File::shifted(bytes, 0)
    }

    pub fn shifted(bytes: &[u8], shift: usize) -> File {
        let mut file = File { words: vec![0; (bytes.len() + shift).div_ceil(8) + 1], shift, size: bytes.len() };
        for (at, byte) in bytes.iter().enumerate() {
            file.words[(at + shift) / 8] |= u64::from(*byte).to_le() << (8 * ((at + shift) % 8));
        }
        file
    }

    pub fn bytes(&self) -> &[u8] {
        // the words have at least shift + size bytes, and a byte has no alignment
        unsafe { std::slice::from_raw_parts(self.words.as_ptr().cast::<u8>().add(self.shift), self.size) }
    }
}

/// Lends a buffer of so many bytes, all GUARD, and answers what it held afterwards.
pub fn buffer<R>(size: usize, call: impl FnOnce(&mut [u8]) -> R) -> (R, Vec<u8>) {
    let mut bytes = vec![GUARD; size + 2 * MARGIN];
    let answer = call(&mut bytes[MARGIN..MARGIN + size]);
    assert!(bytes[..MARGIN].iter().chain(&bytes[MARGIN + size..]).all(|byte| *byte == GUARD), "bytes beside a lent buffer changed");
    bytes.truncate(MARGIN + size);
    bytes.drain(..MARGIN);
    (answer, bytes)
}

/// Whether nothing was written to these bytes of a buffer.
pub fn untouched(bytes: &[u8]) -> bool {
    bytes.iter().all(|byte| *byte == GUARD)
}

/// A builder's memory, with words and bytes beside it.
#[derive(Clone, PartialEq, Eq)]
pub struct Memory {
    words: Vec<usize>,
    arena: Vec<u8>,
}

impl Memory {
    pub fn new(words: &[usize], arena: &[u8]) -> Memory {
        Memory { words: [&[GUARD_WORD; MARGIN][..], words, &[GUARD_WORD; MARGIN]].concat(), arena: [&[GUARD; MARGIN][..], arena, &[GUARD; MARGIN]].concat() }
    }

    pub fn words(&mut self) -> &mut [usize] {
        let end = self.words.len() - MARGIN;
        &mut self.words[MARGIN..end]
    }

    pub fn same_arena(&self, other: &Memory) -> bool {
        self.arena == other.arena
    }

    /// Lends words and arena to a call.
    pub fn lend<R>(&mut self, call: impl FnOnce(&mut [usize], &mut [u8]) -> R) -> R {
        let (words_end, arena_end) = (self.words.len() - MARGIN, self.arena.len() - MARGIN);
        let answer = call(&mut self.words[MARGIN..words_end], &mut self.arena[MARGIN..arena_end]);
        assert!(self.words[..MARGIN].iter().chain(&self.words[words_end..]).all(|word| *word == GUARD_WORD), "words beside the lent ones changed");
        assert!(self.arena[..MARGIN].iter().chain(&self.arena[arena_end..]).all(|byte| *byte == GUARD), "bytes beside the arena changed");
        answer
    }
}
