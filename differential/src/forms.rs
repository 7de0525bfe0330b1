//! Both forms of the hash: the image of one key that they lay apart, and the bits of a manner that are not read.

use crate::document::{hash, Form, Manner};
use crate::ffi::{self, memory_words};
use crate::lent::Memory;
use crate::ours;
use crate::reading::Case;
use crate::tally::{Outcome, Tally, Who, Why};

const KEY: &[u8] = "\u{e9}".as_bytes();
/// The hash of the key, as each form has it.
const HASHES: [u32; 2] = [5_866_513, 5_857_809];
/// Where the hash of an image's only item stands.
const AT: usize = 36;
const END: u32 = 60;

fn image(memory: &mut Memory, form: Form) -> Vec<u8> {
    let (image, end) = memory.write(0, 66, form).expect("an image");
    assert_eq!((image.len(), end), (66, END));
    image
}

/// Each image has its hash, is found and sound in its own form, and is neither in the other; all other bytes are equal.
pub fn show(tally: &mut Tally) -> Outcome {
    let mut memory = Memory::new(&vec![0; memory_words()], &[0; 8]);
    assert_eq!((memory.fresh(), memory.new_table(b""), memory.insert(0, KEY, b"\x01\x02")), (0, Ok(0), Ok(0)));
    let images = Form::BOTH.map(|form| image(&mut memory, form));
    for (laid, (file, word)) in Form::BOTH.into_iter().zip(images.iter().zip(HASHES)) {
        tally.same(Who::Document, "forms", &hash(KEY, laid), &word, || format!("{laid:?}"))?;
        tally.same(Who::Document, "forms", &file[AT..AT + 4], &word.to_le_bytes()[..], || format!("{laid:?}"))?;
        for asked in Form::BOTH {
            let (found, broken) = if laid == asked { (Ok((64, 66)), None) } else { (Err(Why::from(12)), Some((2, 0, None))) };
            tally.same(Who::Document, "forms", &ours::get(file, 24, END, KEY, asked), &found, || format!("{laid:?} by {asked:?}"))?;
            tally.same(Who::Document, "forms", &ours::check(file, 24, END, asked), &Ok(broken), || format!("{laid:?} by {asked:?}"))?;
        }
        Case { file: file.clone(), start: 24, end: END, keys: vec![KEY.to_vec()] }.compare(tally)?;
    }
    tally.same(Who::Document, "forms", &images[0][..AT], &images[1][..AT], || "in front of the hash".into())?;
    tally.same(Who::Document, "forms", &images[0][AT + 4..], &images[1][AT + 4..], || "behind the hash".into())?;
    other_bits(&mut memory, &images, tally)
}

/// A manner with any other bits is the manner without them.
fn other_bits(memory: &mut Memory, images: &[Vec<u8>; 2], tally: &mut Tally) -> Outcome {
    for bits in (2..32).map(|bit| 1 << bit).chain([u32::MAX - 3]) {
        for (form, file) in Form::BOTH.into_iter().zip(images) {
            let manner = Manner::from(form).number() | bits;
            let numbers = [ffi::get(file, 24, END, KEY, manner).number, ffi::check(file, 24, END, manner).number];
            tally.same(Who::Document, "forms", &numbers, &[0, 0], || format!("manner {manner:#x}"))?;
            let numbers = [ffi::get_table(file, 24, END, KEY, manner).number, ffi::next_child(file, 24, END, KEY, 0, manner).number];
            tally.same(Who::Document, "forms", &numbers, &[13, 13], || format!("manner {manner:#x}"))?;
            let mut image = vec![0; 66];
            let number = memory.lend(|words, arena| ffi::write(words, arena, 0, &mut image, manner, 0)).number;
            tally.same(Who::Document, "forms", &(number, &image), &(0, file), || format!("manner {manner:#x}"))?;
        }
    }
    Ok(())
}
