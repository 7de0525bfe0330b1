//! Headers, read by all three and laid by two: gvdb-rs lays one only with a whole file, and there they are compared from byte 0 (building.rs).

use crate::dice::Dice;
use crate::document::header as document;
use crate::ffi::MAX_FILE;
use crate::lent::File;
use crate::ours;
use crate::reading::hex;
use crate::tally::{Outcome, Tally, Who};
use crate::theirs;

const SIGNATURES: [&[u8; 8]; 2] = [b"GVariant", b"raVGtnai"];

/// What a header is described by: its bytes, or the first of them.
fn shown(file: &[u8]) -> String {
    format!("{} bytes: {}", file.len(), hex(&file[..file.len().min(48)]))
}

/// Reads a header at an even and at an odd address. gvdb-rs reads a file of any length.
fn read(file: &[u8], tally: &mut Tally) -> Outcome {
    let ours = ours::header(file);
    tally.number(ours.err().unwrap_or(0));
    tally.same(Who::Document, "header", &ours, &document::read(file), || shown(file))?;
    if ours != Err(1) {
        tally.same(Who::Rust, "header", &ours, &theirs::header(file), || shown(file))?;
    }
    if file.len() < 64 {
        let odd = File::shifted(file, 1 + file.len() % 7);
        tally.same(Who::Document, "header", &ours::header(odd.bytes()), &ours, || format!("odd address, {}", shown(file)))?;
    }
    Ok(())
}

/// Lays a header over a copy of the target; number and every byte are compared, and what was laid is read.
fn lay(target: &[u8], (big, start, end): (u32, u32, u32), tally: &mut Tally) -> Outcome {
    let (number, laid) = ours::lay_header(target, big, start, end);
    tally.number(number);
    let mut paper = target.to_vec();
    let expected = document::lay(&mut paper, big, start, end);
    let question = || format!("big {big}, {start} to {end} into {}", shown(target));
    tally.same(Who::Document, "lay header", &number, &expected, question)?;
    tally.same(Who::Document, "lay header", &(laid == paper), &true, || format!("{}: laid {}, not {}", question(), shown(&laid), shown(&paper)))?;
    if number == 0 {
        tally.same(Who::Rust, "laid header", &theirs::header(&laid), &Ok((u32::from(big != 0), start, end)), question)?;
        read(&laid, tally)?;
    }
    Ok(())
}

/// A header with the root 24 to 60, and so many bytes of it and behind it.
fn good(signature: &[u8; 8], size: usize) -> Vec<u8> {
    let mut file = [&signature[..], &[0; 8], &[24, 0, 0, 0, 60, 0, 0, 0]].concat();
    file.resize(size, 0xEE);
    file
}

/// Every length around 24; each byte of a header changed to each other value; halves of two orders, and other near ones.
fn readings(tally: &mut Tally) -> Outcome {
    for signature in SIGNATURES {
        for size in 0..=25 {
            read(&good(signature, size), tally)?;
            read(&vec![0; size], tally)?;
            read(&vec![0xFF; size], tally)?;
        }
        for at in 0..24 {
            let mut file = good(signature, 24);
            for byte in 0..=255 {
                file[at] = byte;
                read(&file, tally)?;
            }
        }
    }
    for near in [b"GVartnai", b"raVGiant", b"tnairaVG", b"iantGVar", b"gvariant", b"VGraaitn"] {
        tally.same(Who::Document, "header", &ours::header(&good(near, 24)), &Err(17), || shown(near))?;
        read(&good(near, 24), tally)?;
    }
    Ok(())
}

/// Targets of every length around 24, with garbage in them.
fn short_targets(tally: &mut Tally) -> Outcome {
    let dice = Dice::new(0);
    for size in 0..=40 {
        for big in [0, 1, 2, 256, u32::MAX] {
            for (start, end) in [(24, 60), (0, 0), (60, 24), (u32::MAX, u32::MAX), (0x0102_0304, 0x0506_0708), (dice.next() as u32, dice.next() as u32)] {
                lay(&dice.bytes(size), (big, start, end), tally)?;
            }
        }
    }
    Ok(())
}

/// The longest file and target, and one byte more.
fn long_ones(tally: &mut Tally) -> Outcome {
    let mut garbage = Dice::new(1).bytes(MAX_FILE + 1);
    for size in [MAX_FILE, MAX_FILE + 1] {
        for big in [0, 1] {
            lay(&garbage[..size], (big, 24, 60), tally)?;
            garbage[..24].copy_from_slice(&good(SIGNATURES[big as usize], 24));
            read(&garbage[..size], tally)?;
            garbage[..24].fill(0xC3);
        }
    }
    Ok(())
}

pub fn show(tally: &mut Tally) -> Outcome {
    readings(tally)?;
    short_targets(tally)?;
    long_ones(tally)
}

/// A header by chance, near a good one mostly, and one laid over it.
pub fn random(dice: &Dice, tally: &mut Tally) -> Outcome {
    let size = dice.below(60);
    let mut file = dice.bytes(size);
    for (at, byte) in good(dice.pick::<&[u8; 8]>(&SIGNATURES), 24).into_iter().enumerate().take(size) {
        if at < 16 && !dice.one_in(60) {
            file[at] = byte;
        }
    }
    read(&file, tally)?;
    lay(&file, (dice.next() as u32 * dice.below(2) as u32, dice.next() as u32, dice.next() as u32), tally)
}
