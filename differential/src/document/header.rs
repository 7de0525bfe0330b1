//! The header of a file, from document 02.

use super::read::word;
use crate::ffi::MAX_FILE;

/// 0 for little endian, 1 for big, then start and end of the root pointer; or the number of a refusal.
pub type Headed = Result<(u32, u32, u32), u32>;

/// 1, 16.
fn length(size: usize) -> Result<(), u32> {
    match size {
        0..24 => Err(16),
        24..=MAX_FILE => Ok(()),
        _ => Err(1),
    }
}

/// 1, 16, 17, 19.
pub fn read(file: &[u8]) -> Headed {
    length(file.len())?;
    let big = match &file[..8] {
        b"GVariant" => 0,
        b"raVGtnai" => 1,
        _ => return Err(17),
    };
    match word(file, 8) {
        0 => Ok((big, word(file, 16), word(file, 20))),
        _ => Err(19),
    }
}

/// 1, 16, or 0 and the target with the header in its first 24 bytes.
pub fn lay(target: &mut [u8], big: u32, start: u32, end: u32) -> u32 {
    if let Err(number) = length(target.len()) {
        return number;
    }
    let signature = if big == 0 { b"GVariant" } else { b"raVGtnai" };
    let header = [&signature[..], &[0; 8], &start.to_le_bytes(), &end.to_le_bytes()].concat();
    target[..24].copy_from_slice(&header);
    0
}
