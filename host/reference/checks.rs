//! The refusals that many calls have in common.

use ghishmadul::Refusal;

/// A power of two from 1 to 16.
pub fn is_length(k: usize) -> bool {
    k.is_power_of_two() && k <= 16
}

pub fn length(k: usize) -> Result<(), Refusal> {
    if is_length(k) {
        Ok(())
    } else {
        Err(Refusal::Length)
    }
}

/// A file that has so many bytes.
pub fn size_of_file(file: &[u8], bytes: usize) -> Result<(), Refusal> {
    if file.len() == bytes {
        Ok(())
    } else {
        Err(Refusal::File)
    }
}

/// The length and both files.
pub fn files(k: usize, z: &[u8], p: &[u8]) -> Result<(), Refusal> {
    length(k)?;
    size_of_file(z, 512 * k)?;
    size_of_file(p, 32 * k)
}

pub fn program(program: &[u8]) -> Result<(), Refusal> {
    if program.len() % 4 == 0 && program.len() / 4 <= 256 {
        Ok(())
    } else {
        Err(Refusal::Program)
    }
}

pub fn room(journal: &[u8]) -> Result<(), Refusal> {
    if (8..=65_536).contains(&journal.len()) {
        Ok(())
    } else {
        Err(Refusal::Room)
    }
}
