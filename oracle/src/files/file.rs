//! The histogram file by the sentences of document 01 alone: a reader and a writer.

use std::ops::RangeInclusive;

pub const FORM: u64 = 1;
pub const BIN_COUNTS: RangeInclusive<u64> = 2..=2047;
pub const BINS: RangeInclusive<u64> = 0..=u32::MAX as u64;

/// A byte for the form, two for the bin count and five for each bin.
pub const LONGEST: usize = 1 + 2 + 5 * 2047;

/// Five groups hold 35 bits, and every range ends below: a number with more groups is too long or outside its range.
const GROUPS: usize = 5;

/// The number at a place of the file, and the place behind it; nothing where it is missing, cut short, too long or outside its range.
#[inline]
fn number(file: &[u8], start: usize, range: RangeInclusive<u64>) -> Option<(u64, usize)> {
    let mut value = 0;
    for (i, &byte) in file[start..].iter().take(GROUPS).enumerate() {
        value |= u64::from(byte & 0x7f) << (7 * i);
        if byte & 0x80 == 0 {
            let shortest = i == 0 || byte != 0;
            return (shortest && range.contains(&value)).then_some((value, start + i + 1));
        }
    }
    None
}

/// Reads the file's bins, or answers the place of its first fault. What `bins` holds beside a fault means nothing.
pub fn read(file: &[u8], bins: &mut Vec<u32>) -> Result<(), usize> {
    bins.clear();
    let (_, second) = number(file, 0, FORM..=FORM).ok_or(0usize)?;
    let (count, mut at) = number(file, second, BIN_COUNTS).ok_or(second)?;
    bins.reserve(count as usize);
    for _ in 0..count {
        let (bin, next) = number(file, at, BINS).ok_or(at)?;
        bins.push(bin as u32);
        at = next;
    }
    if at == file.len() {
        Ok(())
    } else {
        Err(at)
    }
}

/// A number in its shortest form, behind what the file holds.
#[inline]
pub fn put(file: &mut Vec<u8>, mut number: u64) {
    while number > 0x7f {
        file.push(number as u8 | 0x80);
        number >>= 7;
    }
    file.push(number as u8);
}

/// The file of some bins, or the number that comes back instead.
pub fn write(bins: &[u32], file: &mut Vec<u8>) -> Result<(), u8> {
    file.clear();
    if bins.len() < 2 {
        return Err(1);
    }
    if bins.len() > 2047 {
        return Err(2);
    }
    put(file, FORM);
    put(file, bins.len() as u64);
    for &bin in bins {
        put(file, u64::from(bin));
    }
    Ok(())
}
