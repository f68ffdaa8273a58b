//! The histogram file. `docs/FILE.md` of the repository has its bytes.

use crate::raw;
use crate::refusal::{answered_at, written};
use crate::Refusal;

/// As many bins as any file holds.
pub const MOST_FILE_BINS: usize = 2047;

/// As many bytes as any file has.
pub const MOST_FILE_BYTES: usize = 10_238;

/// Reads a file into the front of `bins`, and answers that part. Refusals 3, which tells the place of the first fault, and 10.
pub fn read_histogram<'o>(file: &[u8], bins: &'o mut [u32]) -> Result<&'o mut [u32], Refusal> {
    let answer = unsafe { raw::fog_read_histogram(file.as_ptr(), file.len(), bins.as_mut_ptr(), bins.len()) };
    answered_at(answer.number, answer.place)?;
    Ok(&mut bins[..answer.items])
}

/// Writes the file of some bins into the front of `file`, and answers that part. Refusals 1, 2, which here is for more than
/// [`MOST_FILE_BINS`], and 10.
pub fn write_histogram<'o>(bins: &[u32], file: &'o mut [u8]) -> Result<&'o mut [u8], Refusal> {
    let answer = unsafe { raw::fog_write_histogram(bins.as_ptr(), bins.len(), file.as_mut_ptr(), file.len()) };
    written(answer, file)
}
