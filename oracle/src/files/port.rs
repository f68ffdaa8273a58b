//! The two calls of the port, as `crates/exports/include/fogatise.h` has them.

#[repr(C)]
#[derive(Clone, Copy, Debug, PartialEq, Eq)]
pub struct Read {
    pub number: u8,
    pub items: usize,
    pub place: usize,
}

#[repr(C)]
#[derive(Clone, Copy, Debug, PartialEq, Eq)]
pub struct Written {
    pub number: u8,
    pub items: usize,
}

extern "C" {
    fn fog_read_histogram(file: *const u8, length: usize, bins: *mut u32, bins_length: usize) -> Read;
    fn fog_write_histogram(bins: *const u32, bins_length: usize, file: *mut u8, length: usize) -> Written;
}

pub fn read(file: &[u8], bins: &mut [u32]) -> Read {
    unsafe { fog_read_histogram(file.as_ptr(), file.len(), bins.as_mut_ptr(), bins.len()) }
}

pub fn write(bins: &[u32], file: &mut [u8]) -> Written {
    unsafe { fog_write_histogram(bins.as_ptr(), bins.len(), file.as_mut_ptr(), file.len()) }
}
