//! The library's C functions behind safe ones.
//!
//! The contract, which the library's proofs establish for every call:
//! - a call reads `sheet[0 .. sheet_len]` and reads and writes `out[0 .. out_len]`, and nothing else;
//! - on number 0 the first `length` bytes of the output are the list, and the rest are as they were;
//! - on any other number `length` is 0 and the whole output is as it was;
//! - no input is ruled out, and every call returns.
//!
//! A C caller owes three things, all of which hold of a `&[u8]` beside a `&mut [u8]`: each length is true, the two do
//! not overlap, no other thread writes to either meanwhile. Where a length is 0 its pointer isn't read. So the wrappers
//! are safe whatever they are given.

#[repr(C)]
#[derive(Clone, Copy, Debug, PartialEq)]
pub struct Answer {
    pub number: u32,
    pub length: usize,
}

unsafe extern "C" {
    fn zatongae_convert(sheet: *const u8, sheet_len: usize, out: *mut u8, out_len: usize) -> Answer;
    #[cfg(has_function)]
    fn zatongae_convert_function(record: *const u8, record_len: usize, out: *mut u8, out_len: usize) -> Answer;
    #[cfg(has_narrow)]
    fn zatongae_narrow(bits: u64) -> u32;
}

/// A sheet to a list of filter primitives.
pub fn convert(sheet: &[u8], out: &mut [u8]) -> Answer {
    unsafe { zatongae_convert(sheet.as_ptr(), sheet.len(), out.as_mut_ptr(), out.len()) }
}

/// A function record to a Kind. None: the library was built without it.
#[cfg(has_function)]
pub fn convert_function(record: &[u8], out: &mut [u8]) -> Option<Answer> {
    Some(unsafe { zatongae_convert_function(record.as_ptr(), record.len(), out.as_mut_ptr(), out.len()) })
}
#[cfg(not(has_function))]
pub fn convert_function(_: &[u8], _: &mut [u8]) -> Option<Answer> {
    None
}

/// The bits of an f64 to those of the nearest f32. None: the library was built without it.
#[cfg(has_narrow)]
pub fn narrow(bits: u64) -> Option<u32> {
    Some(unsafe { zatongae_narrow(bits) })
}
#[cfg(not(has_narrow))]
pub fn narrow(_: u64) -> Option<u32> {
    None
}
