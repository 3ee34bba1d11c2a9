//! Turn records.

use super::{Cells, DistanceQ2, Written};

/// `bk_number`
#[repr(C)]
#[derive(Clone, Copy, Debug, PartialEq, Eq)]
pub struct Number {
    /// The turn number, 0 where it is refused.
    pub number: u32,
    /// The number of the refusal, 0 for none.
    pub refusal: u8,
}

/// `bk_count`
#[repr(C)]
#[derive(Clone, Copy, Debug, PartialEq, Eq)]
pub struct Count {
    /// The sample count, 0 where it is refused.
    pub count: u16,
    /// The number of the refusal, 0 for none.
    pub refusal: u8,
}

/// `bk_cell`
#[repr(C)]
#[derive(Clone, Copy, Debug, PartialEq, Eq)]
pub struct Cell {
    /// The cell, 0 where it is refused.
    pub distance: DistanceQ2,
    /// The number of the refusal, 0 for none.
    pub refusal: u8,
}

extern "C" {
    fn bk_record_write(
        number: u32,
        count: u16,
        serial: *const u8,
        cells: *const u16,
        out: *mut u8,
        out_len: usize,
    ) -> Written;
    fn bk_record_check(rec: *const u8, rec_len: usize) -> u8;
    fn bk_record_number(rec: *const u8, rec_len: usize) -> Number;
    fn bk_record_count(rec: *const u8, rec_len: usize) -> Count;
    fn bk_record_cell(rec: *const u8, rec_len: usize, c: usize) -> Cell;
    fn bk_record_serial(rec: *const u8, rec_len: usize, out: *mut u8, out_len: usize) -> Written;
}

/// `bk_record_write`
#[inline]
pub fn record_write(
    number: u32,
    count: u16,
    serial: &[u8; 16],
    cells: &Cells,
    out: &mut [u8],
) -> Written {
    let (serial, cells) = (serial.as_ptr(), cells.as_ptr());
    // SAFETY: the arrays have the lengths that the header asks for; all is lent for the call.
    unsafe { bk_record_write(number, count, serial, cells, out.as_mut_ptr(), out.len()) }
}

/// `bk_record_check`
#[inline]
pub fn record_check(rec: &[u8]) -> u8 {
    // SAFETY: the bytes are lent for the call.
    unsafe { bk_record_check(rec.as_ptr(), rec.len()) }
}

/// `bk_record_number`
#[inline]
pub fn record_number(rec: &[u8]) -> Number {
    // SAFETY: the bytes are lent for the call.
    unsafe { bk_record_number(rec.as_ptr(), rec.len()) }
}

/// `bk_record_count`
#[inline]
pub fn record_count(rec: &[u8]) -> Count {
    // SAFETY: the bytes are lent for the call.
    unsafe { bk_record_count(rec.as_ptr(), rec.len()) }
}

/// `bk_record_cell`
#[inline]
pub fn record_cell(rec: &[u8], c: usize) -> Cell {
    // SAFETY: the bytes are lent for the call.
    unsafe { bk_record_cell(rec.as_ptr(), rec.len(), c) }
}

/// `bk_record_serial`
#[inline]
pub fn record_serial(rec: &[u8], out: &mut [u8]) -> Written {
    // SAFETY: both are lent for the call, the output alone for writing.
    unsafe { bk_record_serial(rec.as_ptr(), rec.len(), out.as_mut_ptr(), out.len()) }
}
