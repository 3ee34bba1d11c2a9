//! The ring, and its text.

use super::Written;

/// `BK_LISTING_BYTES`: an output that no listing is too long for.
pub const LISTING_BYTES: usize = 1_710;

/// `bk_held`
#[repr(C)]
#[derive(Clone, Copy, Debug, PartialEq, Eq)]
pub struct Held {
    /// How many turns are held, 0 where it is refused.
    pub turns: usize,
    /// The number of the refusal, 0 for none.
    pub refusal: u8,
}

/// `bk_part`
#[repr(C)]
#[derive(Clone, Copy, Debug, PartialEq, Eq)]
pub struct Part {
    /// Where the part begins in the memory lent, 0 where it is refused.
    pub offset: usize,
    /// How long it is, 0 where it is refused.
    pub length: usize,
    /// The number of the refusal, 0 for none.
    pub refusal: u8,
}

extern "C" {
    fn bk_ring_held(mem: *const u8, mem_len: usize) -> Held;
    fn bk_ring_store(mem: *mut u8, mem_len: usize, rec: *const u8, rec_len: usize, k: usize) -> u8;
    fn bk_ring_add(mem: *mut u8, mem_len: usize, rec: *const u8, rec_len: usize) -> u8;
    fn bk_ring_turn(mem: *const u8, mem_len: usize, i: usize) -> Part;
    fn bk_ring_all_read(mem: *const u8, mem_len: usize) -> u8;
    fn bk_ring_erase(mem: *mut u8, mem_len: usize) -> u8;
    fn bk_ring_list(mem: *const u8, mem_len: usize, out: *mut u8, out_len: usize) -> Written;
}

/// `bk_ring_held`
#[inline]
pub fn ring_held(mem: &[u8]) -> Held {
    // SAFETY: the memory is lent for the call.
    unsafe { bk_ring_held(mem.as_ptr(), mem.len()) }
}

/// `bk_ring_store`
#[inline]
pub fn ring_store(mem: &mut [u8], rec: &[u8], k: usize) -> u8 {
    // SAFETY: both are lent for the call, the memory alone for writing.
    unsafe { bk_ring_store(mem.as_mut_ptr(), mem.len(), rec.as_ptr(), rec.len(), k) }
}

/// `bk_ring_add`
#[inline]
pub fn ring_add(mem: &mut [u8], rec: &[u8]) -> u8 {
    // SAFETY: both are lent for the call, the memory alone for writing.
    unsafe { bk_ring_add(mem.as_mut_ptr(), mem.len(), rec.as_ptr(), rec.len()) }
}

/// `bk_ring_turn`
#[inline]
pub fn ring_turn(mem: &[u8], i: usize) -> Part {
    // SAFETY: the memory is lent for the call.
    unsafe { bk_ring_turn(mem.as_ptr(), mem.len(), i) }
}

/// `bk_ring_all_read`
#[inline]
pub fn ring_all_read(mem: &[u8]) -> u8 {
    // SAFETY: the memory is lent for the call.
    unsafe { bk_ring_all_read(mem.as_ptr(), mem.len()) }
}

/// `bk_ring_erase`
#[inline]
pub fn ring_erase(mem: &mut [u8]) -> u8 {
    // SAFETY: the memory is lent for the call.
    unsafe { bk_ring_erase(mem.as_mut_ptr(), mem.len()) }
}

/// `bk_ring_list`
#[inline]
pub fn ring_list(mem: &[u8], out: &mut [u8]) -> Written {
    // SAFETY: both are lent for the call, the output alone for writing.
    unsafe { bk_ring_list(mem.as_ptr(), mem.len(), out.as_mut_ptr(), out.len()) }
}
