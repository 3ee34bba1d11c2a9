//! The recorder's core.

use super::{Cells, Gatherer, Number, Reader, Session, Written};

/// `bk_host`
#[repr(C)]
#[derive(Clone, Copy, Debug, Default, PartialEq, Eq)]
pub struct Host {
    /// Its session.
    pub session: Session,
    /// Its reader.
    pub reader: Reader,
    /// Its gatherer.
    pub gatherer: Gatherer,
    /// The serial of the last info reply.
    pub serial: [u8; 16],
}

/// `bk_host_sent`
#[repr(C)]
#[derive(Clone, Copy, Debug, PartialEq, Eq)]
pub struct HostSent {
    /// The host after the call.
    pub host: Host,
    /// What was written.
    pub written: Written,
}

/// `bk_heard`
#[repr(C)]
#[derive(Clone, Copy, Debug, PartialEq, Eq)]
pub struct Heard {
    /// The host after the call.
    pub host: Host,
    /// How many bytes were taken.
    pub taken: usize,
    /// How many words were written.
    pub words: usize,
    /// Why the call stopped.
    pub stop: u8,
    /// The reply, where that is why.
    pub reply: [u8; 20],
}

/// `bk_turned`
#[repr(C)]
#[derive(Clone, Copy, Debug, PartialEq, Eq)]
pub struct Turned {
    /// The host after the call.
    pub host: Host,
    /// How many words were taken.
    pub words: usize,
    /// How many samples the turn that closed has, 0 where none did.
    pub turn: u16,
    /// The number of the refusal, 0 for none.
    pub refusal: u8,
}

extern "C" {
    fn bk_host_new() -> Host;
    fn bk_host_send(
        host: Host,
        time: u64,
        code: u8,
        payload: *const u8,
        payload_len: usize,
        out: *mut u8,
        out_len: usize,
    ) -> HostSent;
    fn bk_host_read(
        host: Host,
        input: *const u8,
        input_len: usize,
        words: *mut u16,
        words_len: usize,
    ) -> Heard;
    fn bk_host_gather(
        host: Host,
        row: *const u16,
        row_len: usize,
        number: u32,
        filling: *mut u16,
        closed: *mut u16,
        rec: *mut u8,
    ) -> Turned;
    fn bk_host_next_number(mem: *const u8, mem_len: usize) -> Number;
}

impl Host {
    /// `bk_host_new`
    #[allow(clippy::new_without_default)] // the default is all zeros, this is the product's
    pub fn new() -> Host {
        // SAFETY: no pointer is handed over.
        unsafe { bk_host_new() }
    }

    /// `bk_host_send`
    pub fn send(self, time: u64, code: u8, payload: &[u8], out: &mut [u8]) -> HostSent {
        let (bytes, room) = (payload.as_ptr(), out.as_mut_ptr());
        // SAFETY: both are lent for the call, the output alone for writing.
        unsafe { bk_host_send(self, time, code, bytes, payload.len(), room, out.len()) }
    }

    /// `bk_host_read`
    pub fn read(self, input: &[u8], words: &mut [u16]) -> Heard {
        // SAFETY: both are lent for the call, the words alone for writing.
        unsafe { bk_host_read(self, input.as_ptr(), input.len(), words.as_mut_ptr(), words.len()) }
    }

    /// `bk_host_gather`
    pub fn gather(
        self,
        row: &[u16],
        number: u32,
        filling: &mut Cells,
        closed: &mut Cells,
        rec: &mut [u8; 754],
    ) -> Turned {
        let (cells, shown, rec) = (filling.as_mut_ptr(), closed.as_mut_ptr(), rec.as_mut_ptr());
        // SAFETY: the arrays have the lengths that the header asks for; all is lent for the call.
        unsafe { bk_host_gather(self, row.as_ptr(), row.len(), number, cells, shown, rec) }
    }
}

/// `bk_host_next_number`
pub fn next_number(mem: &[u8]) -> Number {
    // SAFETY: the memory is lent for the call.
    unsafe { bk_host_next_number(mem.as_ptr(), mem.len()) }
}
