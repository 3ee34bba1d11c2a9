//! The session: what the host may send, and when.

use super::Written;

/// `bk_session`
#[repr(C)]
#[derive(Clone, Copy, Debug, Default, PartialEq, Eq)]
pub struct Session {
    /// The last time accepted.
    pub last: u64,
    /// The milliseconds asked after it.
    pub wait: u64,
    /// A single reply is awaited where this is not 0.
    pub awaited: u8,
}

/// `bk_sent`
#[repr(C)]
#[derive(Clone, Copy, Debug, PartialEq, Eq)]
pub struct Sent {
    /// The session after the call.
    pub session: Session,
    /// What was written.
    pub written: Written,
}

extern "C" {
    fn bk_session_new() -> Session;
    fn bk_session_send(
        session: Session,
        time: u64,
        code: u8,
        payload: *const u8,
        payload_len: usize,
        out: *mut u8,
        out_len: usize,
    ) -> Sent;
    fn bk_session_reply_ended(session: Session) -> Session;
}

impl Session {
    /// `bk_session_new`
    #[allow(clippy::new_without_default)] // the default is all zeros, this is the product's
    pub fn new() -> Session {
        // SAFETY: no pointer is handed over.
        unsafe { bk_session_new() }
    }

    /// `bk_session_send`
    pub fn send(self, time: u64, code: u8, payload: &[u8], out: &mut [u8]) -> Sent {
        let (bytes, room) = (payload.as_ptr(), out.as_mut_ptr());
        // SAFETY: both are lent for the call, the output alone for writing.
        unsafe { bk_session_send(self, time, code, bytes, payload.len(), room, out.len()) }
    }

    /// `bk_session_reply_ended`
    pub fn reply_ended(self) -> Session {
        // SAFETY: no pointer is handed over.
        unsafe { bk_session_reply_ended(self) }
    }
}
