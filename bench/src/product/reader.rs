//! The reader of the response stream.

/// `bk_reader`
#[repr(C)]
#[derive(Clone, Copy, Debug, Default, PartialEq, Eq)]
pub struct Reader {
    /// One of the phases below.
    pub phase: u8,
    /// How many bytes are held.
    pub n: u8,
    /// They are the first of these.
    pub held: [u8; 20],
    /// How many bytes were skipped.
    pub skipped: u32,
}

/// `bk_told`
#[repr(C)]
#[derive(Clone, Copy, Debug, PartialEq, Eq)]
pub struct Told {
    /// The reader after the call.
    pub reader: Reader,
    /// The number of the refusal, 0 for none.
    pub refusal: u8,
}

/// `bk_reading`
#[repr(C)]
#[derive(Clone, Copy, Debug, PartialEq, Eq)]
pub struct Reading {
    /// The reader after the call.
    pub reader: Reader,
    /// How many bytes were taken.
    pub taken: usize,
    /// How many words were written.
    pub words: usize,
    /// Why the call stopped.
    pub stop: u8,
    /// The reply, where that is why.
    pub reply: [u8; 20],
}

extern "C" {
    fn bk_reader_new() -> Reader;
    fn bk_reader_tell(reader: Reader, code: u8) -> Told;
    fn bk_reader_read(
        reader: Reader,
        input: *const u8,
        input_len: usize,
        words: *mut u16,
        words_len: usize,
    ) -> Reading;
}

impl Reader {
    /// `BK_IDLE`; any other number than these is this.
    pub const IDLE: u8 = 0;
    /// `BK_SEEK_INFO`
    pub const SEEK_INFO: u8 = 1;
    /// `BK_SEEK_HEALTH`
    pub const SEEK_HEALTH: u8 = 2;
    /// `BK_SEEK_SCAN`
    pub const SEEK_SCAN: u8 = 3;
    /// `BK_INFO_REPLY`
    pub const INFO_REPLY: u8 = 4;
    /// `BK_HEALTH_REPLY`
    pub const HEALTH_REPLY: u8 = 5;
    /// `BK_SCANNING`
    pub const SCANNING: u8 = 6;

    /// `bk_reader_new`
    #[allow(clippy::new_without_default)] // the default is all zeros, this is the product's
    pub fn new() -> Reader {
        // SAFETY: no pointer is handed over.
        unsafe { bk_reader_new() }
    }

    /// `bk_reader_tell`
    pub fn tell(self, code: u8) -> Told {
        // SAFETY: no pointer is handed over.
        unsafe { bk_reader_tell(self, code) }
    }

    /// `bk_reader_read`
    #[inline] // the bench is not to pay for a copy of its own
    pub fn read(self, input: &[u8], words: &mut [u16]) -> Reading {
        // SAFETY: both parts are lent for the call, the words alone for writing.
        unsafe {
            bk_reader_read(self, input.as_ptr(), input.len(), words.as_mut_ptr(), words.len())
        }
    }
}
