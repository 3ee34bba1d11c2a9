//! The collector of requests.

/// `bk_stage`
#[repr(C)]
#[derive(Clone, Copy, Debug, Default, PartialEq, Eq)]
pub struct Stage {
    /// One of the stages below.
    pub kind: u8,
    /// The code, from `CODED` on.
    pub code: u8,
    /// The size of the payload, at `SIZED`.
    pub size: u8,
    /// How many bytes of it are there, at `SIZED`; over the size is read as the size.
    pub count: u8,
    /// The exclusive or of all bytes so far, at `SIZED`.
    pub sum: u8,
}

impl Stage {
    /// No packet is begun; any other number than these is this.
    pub const EMPTY: u8 = 0;
    /// The first byte is there.
    pub const STARTED: u8 = 1;
    /// The code is there.
    pub const CODED: u8 = 2;
    /// The size is there.
    pub const SIZED: u8 = 3;
}

/// `bk_collector`
#[repr(C)]
#[derive(Clone, Copy, Debug, Default, PartialEq, Eq)]
pub struct Collector {
    /// How much of a packet is there.
    pub stage: Stage,
    /// When its first byte came, 0 where none is begun.
    pub begun: u64,
    /// When the last byte accepted came.
    pub last: u64,
}

/// `bk_collected`
#[repr(C)]
#[derive(Clone, Copy, Debug, PartialEq, Eq)]
pub struct Collected {
    /// The collector after the call.
    pub collector: Collector,
    /// 1 where the byte completed a packet, otherwise 0.
    pub complete: u8,
    /// Its code, otherwise 0.
    pub code: u8,
    /// The size of its payload, otherwise 0.
    pub size: u8,
    /// The number of the refusal, 0 for none.
    pub refusal: u8,
}

extern "C" {
    fn bk_collector_new() -> Collector;
    fn bk_collector_byte(collector: Collector, time: u64, b: u8, payload: *mut u8) -> Collected;
}

impl Collector {
    /// `bk_collector_new`
    #[allow(clippy::new_without_default)] // the default is all zeros, this is the product's
    pub fn new() -> Collector {
        // SAFETY: no pointer is handed over.
        unsafe { bk_collector_new() }
    }

    /// `bk_collector_byte`
    pub fn byte(self, time: u64, b: u8, payload: &mut [u8; 255]) -> Collected {
        // SAFETY: the array has the length that the header asks for, and is lent for the call.
        unsafe { bk_collector_byte(self, time, b, payload.as_mut_ptr()) }
    }
}
