//! The product: the proved library through its C interface, as `include/bernkessel.h` declares it.
//!
//! Each struct has the header's fields in the header's order. A wrapper lends slices for a pointer and a length,
//! and does nothing else. The one place of the bench with unsafe code.
#![allow(unsafe_code)]

mod codec;
mod collector;
mod host;
mod model;
mod reader;
mod records;
mod rings;
mod session;
mod turns;

pub use codec::{
    request_write, Descriptor, DescriptorAnswer, Health, HealthAnswer, Info, InfoAnswer,
    SampleAnswer,
};
pub use collector::{Collected, Collector, Stage};
pub use host::{next_number, Heard, Host, HostSent, Turned};
pub use model::{Asked, HealthSet, Model};
pub use reader::{Reader, Reading, Told};
pub use records::{
    record_cell, record_check, record_count, record_number, record_serial, record_write, Cell,
    Count, Number,
};
pub use rings::{
    ring_add, ring_all_read, ring_erase, ring_held, ring_list, ring_store, ring_turn, Held, Part,
    LISTING_BYTES,
};
pub use session::{Sent, Session};
pub use turns::{Cells, Gathered, Gatherer, RowGathered};

/// `bk_angle_q6`
#[repr(C)]
#[derive(Clone, Copy, Debug, Default, PartialEq, Eq)]
pub struct AngleQ6 {
    /// In 64ths of a degree.
    pub q6: u16,
}

/// `bk_distance_q2`
#[repr(C)]
#[derive(Clone, Copy, Debug, Default, PartialEq, Eq)]
pub struct DistanceQ2 {
    /// In quarters of a millimetre.
    pub q2: u16,
}

/// `bk_sample`
#[repr(C)]
#[derive(Clone, Copy, Debug, Default, PartialEq, Eq)]
pub struct Sample {
    /// S is 0 where this is 0, and otherwise 1.
    pub start: u8,
    /// Quality.
    pub quality: u8,
    /// Direction.
    pub angle: AngleQ6,
    /// Distance.
    pub distance: DistanceQ2,
}

impl Sample {
    /// A sample of plain numbers.
    pub fn new(start: u8, quality: u8, angle: u16, distance: u16) -> Sample {
        let (angle, distance) = (AngleQ6 { q6: angle }, DistanceQ2 { q2: distance });
        Sample { start, quality, angle, distance }
    }
}

/// `bk_written`
#[repr(C)]
#[derive(Clone, Copy, Debug, Default, PartialEq, Eq)]
pub struct Written {
    /// How many were written, 0 where it is refused.
    pub bytes: usize,
    /// The number of the refusal, 0 for none.
    pub refusal: u8,
}
