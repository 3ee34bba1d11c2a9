//! The codecs of requests, descriptors, replies and samples.

use super::{Sample, Written};

/// `bk_descriptor`
#[repr(C)]
#[derive(Clone, Copy, Debug, Default, PartialEq, Eq)]
pub struct Descriptor {
    /// The length, 30 bits.
    pub length: u32,
    /// The send mode.
    pub mode: u8,
    /// The type.
    pub kind: u8,
}

/// `bk_descriptor_answer`
#[repr(C)]
#[derive(Clone, Copy, Debug, PartialEq, Eq)]
pub struct DescriptorAnswer {
    /// What was read, zeros where it is refused.
    pub descriptor: Descriptor,
    /// The number of the refusal, 0 for none.
    pub refusal: u8,
}

/// `bk_sample_answer`
#[repr(C)]
#[derive(Clone, Copy, Debug, PartialEq, Eq)]
pub struct SampleAnswer {
    /// What was read, zeros where it is refused.
    pub sample: Sample,
    /// The number of the refusal, 0 for none.
    pub refusal: u8,
}

/// `bk_info`
#[repr(C)]
#[derive(Clone, Copy, Debug, Default, PartialEq, Eq)]
pub struct Info {
    /// Model.
    pub model: u8,
    /// Firmware minor.
    pub minor: u8,
    /// Firmware major.
    pub major: u8,
    /// Hardware.
    pub hardware: u8,
    /// Serial.
    pub serial: [u8; 16],
}

impl Info {
    /// The fields in the order of the reply.
    pub fn new(bytes: &[u8; 20]) -> Info {
        let [model, minor, major, hardware, serial @ ..] = *bytes;
        Info { model, minor, major, hardware, serial }
    }

    /// The fields in the order of the reply.
    pub fn fields(&self) -> [u8; 20] {
        let mut fields = [0; 20];
        fields[..4].copy_from_slice(&[self.model, self.minor, self.major, self.hardware]);
        fields[4..].copy_from_slice(&self.serial);
        fields
    }
}

/// `bk_info_answer`
#[repr(C)]
#[derive(Clone, Copy, Debug, PartialEq, Eq)]
pub struct InfoAnswer {
    /// What was read, zeros where it is refused.
    pub info: Info,
    /// The number of the refusal, 0 for none.
    pub refusal: u8,
}

/// `bk_health`
#[repr(C)]
#[derive(Clone, Copy, Debug, Default, PartialEq, Eq)]
pub struct Health {
    /// The error code.
    pub error: u16,
    /// The status.
    pub status: u8,
}

/// `bk_health_answer`
#[repr(C)]
#[derive(Clone, Copy, Debug, PartialEq, Eq)]
pub struct HealthAnswer {
    /// What was read, zeros where it is refused.
    pub health: Health,
    /// The number of the refusal, 0 for none.
    pub refusal: u8,
}

mod c {
    use super::*;

    extern "C" {
        pub fn bk_request_write(
            code: u8,
            payload: *const u8,
            payload_len: usize,
            out: *mut u8,
            out_len: usize,
        ) -> Written;
        pub fn bk_descriptor_write(descriptor: Descriptor, out: *mut u8, out_len: usize)
            -> Written;
        pub fn bk_descriptor_read(bytes: *const u8, bytes_len: usize) -> DescriptorAnswer;
        pub fn bk_info_write(info: Info, out: *mut u8, out_len: usize) -> Written;
        pub fn bk_info_read(bytes: *const u8, bytes_len: usize) -> InfoAnswer;
        pub fn bk_health_write(health: Health, out: *mut u8, out_len: usize) -> Written;
        pub fn bk_health_read(bytes: *const u8, bytes_len: usize) -> HealthAnswer;
        pub fn bk_sample_write(sample: Sample, out: *mut u8, out_len: usize) -> Written;
        pub fn bk_sample_write_words(sample: Sample, row: *mut u16, row_len: usize) -> Written;
        pub fn bk_sample_read(bytes: *const u8, bytes_len: usize) -> SampleAnswer;
        pub fn bk_sample_front(part: *const u8, part_len: usize) -> SampleAnswer;
        pub fn bk_sample_read_words(angle: u16, distance: u16, mark: u16) -> SampleAnswer;
    }
}

/// `bk_request_write`
pub fn request_write(code: u8, payload: &[u8], out: &mut [u8]) -> Written {
    let (bytes, room) = (payload.as_ptr(), out.as_mut_ptr());
    // SAFETY: both are lent for the call, the output alone for writing.
    unsafe { c::bk_request_write(code, bytes, payload.len(), room, out.len()) }
}

impl Descriptor {
    /// `bk_descriptor_write`
    pub fn write(self, out: &mut [u8]) -> Written {
        // SAFETY: the output is lent for the call.
        unsafe { c::bk_descriptor_write(self, out.as_mut_ptr(), out.len()) }
    }

    /// `bk_descriptor_read`
    pub fn read(bytes: &[u8]) -> DescriptorAnswer {
        // SAFETY: the bytes are lent for the call.
        unsafe { c::bk_descriptor_read(bytes.as_ptr(), bytes.len()) }
    }
}

impl Info {
    /// `bk_info_write`
    pub fn write(self, out: &mut [u8]) -> Written {
        // SAFETY: the output is lent for the call.
        unsafe { c::bk_info_write(self, out.as_mut_ptr(), out.len()) }
    }

    /// `bk_info_read`
    pub fn read(bytes: &[u8]) -> InfoAnswer {
        // SAFETY: the bytes are lent for the call.
        unsafe { c::bk_info_read(bytes.as_ptr(), bytes.len()) }
    }
}

impl Health {
    /// `bk_health_write`
    pub fn write(self, out: &mut [u8]) -> Written {
        // SAFETY: the output is lent for the call.
        unsafe { c::bk_health_write(self, out.as_mut_ptr(), out.len()) }
    }

    /// `bk_health_read`
    pub fn read(bytes: &[u8]) -> HealthAnswer {
        // SAFETY: the bytes are lent for the call.
        unsafe { c::bk_health_read(bytes.as_ptr(), bytes.len()) }
    }
}

impl Sample {
    /// `bk_sample_write`
    pub fn write(self, out: &mut [u8]) -> Written {
        // SAFETY: the output is lent for the call.
        unsafe { c::bk_sample_write(self, out.as_mut_ptr(), out.len()) }
    }

    /// `bk_sample_write_words`
    pub fn write_words(self, row: &mut [u16]) -> Written {
        // SAFETY: the row is lent for the call.
        unsafe { c::bk_sample_write_words(self, row.as_mut_ptr(), row.len()) }
    }

    /// `bk_sample_read`
    pub fn read(bytes: &[u8]) -> SampleAnswer {
        // SAFETY: the bytes are lent for the call.
        unsafe { c::bk_sample_read(bytes.as_ptr(), bytes.len()) }
    }

    /// `bk_sample_front`
    pub fn front(part: &[u8]) -> SampleAnswer {
        // SAFETY: the bytes are lent for the call.
        unsafe { c::bk_sample_front(part.as_ptr(), part.len()) }
    }

    /// `bk_sample_read_words`
    pub fn read_words([angle, distance, mark]: [u16; 3]) -> SampleAnswer {
        // SAFETY: no pointer is handed over.
        unsafe { c::bk_sample_read_words(angle, distance, mark) }
    }
}
