//! The model of the scanner.

use super::{Info, Sample, Written};

/// `bk_model`
#[repr(C)]
#[derive(Clone, Copy, Debug, Default, PartialEq, Eq)]
pub struct Model {
    /// The info reply.
    pub info: Info,
    /// The error code.
    pub error: u16,
    /// One of the states below.
    pub state: u8,
    /// The motor is stable where this is not 0.
    pub stable: u8,
    /// The status set is 1 where this is not 0.
    pub warning: u8,
}

/// `bk_asked`
#[repr(C)]
#[derive(Clone, Copy, Debug, PartialEq, Eq)]
pub struct Asked {
    /// The model after the call.
    pub model: Model,
    /// What it sends.
    pub written: Written,
}

/// `bk_health_set`
#[repr(C)]
#[derive(Clone, Copy, Debug, PartialEq, Eq)]
pub struct HealthSet {
    /// The model after the call.
    pub model: Model,
    /// The number of the refusal, 0 for none.
    pub refusal: u8,
}

extern "C" {
    fn bk_model_new(info: Info) -> Model;
    fn bk_model_request(model: Model, code: u8, out: *mut u8, out_len: usize) -> Asked;
    fn bk_model_sample(model: Model, sample: Sample, out: *mut u8, out_len: usize) -> Written;
    fn bk_model_fault(model: Model) -> Model;
    fn bk_model_set_motor(model: Model, stable: u8) -> Model;
    fn bk_model_set_error(model: Model, error: u16) -> Model;
    fn bk_model_set_status(model: Model, status: u8) -> HealthSet;
    fn bk_model_set_health(model: Model, status: u8, error: u16) -> HealthSet;
}

impl Model {
    /// Any other number than these is this.
    pub const IDLE: u8 = 0;
    /// After SCAN.
    pub const SCANNING: u8 = 1;
    /// After FORCE_SCAN.
    pub const FORCE_SCANNING: u8 = 2;
    /// After a fault.
    pub const PROTECTION_STOP: u8 = 3;

    /// `bk_model_new`
    pub fn new(info: Info) -> Model {
        // SAFETY: no pointer is handed over.
        unsafe { bk_model_new(info) }
    }

    /// `bk_model_request`
    pub fn request(self, code: u8, out: &mut [u8]) -> Asked {
        // SAFETY: the output is lent for the call.
        unsafe { bk_model_request(self, code, out.as_mut_ptr(), out.len()) }
    }

    /// `bk_model_sample`
    pub fn sample(self, sample: Sample, out: &mut [u8]) -> Written {
        // SAFETY: the output is lent for the call.
        unsafe { bk_model_sample(self, sample, out.as_mut_ptr(), out.len()) }
    }

    /// `bk_model_fault`
    pub fn fault(self) -> Model {
        // SAFETY: no pointer is handed over.
        unsafe { bk_model_fault(self) }
    }

    /// `bk_model_set_motor`
    pub fn set_motor(self, stable: u8) -> Model {
        // SAFETY: no pointer is handed over.
        unsafe { bk_model_set_motor(self, stable) }
    }

    /// `bk_model_set_error`
    pub fn set_error(self, error: u16) -> Model {
        // SAFETY: no pointer is handed over.
        unsafe { bk_model_set_error(self, error) }
    }

    /// `bk_model_set_status`
    pub fn set_status(self, status: u8) -> HealthSet {
        // SAFETY: no pointer is handed over.
        unsafe { bk_model_set_status(self, status) }
    }

    /// `bk_model_set_health`
    pub fn set_health(self, status: u8, error: u16) -> HealthSet {
        // SAFETY: no pointer is handed over.
        unsafe { bk_model_set_health(self, status, error) }
    }
}
