//! The gatherer of turns.

use super::Sample;

/// The cells of a turn, in quarters of a millimetre.
pub type Cells = [u16; 360];

/// `bk_gatherer`
#[repr(C)]
#[derive(Clone, Copy, Debug, Default, PartialEq, Eq)]
pub struct Gatherer {
    /// How many samples the open turn has, 0 where none is open.
    pub count: u16,
}

/// `bk_gathered`
#[repr(C)]
#[derive(Clone, Copy, Debug, Default, PartialEq, Eq)]
pub struct Gathered {
    /// The gatherer after the call.
    pub gatherer: Gatherer,
    /// How many samples the turn that closed has, 0 where none did.
    pub turn: u16,
    /// The number of the refusal, 0 for none.
    pub refusal: u8,
}

/// `bk_row_gathered`
#[repr(C)]
#[derive(Clone, Copy, Debug, Default, PartialEq, Eq)]
pub struct RowGathered {
    /// What a sample gives as well.
    pub gathered: Gathered,
    /// How many words were taken.
    pub words: usize,
}

extern "C" {
    fn bk_gatherer_new() -> Gatherer;
    fn bk_gatherer_request(gatherer: Gatherer) -> Gatherer;
    fn bk_gatherer_sample(
        gatherer: Gatherer,
        sample: Sample,
        filling: *mut u16,
        closed: *mut u16,
    ) -> Gathered;
    fn bk_gatherer_row(
        gatherer: Gatherer,
        words: *const u16,
        words_len: usize,
        filling: *mut u16,
        closed: *mut u16,
    ) -> RowGathered;
}

impl Gatherer {
    /// `bk_gatherer_new`
    #[allow(clippy::new_without_default)] // the default is all zeros, this is the product's
    #[inline]
    pub fn new() -> Gatherer {
        // SAFETY: no pointer is handed over.
        unsafe { bk_gatherer_new() }
    }

    /// `bk_gatherer_request`
    #[inline]
    pub fn request(self) -> Gatherer {
        // SAFETY: no pointer is handed over.
        unsafe { bk_gatherer_request(self) }
    }

    /// `bk_gatherer_sample`
    #[inline]
    pub fn sample(self, sample: Sample, filling: &mut Cells, closed: &mut Cells) -> Gathered {
        // SAFETY: both arrays have the length that the header asks for, and are lent for the call.
        unsafe { bk_gatherer_sample(self, sample, filling.as_mut_ptr(), closed.as_mut_ptr()) }
    }

    /// `bk_gatherer_row`
    #[inline]
    pub fn row(self, words: &[u16], filling: &mut Cells, closed: &mut Cells) -> RowGathered {
        let (filling, closed) = (filling.as_mut_ptr(), closed.as_mut_ptr());
        // SAFETY: as above; the words are lent for reading.
        unsafe { bk_gatherer_row(self, words.as_ptr(), words.len(), filling, closed) }
    }
}
