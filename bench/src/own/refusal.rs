//! The thirteen refusals and their numbers.

use std::fmt;

/// Why a call was refused. The number of each is the paper's.
#[derive(Clone, Copy, Debug, PartialEq, Eq, PartialOrd, Ord, Hash)]
#[repr(u8)]
pub enum Refusal {
    /// The code is not permitted here, or the payload does not suit it.
    Unsuited = 1,
    /// A lent output is shorter than the bytes to be written.
    OutputShort = 2,
    /// The time is earlier than the last time accepted.
    Earlier = 3,
    /// A wait after STOP or RESET is not over.
    Waiting = 4,
    /// A single reply is awaited and the request is not STOP or RESET.
    Awaiting = 5,
    /// Not a descriptor.
    NotDescriptor = 6,
    /// A health status that is none, or a reply of the wrong length.
    NotReply = 7,
    /// Not a sample.
    NotSample = 8,
    /// Not a turn record, or fields unfit for one.
    NotRecord = 9,
    /// Ring memory of the wrong length.
    NotRing = 10,
    /// A ring head over 127.
    BadHead = 11,
    /// No such turn or store number.
    NoSuch = 12,
    /// The model is asked for a sample while it sends none.
    NotSending = 13,
}

impl Refusal {
    /// All refusals, in the order of their numbers.
    pub const ALL: [Refusal; 13] = [
        Refusal::Unsuited,
        Refusal::OutputShort,
        Refusal::Earlier,
        Refusal::Waiting,
        Refusal::Awaiting,
        Refusal::NotDescriptor,
        Refusal::NotReply,
        Refusal::NotSample,
        Refusal::NotRecord,
        Refusal::NotRing,
        Refusal::BadHead,
        Refusal::NoSuch,
        Refusal::NotSending,
    ];

    /// The number that the refusal carries.
    pub const fn number(self) -> u8 {
        self as u8
    }

    /// The refusal with a given number, if there is one.
    pub fn from_number(number: u8) -> Option<Refusal> {
        let place = usize::from(number).checked_sub(1)?;
        Refusal::ALL.get(place).copied()
    }
}

impl fmt::Display for Refusal {
    fn fmt(&self, f: &mut fmt::Formatter<'_>) -> fmt::Result {
        write!(f, "refused {}", self.number())
    }
}

impl std::error::Error for Refusal {}

#[cfg(test)]
mod tests {
    use super::*;

    #[test]
    fn numbers_run_from_1_to_13() {
        let numbers: Vec<u8> = Refusal::ALL.iter().map(|r| r.number()).collect();
        assert_eq!(numbers, (1..=13).collect::<Vec<u8>>());
    }

    #[test]
    fn a_number_finds_its_refusal() {
        for refusal in Refusal::ALL {
            assert_eq!(Refusal::from_number(refusal.number()), Some(refusal));
        }
        assert_eq!(Refusal::from_number(0), None);
        assert_eq!(Refusal::from_number(14), None);
        assert_eq!(Refusal::from_number(255), None);
    }

    #[test]
    fn the_text_is_the_listing_s() {
        assert_eq!(Refusal::NotRing.to_string(), "refused 10");
    }
}
