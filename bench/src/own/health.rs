//! The reply to GET_HEALTH: its reader and its writer.

use super::{lend, Refusal};

/// How many bytes a health reply has.
pub const HEALTH_BYTES: usize = 3;
/// The largest status there is: protection stop.
pub const LARGEST_STATUS: u8 = 2;

/// How a scanner does. The fields are free; reader and writer refuse a status over 2.
#[derive(Clone, Copy, Debug, Default, PartialEq, Eq, Hash)]
pub struct Health {
    /// 0 for good, 1 for a warning, 2 for protection stop.
    pub status: u8,
    /// The scanner's own error code.
    pub error: u16,
}

impl Health {
    /// Reads three bytes; any other length and any status over 2 is refused (7).
    pub fn read(bytes: &[u8]) -> Result<Health, Refusal> {
        match *bytes {
            [status, low, high] if status <= LARGEST_STATUS => {
                Ok(Health { status, error: u16::from_le_bytes([low, high]) })
            }
            _ => Err(Refusal::NotReply),
        }
    }

    /// Writes the three bytes. Refused: 7 for a status over 2; then 2.
    pub fn write(&self, out: &mut [u8]) -> Result<usize, Refusal> {
        if self.status > LARGEST_STATUS {
            return Err(Refusal::NotReply);
        }
        let [low, high] = self.error.to_le_bytes();
        lend(out, HEALTH_BYTES)?.copy_from_slice(&[self.status, low, high]);
        Ok(HEALTH_BYTES)
    }
}

#[cfg(test)]
mod tests {
    use super::*;

    #[test]
    fn the_two_of_the_paper() {
        assert_eq!(Health::read(&[2, 0x34, 0x12]), Ok(Health { status: 2, error: 4_660 }));
        assert_eq!(Health::read(&[3, 0, 0]), Err(Refusal::NotReply));
    }

    #[test]
    fn every_status_and_length() {
        for status in 0..=255 {
            let read = Health::read(&[status, 0xFF, 0xFF]);
            assert_eq!(read.is_ok(), status <= 2);
            let mut out = [0xEE; 4];
            let wrote = Health { status, error: 0x1234 }.write(&mut out);
            if status <= 2 {
                assert_eq!((wrote, out), (Ok(3), [status, 0x34, 0x12, 0xEE]));
            } else {
                assert_eq!((wrote, out), (Err(Refusal::NotReply), [0xEE; 4]));
            }
        }
        for bytes in [&[][..], &[0], &[0, 0], &[0, 0, 0, 0]] {
            assert_eq!(Health::read(bytes), Err(Refusal::NotReply));
        }
    }

    #[test]
    fn the_status_comes_before_a_short_output() {
        let mut out = [0xEE; 2];
        assert_eq!(Health { status: 3, error: 0 }.write(&mut out), Err(Refusal::NotReply));
        assert_eq!(Health { status: 2, error: 0 }.write(&mut out), Err(Refusal::OutputShort));
        assert_eq!(out, [0xEE; 2]);
    }
}
