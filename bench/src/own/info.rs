//! The reply to GET_INFO: its reader and its writer.

use super::{lend, Refusal};

/// How many bytes an info reply has.
pub const INFO_BYTES: usize = 20;
/// How many bytes a serial has.
pub const SERIAL_BYTES: usize = 16;

/// What a scanner says about itself. Every value of every field is possible.
#[derive(Clone, Copy, Debug, Default, PartialEq, Eq, Hash)]
pub struct Info {
    /// The model.
    pub model: u8,
    /// Firmware version, the part after the point.
    pub firmware_minor: u8,
    /// Firmware version, the part before the point.
    pub firmware_major: u8,
    /// Hardware version.
    pub hardware: u8,
    /// Serial number.
    pub serial: [u8; SERIAL_BYTES],
}

impl Info {
    /// Reads twenty bytes; any other length is refused (7).
    pub fn read(bytes: &[u8]) -> Result<Info, Refusal> {
        let &[model, firmware_minor, firmware_major, hardware, ref serial @ ..] = bytes else {
            return Err(Refusal::NotReply);
        };
        let serial = serial.try_into().map_err(|_| Refusal::NotReply)?;
        Ok(Info { model, firmware_minor, firmware_major, hardware, serial })
    }

    /// The twenty bytes.
    pub fn to_bytes(&self) -> [u8; INFO_BYTES] {
        let mut bytes = [0; INFO_BYTES];
        let versions = [self.model, self.firmware_minor, self.firmware_major, self.hardware];
        bytes[..4].copy_from_slice(&versions);
        bytes[4..].copy_from_slice(&self.serial);
        bytes
    }

    /// Writes the twenty bytes. Refused: 2 alone.
    pub fn write(&self, out: &mut [u8]) -> Result<usize, Refusal> {
        lend(out, INFO_BYTES)?.copy_from_slice(&self.to_bytes());
        Ok(INFO_BYTES)
    }
}

#[cfg(test)]
mod tests {
    use super::*;

    #[test]
    fn the_fields_in_order() {
        let bytes: Vec<u8> = (1..=20).collect();
        let info = Info::read(&bytes).unwrap();
        assert_eq!(info.model, 1);
        assert_eq!(info.firmware_minor, 2);
        assert_eq!(info.firmware_major, 3);
        assert_eq!(info.hardware, 4);
        assert_eq!(info.serial[..], bytes[4..]);
        let mut out = [0xEE; 21];
        assert_eq!(info.write(&mut out), Ok(20));
        assert_eq!(out[..20], bytes[..]);
        assert_eq!(out[20], 0xEE);
    }

    #[test]
    fn other_lengths() {
        for n in (0..40).filter(|&n| n != 20) {
            assert_eq!(Info::read(&vec![0; n]), Err(Refusal::NotReply));
        }
        let mut out = [0xEE; 19];
        assert_eq!(Info::default().write(&mut out), Err(Refusal::OutputShort));
        assert_eq!(out, [0xEE; 19]);
    }
}
