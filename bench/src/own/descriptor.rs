//! The descriptor that announces a reply: its reader and its writer.

use super::{lend, Refusal};

/// How many bytes a descriptor has.
pub const DESCRIPTOR_BYTES: usize = 7;

const FLAGS: [u8; 2] = [0xA5, 0x5A];
const LENGTH_BITS: u32 = 30;
const LARGEST_MODE: u8 = 1;

/// What a descriptor says. The fields are free; reader and writer refuse what does not fit.
#[derive(Clone, Copy, Debug, PartialEq, Eq, Hash)]
pub struct Descriptor {
    /// Length of the data that follow, 30 bits.
    pub length: u32,
    /// Send mode: 0 for a single reply, 1 for a run of them.
    pub mode: u8,
    /// Type of the data.
    pub kind: u8,
}

impl Descriptor {
    /// Reads seven bytes; anything that is no descriptor is refused (6).
    pub fn read(bytes: &[u8]) -> Result<Descriptor, Refusal> {
        let &[first, second, a, b, c, d, kind] = bytes else {
            return Err(Refusal::NotDescriptor);
        };
        let word = u32::from_le_bytes([a, b, c, d]);
        let mode = (word >> LENGTH_BITS) as u8;
        if [first, second] != FLAGS || mode > LARGEST_MODE {
            return Err(Refusal::NotDescriptor);
        }
        let length = word & ((1 << LENGTH_BITS) - 1);
        Ok(Descriptor { length, mode, kind })
    }

    /// Writes the seven bytes. Refused: 6 for a mode over 1 or a length over 30 bits; then 2.
    pub fn write(&self, out: &mut [u8]) -> Result<usize, Refusal> {
        if self.mode > LARGEST_MODE || self.length >> LENGTH_BITS != 0 {
            return Err(Refusal::NotDescriptor);
        }
        let word = self.length | u32::from(self.mode) << LENGTH_BITS;
        let bytes = lend(out, DESCRIPTOR_BYTES)?;
        bytes[..2].copy_from_slice(&FLAGS);
        bytes[2..6].copy_from_slice(&word.to_le_bytes());
        bytes[6] = self.kind;
        Ok(DESCRIPTOR_BYTES)
    }
}

#[cfg(test)]
mod tests {
    use super::*;

    const SCAN: [u8; 7] = [0xA5, 0x5A, 0x05, 0, 0, 0x40, 0x81];

    #[test]
    fn the_three_of_the_paper() {
        let of = |bytes: [u8; 7]| {
            let read = Descriptor::read(&bytes).unwrap();
            let mut out = [0; 7];
            assert_eq!(read.write(&mut out), Ok(7));
            assert_eq!(out, bytes);
            (read.length, read.mode, read.kind)
        };
        assert_eq!(of(SCAN), (5, 1, 0x81));
        assert_eq!(of([0xA5, 0x5A, 0x14, 0, 0, 0, 0x04]), (20, 0, 0x04));
        assert_eq!(of([0xA5, 0x5A, 0x03, 0, 0, 0, 0x06]), (3, 0, 0x06));
    }

    #[test]
    fn length_and_mode_share_a_word() {
        let longest = [0xA5, 0x5A, 0xFF, 0xFF, 0xFF, 0x7F, 0];
        let read = Descriptor::read(&longest).unwrap();
        assert_eq!((read.length, read.mode), ((1 << 30) - 1, 1));
        for top in 0..=255u8 {
            let read = Descriptor::read(&[0xA5, 0x5A, 0, 0, 0, top, 9]);
            assert_eq!(read.is_ok(), top < 0x80, "{top:02x}");
        }
    }

    #[test]
    fn what_is_no_descriptor() {
        for n in (0..20).filter(|&n| n != 7) {
            let mut bytes = SCAN.to_vec();
            bytes.resize(n, 0);
            assert_eq!(Descriptor::read(&bytes), Err(Refusal::NotDescriptor));
        }
        for place in 0..2 {
            for bit in 0..8 {
                let mut bytes = SCAN;
                bytes[place] ^= 1 << bit;
                assert_eq!(Descriptor::read(&bytes), Err(Refusal::NotDescriptor));
            }
        }
    }

    #[test]
    fn unfit_fields_come_before_a_short_output() {
        let write = |length, mode, room: usize| {
            let mut out = [0xEE; 9];
            let answer = Descriptor { length, mode, kind: 7 }.write(&mut out[..room]);
            let written = answer.unwrap_or(0);
            assert!(out[written..].iter().all(|&b| b == 0xEE));
            answer
        };
        assert_eq!(write((1 << 30) - 1, 1, 7), Ok(7));
        assert_eq!(write((1 << 30) - 1, 1, 9), Ok(7));
        assert_eq!(write(1 << 30, 1, 7), Err(Refusal::NotDescriptor));
        assert_eq!(write(u32::MAX, 0, 0), Err(Refusal::NotDescriptor));
        assert_eq!(write(0, 2, 7), Err(Refusal::NotDescriptor));
        assert_eq!(write(0, 255, 6), Err(Refusal::NotDescriptor));
        assert_eq!(write(0, 0, 6), Err(Refusal::OutputShort));
    }
}
