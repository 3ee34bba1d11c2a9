//! One measurement: the reader and writer of its five bytes, and its three-word form.

use super::{lend, Angle, Distance, Refusal};

/// How many bytes a sample has on the line.
pub const SAMPLE_BYTES: usize = 5;
/// How many words a sample has in a row.
pub const SAMPLE_WORDS: usize = 3;
/// The largest quality, six bits.
pub const LARGEST_QUALITY: u8 = 63;

/// One measurement. The fields are free; readers and writers refuse what does not fit.
#[derive(Clone, Copy, Debug, Default, PartialEq, Eq, Hash)]
pub struct Sample {
    /// S: whether the sample begins a turn.
    pub start: bool,
    /// Quality, at most 63.
    pub quality: u8,
    /// Direction, less than a whole turn.
    pub angle: Angle,
    /// Distance; zero is an invalid measurement.
    pub distance: Distance,
}

impl Sample {
    /// Whether angle and quality are within their limits.
    pub const fn fits(&self) -> bool {
        self.quality <= LARGEST_QUALITY && self.angle.fits()
    }

    /// Reads five bytes; another length, or one of the three checks failing, is refused (8).
    pub fn read(bytes: &[u8]) -> Result<Sample, Refusal> {
        let &[first, low, high, near, far] = bytes else {
            return Err(Refusal::NotSample);
        };
        let start = first & 1 != 0;
        let inverse = first & 2 != 0;
        let check = low & 1 != 0;
        let angle = Angle::from_q6(u16::from(low >> 1) | u16::from(high) << 7);
        if start == inverse || !check || !angle.fits() {
            return Err(Refusal::NotSample);
        }
        let distance = Distance::from_q2(u16::from_le_bytes([near, far]));
        Ok(Sample { start, quality: first >> 2, angle, distance })
    }

    /// Writes the five bytes. Refused: 8 for an angle or a quality that does not fit; then 2.
    pub fn write(&self, out: &mut [u8]) -> Result<usize, Refusal> {
        if !self.fits() {
            return Err(Refusal::NotSample);
        }
        let flags = if self.start { 0b01 } else { 0b10 };
        let angle = self.angle.q6();
        let [near, far] = self.distance.q2().to_le_bytes();
        lend(out, SAMPLE_BYTES)?.copy_from_slice(&[
            self.quality << 2 | flags,
            ((angle & 0x7F) << 1) as u8 | 1,
            (angle >> 7) as u8,
            near,
            far,
        ]);
        Ok(SAMPLE_BYTES)
    }

    /// The three-word form: angle, distance, twice the quality plus S. Unfit fields are refused (8).
    pub fn to_words(&self) -> Result<[u16; SAMPLE_WORDS], Refusal> {
        if !self.fits() {
            return Err(Refusal::NotSample);
        }
        let tag = u16::from(self.quality) * 2 + u16::from(self.start);
        Ok([self.angle.q6(), self.distance.q2(), tag])
    }

    /// Reads the three-word form; another number of words, or unfit ones, are refused (8).
    pub fn from_words(words: &[u16]) -> Result<Sample, Refusal> {
        let &[angle, distance, tag] = words else {
            return Err(Refusal::NotSample);
        };
        let quality = u8::try_from(tag / 2).map_err(|_| Refusal::NotSample)?;
        let sample = Sample {
            start: tag % 2 == 1,
            quality,
            angle: Angle::from_q6(angle),
            distance: Distance::from_q2(distance),
        };
        sample.fits().then_some(sample).ok_or(Refusal::NotSample)
    }
}

#[cfg(test)]
mod tests {
    use super::*;

    fn sample(start: bool, quality: u8, angle: u16, distance: u16) -> Sample {
        Sample {
            start,
            quality,
            angle: Angle::from_q6(angle),
            distance: Distance::from_q2(distance),
        }
    }

    #[test]
    fn the_cases_of_the_paper() {
        let read = Sample::read(&[0x3D, 0x01, 0x2D, 0xA0, 0x0F]).unwrap();
        assert_eq!(read, sample(true, 15, 5_760, 4_000));
        assert_eq!(read.angle.cell(), 90);
        let last = Sample::read(&[0x02, 0xFF, 0xB3, 0, 0]).unwrap();
        assert_eq!(last, sample(false, 0, 23_039, 0));
        assert_eq!(last.angle.cell(), 359);
        for bytes in [
            [0x02, 0x01, 0xB4, 0, 0],
            [0x3D, 0x00, 0x2D, 0xA0, 0x0F],
            [0x3F, 0x01, 0x2D, 0xA0, 0x0F],
            [0x3C, 0x01, 0x2D, 0xA0, 0x0F],
        ] {
            assert_eq!(Sample::read(&bytes), Err(Refusal::NotSample), "{bytes:02x?}");
        }
    }

    #[test]
    fn other_lengths() {
        for n in (0..12).filter(|&n| n != 5) {
            let mut bytes = vec![0x3D, 0x01, 0x2D, 0xA0, 0x0F];
            bytes.resize(n, 1);
            assert_eq!(Sample::read(&bytes), Err(Refusal::NotSample));
        }
    }

    #[test]
    fn every_first_three_bytes_that_read_write_back() {
        let mut passed = 0;
        for first in 0..=255 {
            for low in 0..=255 {
                for high in [0, 1, 0x2D, 0xB3, 0xB4, 0xB5, 0xFF] {
                    let bytes = [first, low, high, 0x34, 0x12];
                    if let Ok(read) = Sample::read(&bytes) {
                        passed += 1;
                        let mut out = [0; 5];
                        assert_eq!(read.write(&mut out), Ok(5));
                        assert_eq!(out, bytes);
                        assert_eq!(Sample::from_words(&read.to_words().unwrap()), Ok(read));
                    }
                }
            }
        }
        assert_eq!(passed, 128 * 128 * 4);
    }

    #[test]
    fn every_angle_writes_and_reads() {
        for angle in 0..=u16::MAX {
            let before = sample(angle % 3 == 0, (angle % 64) as u8, angle, !angle);
            let mut out = [0xEE; 5];
            let wrote = before.write(&mut out);
            if angle < 23_040 {
                assert_eq!(wrote, Ok(5));
                assert_eq!(Sample::read(&out), Ok(before));
            } else {
                assert_eq!((wrote, out), (Err(Refusal::NotSample), [0xEE; 5]));
                assert_eq!(before.to_words(), Err(Refusal::NotSample));
            }
        }
    }

    #[test]
    fn unfit_fields_come_before_a_short_output() {
        let mut out = [0xEE; 4];
        for (quality, angle) in [(64, 0), (255, 0), (0, 23_040), (64, u16::MAX)] {
            let unfit = sample(true, quality, angle, 1);
            assert_eq!(unfit.write(&mut out), Err(Refusal::NotSample));
            assert_eq!(unfit.to_words(), Err(Refusal::NotSample));
        }
        let fit = sample(true, 63, 23_039, 1);
        assert_eq!(fit.write(&mut out), Err(Refusal::OutputShort));
        assert_eq!(out, [0xEE; 4]);
    }

    #[test]
    fn words() {
        assert_eq!(sample(true, 15, 5_760, 4_000).to_words(), Ok([5_760, 4_000, 31]));
        assert_eq!(Sample::from_words(&[23_039, 0, 127]), Ok(sample(true, 63, 23_039, 0)));
        for words in [[23_040, 0, 0], [0, 0, 128], [0, 0, 129], [0, 0, 512], [0, 0, u16::MAX]] {
            assert_eq!(Sample::from_words(&words), Err(Refusal::NotSample), "{words:?}");
        }
        for words in [&[][..], &[0], &[0, 0], &[0, 0, 0, 0]] {
            assert_eq!(Sample::from_words(words), Err(Refusal::NotSample));
        }
    }
}
