//! Angle in 64ths of a degree and distance in quarters of a millimetre, each a type of its own.

/// How many cells a turn has, one for each degree.
pub const CELLS: usize = 360;

/// An angle in q6, 64ths of a degree. Not every value is on the circle: see [`Angle::fits`].
#[derive(Clone, Copy, Debug, Default, PartialEq, Eq, PartialOrd, Ord, Hash)]
pub struct Angle(u16);

impl Angle {
    /// The first value that is a whole turn, and so no angle any more.
    pub const WHOLE_TURN: u16 = 23_040;

    /// The angle of so many 64ths of a degree.
    pub const fn from_q6(q6: u16) -> Angle {
        Angle(q6)
    }

    /// How many 64ths of a degree it is.
    pub const fn q6(self) -> u16 {
        self.0
    }

    /// Whether it is less than a whole turn.
    pub const fn fits(self) -> bool {
        self.0 < Angle::WHOLE_TURN
    }

    /// The whole degrees in it, the number of its cell where the angle fits.
    pub const fn cell(self) -> usize {
        (self.0 / 64) as usize
    }
}

/// A distance in q2, quarters of a millimetre. Zero marks an invalid measurement.
#[derive(Clone, Copy, Debug, Default, PartialEq, Eq, PartialOrd, Ord, Hash)]
pub struct Distance(u16);

impl Distance {
    /// The mark of an invalid measurement, and of a cell in which nothing was measured.
    pub const NONE: Distance = Distance(0);

    /// The distance of so many quarters of a millimetre.
    pub const fn from_q2(q2: u16) -> Distance {
        Distance(q2)
    }

    /// How many quarters of a millimetre it is.
    pub const fn q2(self) -> u16 {
        self.0
    }
}

#[cfg(test)]
mod tests {
    use super::*;

    #[test]
    fn the_circle_ends_below_23040() {
        assert!(Angle::from_q6(0).fits());
        assert!(Angle::from_q6(23_039).fits());
        assert!(!Angle::from_q6(23_040).fits());
        assert!(!Angle::from_q6(u16::MAX).fits());
    }

    #[test]
    fn cells_are_whole_degrees() {
        assert_eq!(Angle::from_q6(0).cell(), 0);
        assert_eq!(Angle::from_q6(63).cell(), 0);
        assert_eq!(Angle::from_q6(64).cell(), 1);
        assert_eq!(Angle::from_q6(5_760).cell(), 90);
        assert_eq!(Angle::from_q6(23_039).cell(), CELLS - 1);
    }
}
