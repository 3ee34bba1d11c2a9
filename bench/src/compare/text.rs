//! Comparing the text of `scanlist`.

use super::shrink::Smaller;
use super::{compare, Compared, Pair, Plan};
use crate::own::scanlist;
use crate::{gen, smaller_fields};

/// One run of the program.
#[derive(Clone, Debug, PartialEq)]
pub struct Case {
    /// The code that the reader is told.
    pub code: u8,
    /// The stream.
    pub bytes: Vec<u8>,
    /// How many bytes a piece has, 1 at least.
    pub cut: usize,
    /// How many words are lent, 3 at least.
    pub room: usize,
}

impl Smaller for Case {
    fn smaller(&self) -> Box<dyn Iterator<Item = Case> + '_> {
        let cases: Box<dyn Iterator<Item = Case>> = smaller_fields!(self; bytes, cut, room, code);
        Box::new(cases.filter(|case| case.cut > 0 && case.room >= 3))
    }
}

/// The bench's own text.
pub fn own(case: &Case) -> Vec<u8> {
    scanlist(case.code, &case.bytes, case.cut, case.room)
}

/// Compares the other program with the bench's own.
pub fn against(plan: &Plan, other: &mut dyn FnMut(&Case) -> Vec<u8>) -> Compared<Case, Vec<u8>> {
    compare(plan, Pair { part: "scanlist", make: &gen::text_case, own: &own, other })
}

#[cfg(test)]
mod tests {
    use super::*;

    #[test]
    fn cut_and_room_change_nothing() {
        let mut whole = |case: &Case| scanlist(case.code, &case.bytes, 4_096, 3_072);
        assert_eq!(against(&Plan { seed: 10, cases: 5_000 }, &mut whole).unwrap(), 5_000);
    }

    #[test]
    fn a_forgotten_held_byte_is_found() {
        let mut wrong = |case: &Case| {
            let text = String::from_utf8(own(case)).unwrap();
            text.replace("held 1\n", "held 0\n").into_bytes()
        };
        let mismatch = against(&Plan { seed: 10, cases: 100_000 }, &mut wrong).unwrap_err();
        assert!(mismatch.case.bytes.len() <= 8, "{mismatch}");
    }
}
