//! The comparison of two programs on the same cases, with the smallest case on which they differ.
//!
//! Each part has a module with a case, an answer, the bench's own answer to a case, and `compare`,
//! which takes the other program as a closure from a case to an answer.

#[cfg(feature = "product")]
pub mod any;
pub mod codec;
pub mod collector;
#[cfg(feature = "product")]
pub mod host;
pub mod model;
pub mod record;
pub mod ring;
pub mod session;
pub mod shrink;
pub mod stream;
pub mod text;
pub mod turns;

use crate::gen::Rng;
use shrink::Smaller;
use std::fmt;

/// What a lent byte is before a call, so that a byte written too many shows.
pub const FILL: u8 = 0xEE;
/// What a lent word is before a call.
pub const FILL_WORD: u16 = 0xEEEE;
/// The most cases tried in making a failing one smaller.
const LARGEST_SEARCH: usize = 200_000;

/// Which cases are compared: so many, made from a seed.
#[derive(Clone, Copy, Debug)]
pub struct Plan {
    /// The seed; the same one gives the same cases.
    pub seed: u64,
    /// How many cases.
    pub cases: u64,
}

/// A case on which two programs differ, the smallest one found.
#[derive(Clone, Debug)]
pub struct Mismatch<C, A> {
    /// The part in which it is.
    pub part: &'static str,
    /// The seed of the plan.
    pub seed: u64,
    /// The number of the case that failed first.
    pub number: u64,
    /// The smallest failing case found from there.
    pub case: C,
    /// The answer of the bench's own program.
    pub own: A,
    /// The answer of the other program.
    pub other: A,
}

impl<C: fmt::Debug, A: fmt::Debug> fmt::Display for Mismatch<C, A> {
    fn fmt(&self, f: &mut fmt::Formatter<'_>) -> fmt::Result {
        writeln!(f, "{}: differs (seed {}, case {})", self.part, self.seed, self.number)?;
        writeln!(f, "  case  {}", shown(&self.case))?;
        writeln!(f, "  own   {}", shown(&self.own))?;
        write!(f, "  other {}", shown(&self.other))
    }
}

/// A value with its numbers in hexadecimal, and of a long run of equal ones the first alone with their count.
fn shown(value: &impl fmt::Debug) -> String {
    const LONG: usize = 8;
    let text = format!("{value:02x?}");
    let items: Vec<&str> = text.split(", ").collect();
    let runs = items.chunk_by(|item, next| item == next).map(|run| match run.len() {
        LONG.. => format!("{} ({} times)", run[0], run.len()),
        _ => run.join(", "),
    });
    runs.collect::<Vec<_>>().join(", ")
}

/// The outcome of comparing a part: how many cases agreed, or one that does not.
pub type Compared<C, A> = Result<u64, Box<Mismatch<C, A>>>;

/// Two programs and the cases for them.
pub struct Pair<'a, C, A> {
    /// The name of the part.
    pub part: &'static str,
    /// Makes a case.
    pub make: &'a dyn Fn(&mut Rng) -> C,
    /// The bench's own program.
    pub own: &'a dyn Fn(&C) -> A,
    /// The other program.
    pub other: &'a mut dyn FnMut(&C) -> A,
}

/// Compares two programs on all cases of a plan.
pub fn compare<C: Smaller, A: PartialEq>(plan: &Plan, pair: Pair<'_, C, A>) -> Compared<C, A> {
    let Pair { part, make, own, other } = pair;
    for number in 0..plan.cases {
        let case = make(&mut Rng::of_case(plan.seed, number));
        let (mine, theirs) = (own(&case), other(&case));
        if mine == theirs {
            continue;
        }
        let mut mismatch =
            Mismatch { part, seed: plan.seed, number, case, own: mine, other: theirs };
        make_smaller(&mut mismatch, own, other);
        return Err(Box::new(mismatch));
    }
    Ok(plan.cases)
}

/// Takes every smaller case that still differs, until there is none.
fn make_smaller<C: Smaller, A: PartialEq>(
    mismatch: &mut Mismatch<C, A>,
    own: &dyn Fn(&C) -> A,
    other: &mut dyn FnMut(&C) -> A,
) {
    let mut tried = 0;
    loop {
        let found = mismatch.case.smaller().find_map(|case| {
            tried += 1;
            if tried > LARGEST_SEARCH {
                return None;
            }
            let (mine, theirs) = (own(&case), other(&case));
            (mine != theirs).then_some((case, mine, theirs))
        });
        match found {
            Some((case, mine, theirs)) => {
                (mismatch.case, mismatch.own, mismatch.other) = (case, mine, theirs);
            }
            None => return,
        }
    }
}

/// The number of a refusal, 0 for none.
pub fn number<T>(answer: &Result<T, crate::own::Refusal>) -> u8 {
    answer.as_ref().err().map_or(0, |refusal| refusal.number())
}

#[cfg(test)]
mod tests {
    use super::*;

    #[test]
    fn equal_programs_agree() {
        let compared = compare(
            &Plan { seed: 1, cases: 100 },
            Pair {
                part: "sum",
                make: &|rng| rng.bytes(20),
                own: &|bytes: &Vec<u8>| bytes.iter().map(|&b| u32::from(b)).sum::<u32>(),
                other: &mut |bytes| bytes.iter().fold(0, |sum, &b| sum + u32::from(b)),
            },
        );
        assert_eq!(compared.unwrap(), 100);
    }

    #[test]
    fn a_difference_is_made_small() {
        // The other program goes wrong where a 7 is anywhere behind a byte over 99.
        let wrong = |bytes: &[u8]| {
            bytes.iter().position(|&b| b > 99).is_some_and(|n| bytes[n..].contains(&7))
        };
        let compared = compare(
            &Plan { seed: 1, cases: 100_000 },
            Pair {
                part: "wrong",
                make: &|rng| rng.bytes(100),
                own: &|_: &Vec<u8>| false,
                other: &mut |bytes| wrong(bytes),
            },
        );
        let mismatch = compared.unwrap_err();
        assert_eq!(mismatch.case, [100, 7]);
        let text = mismatch.to_string();
        assert!(text.starts_with("wrong: differs (seed 1, case "), "{text}");
        assert!(text.contains("case  [64, 07]"), "{text}");
    }

    #[test]
    fn long_runs_are_shown_once() {
        assert_eq!(shown(&[0u8; 4]), "[00, 00, 00, 00]");
        assert_eq!(shown(&[0u8; 40]), "[00, 00 (38 times), 00]");
        assert_eq!(shown(&(vec![7u8; 3], true)), "([07, 07, 07], true)");
    }

    #[test]
    fn the_same_seed_makes_the_same_cases() {
        let first: Vec<Vec<u8>> = (0..10).map(|n| Rng::of_case(5, n).bytes(9)).collect();
        let again: Vec<Vec<u8>> = (0..10).map(|n| Rng::of_case(5, n).bytes(9)).collect();
        let other: Vec<Vec<u8>> = (0..10).map(|n| Rng::of_case(6, n).bytes(9)).collect();
        assert_eq!(first, again);
        assert_ne!(first, other);
    }
}
