//! Comparing the gatherer of turns.

use super::shrink::Smaller;
#[cfg(feature = "product")]
use super::FILL_WORD;
use super::{compare, number, Compared, Pair, Plan};
use crate::own::{Angle, Distance, Gatherer, Sample, Turn};
#[cfg(feature = "product")]
use crate::product;
use crate::{gen, smaller_case, smaller_fields};

/// One call, or as many as it takes until a row is taken.
#[derive(Clone, Debug, PartialEq)]
#[allow(missing_docs)]
pub enum Step {
    Sample {
        start: bool,
        quality: u8,
        angle: u16,
        distance: u16,
    },
    Row {
        words: Vec<u16>,
    },
    /// So many samples alike, one by one behind each other in one row.
    Repeat {
        sample: [u16; 3],
        count: usize,
    },
    RequestTold,
}

/// A turn in few words: its samples, and the cells that are not zero.
#[derive(Clone, Debug, Default, PartialEq)]
pub struct Open {
    /// How many samples it has, 0 where no turn is open.
    pub samples: u16,
    /// Cells below 360 and their distances, the later over the earlier.
    pub cells: Vec<(u16, u16)>,
}

impl Open {
    fn gatherer(&self) -> Gatherer {
        let mut turn = Turn { samples: self.samples, ..Turn::EMPTY };
        for &(cell, q2) in &self.cells {
            turn.cells[usize::from(cell)] = Distance::from_q2(q2);
        }
        Gatherer::at(&turn).unwrap_or_default()
    }
}

/// Calls to a gatherer, with a turn open or not.
#[derive(Clone, Debug, PartialEq)]
pub struct Case {
    /// The turn open at the beginning.
    pub open: Open,
    /// The calls.
    pub steps: Vec<Step>,
}

impl Smaller for Open {
    fn smaller(&self) -> Box<dyn Iterator<Item = Open> + '_> {
        smaller_fields!(self; samples, cells)
    }
}

impl Smaller for Step {
    fn smaller(&self) -> Box<dyn Iterator<Item = Step> + '_> {
        match self {
            Step::Sample { start, quality, angle, distance } => {
                smaller_case!(Step::Sample; start, quality, angle, distance)
            }
            Step::Row { words } => smaller_case!(Step::Row; words),
            Step::Repeat { sample, count } => smaller_case!(Step::Repeat; count, sample),
            Step::RequestTold => Box::new(std::iter::empty()),
        }
    }
}

impl Smaller for Case {
    fn smaller(&self) -> Box<dyn Iterator<Item = Case> + '_> {
        smaller_fields!(self; steps, open)
    }
}

/// What one call gives.
#[derive(Clone, Debug, Default, PartialEq)]
pub struct Answer {
    /// The number of the refusal, 0 for none.
    pub refusal: u8,
    /// How many words were taken.
    pub words: usize,
    /// The turn that was closed: its samples and its cells.
    pub closed: Option<(u16, Vec<u16>)>,
    /// The turn that is open after the call.
    pub open: Option<(u16, Vec<u16>)>,
}

/// The bench's own answers.
pub fn own(case: &Case) -> Vec<Answer> {
    let mut gatherer = case.open.gatherer();
    let mut answers = Vec::new();
    for step in &case.steps {
        match *step {
            Step::Sample { start, quality, angle, distance } => {
                let (angle, distance) = (Angle::from_q6(angle), Distance::from_q2(distance));
                let sample = Sample { start, quality, angle, distance };
                let mut turn = Turn::EMPTY;
                let closes = gatherer.sample(&sample, &mut turn);
                let words = if closes.is_ok() { 3 } else { 0 };
                let closed = (closes == Ok(true)).then_some(turn);
                answers.push(answer(number(&closes), words, closed, &gatherer));
            }
            Step::Row { ref words } => rows(&mut gatherer, words, &mut answers),
            Step::Repeat { ref sample, count } => {
                rows(&mut gatherer, &sample.repeat(count), &mut answers);
            }
            Step::RequestTold => {
                gatherer.request_told();
                answers.push(answer(0, 0, None, &gatherer));
            }
        }
    }
    answers
}

fn rows(gatherer: &mut Gatherer, mut words: &[u16], answers: &mut Vec<Answer>) {
    loop {
        let mut turn = Turn::EMPTY;
        let gathered = gatherer.row(words, &mut turn);
        let taken = gathered.map_or(0, |gathered| gathered.words);
        let closed = gathered.is_ok_and(|gathered| gathered.closed).then_some(turn);
        answers.push(answer(number(&gathered), taken, closed, gatherer));
        words = &words[taken..];
        if taken == 0 || words.is_empty() {
            break;
        }
    }
}

fn answer(refusal: u8, words: usize, closed: Option<Turn>, gatherer: &Gatherer) -> Answer {
    let plain = |turn: Turn| (turn.samples, turn.cells.iter().map(|cell| cell.q2()).collect());
    let open = gatherer.open_turn().map(plain);
    Answer { refusal, words, closed: closed.map(plain), open }
}

/// The product's gatherer with the cells that it is lent.
#[cfg(feature = "product")]
struct Lent {
    gatherer: product::Gatherer,
    filling: product::Cells,
    closed: product::Cells,
}

#[cfg(feature = "product")]
impl Lent {
    fn new(open: &Open) -> Lent {
        let mut filling = [FILL_WORD; 360];
        if open.samples > 0 {
            filling = [0; 360];
            for &(cell, q2) in &open.cells {
                filling[usize::from(cell)] = q2;
            }
        }
        let fresh = product::Gatherer::new();
        let gatherer =
            if open.samples > 0 { product::Gatherer { count: open.samples } } else { fresh };
        Lent { gatherer, filling, closed: [FILL_WORD; 360] }
    }

    /// What a call gave. Where no turn closed and the cells lent for it are touched, that is told as one.
    fn answer(&mut self, gathered: product::Gathered, words: usize) -> Answer {
        self.gatherer = gathered.gatherer;
        let touched = gathered.turn > 0 || self.closed != [FILL_WORD; 360];
        let closed = touched.then(|| (gathered.turn, self.closed.to_vec()));
        self.closed = [FILL_WORD; 360];
        let open = (self.gatherer.count > 0).then(|| (self.gatherer.count, self.filling.to_vec()));
        Answer { refusal: gathered.refusal, words, closed, open }
    }

    fn rows(&mut self, mut words: &[u16], answers: &mut Vec<Answer>) {
        loop {
            let row = self.gatherer.row(words, &mut self.filling, &mut self.closed);
            answers.push(self.answer(row.gathered, row.words));
            words = words.get(row.words..).unwrap_or_default();
            if row.words == 0 || words.is_empty() {
                break;
            }
        }
    }
}

/// The product's answers.
#[cfg(feature = "product")]
pub fn product(case: &Case) -> Vec<Answer> {
    let mut lent = Lent::new(&case.open);
    let mut answers = Vec::new();
    for step in &case.steps {
        match *step {
            Step::Sample { start, quality, angle, distance } => {
                let sample = product::Sample::new(u8::from(start), quality, angle, distance);
                let gathered = lent.gatherer.sample(sample, &mut lent.filling, &mut lent.closed);
                let words = if gathered.refusal == 0 { 3 } else { 0 };
                answers.push(lent.answer(gathered, words));
            }
            Step::Row { ref words } => lent.rows(words, &mut answers),
            Step::Repeat { ref sample, count } => lent.rows(&sample.repeat(count), &mut answers),
            Step::RequestTold => {
                let gatherer = lent.gatherer.request();
                answers.push(lent.answer(product::Gathered { gatherer, turn: 0, refusal: 0 }, 0));
            }
        }
    }
    answers
}

/// Compares the other program with the bench's own.
pub fn against(
    plan: &Plan,
    other: &mut dyn FnMut(&Case) -> Vec<Answer>,
) -> Compared<Case, Vec<Answer>> {
    compare(plan, Pair { part: "turns", make: &gen::turns_case, own: &own, other })
}

#[cfg(test)]
mod tests {
    use super::*;

    #[test]
    fn the_same_program_agrees() {
        assert_eq!(against(&Plan { seed: 8, cases: 5_000 }, &mut own).unwrap(), 5_000);
    }

    #[test]
    fn a_zero_taken_as_the_nearest_is_found() {
        let mut wrong = |case: &Case| {
            let mut answers = own(case);
            let zero = case.steps.iter().any(|step| match step {
                Step::Row { words } => words.chunks(3).any(|s| s.len() == 3 && s[1] == 0),
                _ => false,
            });
            if zero {
                for (_, cells) in answers.iter_mut().filter_map(|answer| answer.closed.as_mut()) {
                    cells[0] = 0;
                }
            }
            answers
        };
        let mismatch = against(&Plan { seed: 8, cases: 100_000 }, &mut wrong).unwrap_err();
        let samples: usize = mismatch.own.iter().map(|answer| answer.words / 3).sum();
        assert!(samples <= 4 && mismatch.case.steps.len() <= 2, "{mismatch}");
    }
}
