//! Comparing the host's session.

use super::shrink::{earlier, Smaller};
use super::{compare, number, Compared, Pair, Plan, FILL};
use crate::own::Session;
#[cfg(feature = "product")]
use crate::product;
use crate::{gen, smaller_case, smaller_fields};

/// A session's state.
#[derive(Clone, Copy, Debug, PartialEq)]
pub struct State {
    /// The last time accepted, 0 for none.
    pub last: u64,
    /// The milliseconds asked after the last request: 0, 1 or 2.
    pub wait: u8,
    /// Whether a single reply is awaited.
    pub awaiting: bool,
}

/// One call.
#[derive(Clone, Debug, PartialEq)]
#[allow(missing_docs)]
pub enum Step {
    Request { now: u64, code: u8, payload: Vec<u8>, room: usize },
    ReplyEnded,
}

/// A session from a state on. All zero is the fresh one.
#[derive(Clone, Debug, PartialEq)]
pub struct Case {
    /// The state at the beginning.
    pub state: State,
    /// The calls.
    pub steps: Vec<Step>,
}

impl Smaller for State {
    fn smaller(&self) -> Box<dyn Iterator<Item = State> + '_> {
        smaller_fields!(self; last, wait, awaiting)
    }
}

impl Smaller for Step {
    fn smaller(&self) -> Box<dyn Iterator<Item = Step> + '_> {
        match self {
            Step::Request { now, code, payload, room } => {
                smaller_case!(Step::Request; payload, now, room, code)
            }
            Step::ReplyEnded => Box::new(std::iter::empty()),
        }
    }
}

impl Smaller for Case {
    fn smaller(&self) -> Box<dyn Iterator<Item = Case> + '_> {
        let fields: Box<dyn Iterator<Item = Case>> = smaller_fields!(self; steps, state);
        Box::new(fields.chain(self.earlier()))
    }
}

impl Case {
    /// All times but 0 earlier by the same.
    fn earlier(&self) -> impl Iterator<Item = Case> + '_ {
        let times = self.steps.iter().filter_map(|step| match step {
            Step::Request { now, .. } => Some(*now),
            Step::ReplyEnded => None,
        });
        earlier(times.chain([self.state.last])).map(move |by| {
            let mut case = self.clone();
            case.state.last = case.state.last.saturating_sub(by);
            for step in &mut case.steps {
                if let Step::Request { now, .. } = step {
                    *now = now.saturating_sub(by);
                }
            }
            case
        })
    }
}

/// What one call gives.
#[derive(Clone, Debug, PartialEq)]
pub struct Answer {
    /// The number of the refusal, 0 for none.
    pub refusal: u8,
    /// How many bytes were written.
    pub written: usize,
    /// The output lent, whole, after the call.
    pub out: Vec<u8>,
    /// The state after the call.
    pub state: State,
}

/// The bench's own answers, one for each step.
pub fn own(case: &Case) -> Vec<Answer> {
    let State { last, wait, awaiting } = case.state;
    let mut session = Session::at(last, u64::from(wait), awaiting);
    let answers = case.steps.iter().map(|step| {
        let (written, out) = match *step {
            Step::Request { now, code, ref payload, room } => {
                let mut out = vec![FILL; room];
                (session.request(now, code, payload, &mut out), out)
            }
            Step::ReplyEnded => {
                session.reply_ended();
                (Ok(0), Vec::new())
            }
        };
        let (last, wait) = (session.last(), session.wait() as u8);
        let state = State { last, wait, awaiting: session.awaiting() };
        Answer { refusal: number(&written), written: written.unwrap_or(0), out, state }
    });
    answers.collect()
}

/// The product's answers. A fresh session is made by the product itself.
#[cfg(feature = "product")]
pub fn product(case: &Case) -> Vec<Answer> {
    let State { last, wait, awaiting } = case.state;
    let fresh = (last, wait, awaiting) == (0, 0, false);
    let given = product::Session { last, wait: wait.into(), awaited: awaiting.into() };
    let mut session = if fresh { product::Session::new() } else { given };
    let answers = case.steps.iter().map(|step| {
        let mut out = Vec::new();
        let mut written = product::Written::default();
        match *step {
            Step::Request { now, code, ref payload, room } => {
                out.resize(room, FILL);
                let sent = session.send(now, code, payload, &mut out);
                (session, written) = (sent.session, sent.written);
            }
            Step::ReplyEnded => session = session.reply_ended(),
        }
        let product::Session { last, wait, awaited } = session;
        let wait = u8::try_from(wait).unwrap_or(u8::MAX);
        let state = State { last, wait, awaiting: awaited != 0 };
        Answer { refusal: written.refusal, written: written.bytes, out, state }
    });
    answers.collect()
}

/// Compares the other program with the bench's own.
pub fn against(
    plan: &Plan,
    other: &mut dyn FnMut(&Case) -> Vec<Answer>,
) -> Compared<Case, Vec<Answer>> {
    compare(plan, Pair { part: "session", make: &gen::session_case, own: &own, other })
}

#[cfg(test)]
mod tests {
    use super::*;

    #[test]
    fn the_same_program_agrees() {
        assert_eq!(against(&Plan { seed: 2, cases: 20_000 }, &mut own).unwrap(), 20_000);
    }

    #[test]
    fn a_wait_of_one_too_little_after_reset_is_found() {
        // Given the state alone: a program that takes a wait of 2 as one of 1.
        let first = |case: &Case| own(case).first().map(|answer| answer.refusal);
        let wrong = |case: &Case| {
            let mut case = case.clone();
            case.state.wait = case.state.wait.min(1);
            first(&case)
        };
        let pair = Pair {
            part: "session",
            make: &gen::session_case,
            own: &first,
            other: &mut |case| wrong(case),
        };
        let mismatch = compare(&Plan { seed: 2, cases: 100_000 }, pair).unwrap_err();
        let State { last, wait, .. } = mismatch.case.state;
        let [Step::Request { now, ref payload, .. }] = mismatch.case.steps[..] else {
            panic!("{mismatch}");
        };
        assert_eq!((last, wait, now, payload.len()), (0, 2, 1, 0), "{mismatch}");
    }
}
