//! Comparing the model of the scanner.

use super::shrink::Smaller;
use super::{compare, number, Compared, Pair, Plan, FILL};
use crate::own::{self, Angle, Distance, Info, Model, Sample};
#[cfg(feature = "product")]
use crate::product;
use crate::{gen, smaller_case, smaller_fields};

/// One call.
#[derive(Clone, Debug, PartialEq)]
#[allow(missing_docs)]
pub enum Step {
    Request { code: u8, room: usize },
    Sample { start: bool, quality: u8, angle: u16, distance: u16, room: usize },
    Fault,
    MotorStable { stable: bool },
    Status { status: u8 },
    Error { error: u16 },
    Health { status: u8, error: u16 },
}

/// A scanner's state as numbers. All zero is the fresh one.
#[derive(Clone, Copy, Debug, Default, PartialEq)]
pub struct State {
    /// 0 idle, 1 scanning after SCAN, 2 scanning after FORCE_SCAN, 3 protection stop.
    pub doing: u8,
    /// Whether the motor is stable.
    pub stable: bool,
    /// The status that the bench set, 0 or 1.
    pub status: u8,
    /// The error code.
    pub error: u16,
}

impl State {
    const DOING: [own::State; 4] = [
        own::State::Idle,
        own::State::Scanning { forced: false },
        own::State::Scanning { forced: true },
        own::State::Protection,
    ];

    fn of(model: &Model) -> State {
        let doing = State::DOING.iter().position(|&doing| doing == model.state());
        State {
            doing: doing.expect("one of four") as u8,
            stable: model.motor_stable(),
            status: model.status_as_set(),
            error: model.health().error,
        }
    }

    fn model(&self, info: &[u8; 20]) -> Model {
        let info = Info::read(info).expect("twenty bytes");
        let doing = State::DOING[usize::from(self.doing)];
        Model::at(doing, self.stable, self.status, self.error, info).expect("a status to be set")
    }
}

/// Calls to a scanner with a given info reply, from a state on.
#[derive(Clone, Debug, PartialEq)]
pub struct Case {
    /// The state at the beginning.
    pub state: State,
    /// The info reply.
    pub info: [u8; 20],
    /// The calls.
    pub steps: Vec<Step>,
}

impl Smaller for State {
    fn smaller(&self) -> Box<dyn Iterator<Item = State> + '_> {
        smaller_fields!(self; doing, stable, status, error)
    }
}

impl Smaller for Step {
    fn smaller(&self) -> Box<dyn Iterator<Item = Step> + '_> {
        match self {
            Step::Request { code, room } => smaller_case!(Step::Request; code, room),
            Step::Sample { start, quality, angle, distance, room } => {
                smaller_case!(Step::Sample; start, quality, angle, distance, room)
            }
            Step::Fault => Box::new(std::iter::empty()),
            Step::MotorStable { stable } => smaller_case!(Step::MotorStable; stable),
            Step::Status { status } => smaller_case!(Step::Status; status),
            Step::Error { error } => smaller_case!(Step::Error; error),
            Step::Health { status, error } => smaller_case!(Step::Health; status, error),
        }
    }
}

impl Smaller for Case {
    fn smaller(&self) -> Box<dyn Iterator<Item = Case> + '_> {
        smaller_fields!(self; steps, state, info)
    }
}

/// What one call gives.
#[derive(Clone, Debug, PartialEq)]
pub struct Answer {
    /// The number of the refusal, 0 for none.
    pub refusal: u8,
    /// How many bytes were sent.
    pub sent: usize,
    /// The output lent, whole, after the call.
    pub out: Vec<u8>,
    /// The state after the call.
    pub state: State,
}

/// The bench's own answers, one for each step.
pub fn own(case: &Case) -> Vec<Answer> {
    let mut model = case.state.model(&case.info);
    let answers = case.steps.iter().map(|step| {
        let mut out = Vec::new();
        let sent = match *step {
            Step::Request { code, room } => {
                out.resize(room, FILL);
                model.request(code, &mut out)
            }
            Step::Sample { start, quality, angle, distance, room } => {
                out.resize(room, FILL);
                let (angle, distance) = (Angle::from_q6(angle), Distance::from_q2(distance));
                model.sample(&Sample { start, quality, angle, distance }, &mut out)
            }
            Step::Fault => {
                model.fault();
                Ok(0)
            }
            Step::MotorStable { stable } => {
                model.set_motor_stable(stable);
                Ok(0)
            }
            Step::Status { status } => model.set_status(status).map(|()| 0),
            Step::Error { error } => {
                model.set_error(error);
                Ok(0)
            }
            Step::Health { status, error } => model.set_health(status, error).map(|()| 0),
        };
        let state = State::of(&model);
        Answer { refusal: number(&sent), sent: sent.unwrap_or(0), out, state }
    });
    answers.collect()
}

/// The product's model in a state. A fresh one is made by the product itself.
#[cfg(feature = "product")]
fn to_product(state: &State, info: &[u8; 20]) -> product::Model {
    let fresh = product::Model::new(product::Info::new(info));
    let State { doing, stable, status, error } = *state;
    let given =
        product::Model { error, state: doing, stable: stable.into(), warning: status, ..fresh };
    if *state == State::default() {
        fresh
    } else {
        given
    }
}

/// The product's answers, one for each step. An info that is not the one given is told as state 255.
#[cfg(feature = "product")]
pub fn product(case: &Case) -> Vec<Answer> {
    let mut model = to_product(&case.state, &case.info);
    let answers = case.steps.iter().map(|step| {
        let mut out = Vec::new();
        let mut written = product::Written::default();
        match *step {
            Step::Request { code, room } => {
                out.resize(room, FILL);
                let asked = model.request(code, &mut out);
                (model, written) = (asked.model, asked.written);
            }
            Step::Sample { start, quality, angle, distance, room } => {
                out.resize(room, FILL);
                let sample = product::Sample::new(start.into(), quality, angle, distance);
                written = model.sample(sample, &mut out);
            }
            Step::Fault => model = model.fault(),
            Step::MotorStable { stable } => model = model.set_motor(stable.into()),
            Step::Status { status } => {
                let set = model.set_status(status);
                (model, written.refusal) = (set.model, set.refusal);
            }
            Step::Error { error } => model = model.set_error(error),
            Step::Health { status, error } => {
                let set = model.set_health(status, error);
                (model, written.refusal) = (set.model, set.refusal);
            }
        }
        let kept = model.info.fields() == case.info;
        let doing = if kept { model.state } else { u8::MAX };
        let (stable, status) = (model.stable != 0, model.warning);
        let state = State { doing, stable, status, error: model.error };
        Answer { refusal: written.refusal, sent: written.bytes, out, state }
    });
    answers.collect()
}

/// Compares the other program with the bench's own.
pub fn against(
    plan: &Plan,
    other: &mut dyn FnMut(&Case) -> Vec<Answer>,
) -> Compared<Case, Vec<Answer>> {
    compare(plan, Pair { part: "model", make: &gen::model_case, own: &own, other })
}

#[cfg(test)]
mod tests {
    use super::*;

    #[test]
    fn the_same_program_agrees() {
        assert_eq!(against(&Plan { seed: 4, cases: 20_000 }, &mut own).unwrap(), 20_000);
    }

    #[test]
    fn a_fault_that_is_forgotten_is_found() {
        let mut wrong = |case: &Case| {
            let mut case = case.clone();
            for step in &mut case.steps {
                if *step == Step::Fault {
                    *step = Step::Error { error: 0 };
                }
            }
            own(&case)
        };
        let mismatch = against(&Plan { seed: 4, cases: 1_000 }, &mut wrong).unwrap_err();
        let (state, info) = (State::default(), [0; 20]);
        assert_eq!(mismatch.case, Case { state, info, steps: vec![Step::Fault] });
    }
}
