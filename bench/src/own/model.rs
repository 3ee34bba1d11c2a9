//! The model of the scanner that the bench talks to.

use super::descriptor::DESCRIPTOR_BYTES;
use super::{lend, Descriptor, Health, Info, Refusal, Request, Sample};

const SCAN_REPLY: Descriptor = Descriptor { length: 5, mode: 1, kind: 0x81 };
const INFO_REPLY: Descriptor = Descriptor { length: 20, mode: 0, kind: 0x04 };
const HEALTH_REPLY: Descriptor = Descriptor { length: 3, mode: 0, kind: 0x06 };
/// The largest status that the bench may set: 2 is given by a fault alone.
const LARGEST_SETTING: u8 = 1;
const PROTECTION_STATUS: u8 = 2;

/// What the scanner is doing.
#[derive(Clone, Copy, Debug, PartialEq, Eq, Hash)]
pub enum State {
    /// Nothing.
    Idle,
    /// Scanning; `forced` where FORCE_SCAN was the later of the two requests.
    Scanning {
        /// Whether samples are sent without regard to the motor.
        forced: bool,
    },
    /// Stopped by a fault.
    Protection,
}

/// A scanner on the bench.
#[derive(Clone, Copy, Debug, PartialEq, Eq)]
pub struct Model {
    state: State,
    motor_stable: bool,
    status: u8,
    error: u16,
    info: Info,
}

impl Model {
    /// A fresh scanner: idle, motor not stable, status and error code 0.
    pub fn new(info: Info) -> Model {
        Model { state: State::Idle, motor_stable: false, status: 0, error: 0, info }
    }

    /// A scanner in a given state with a status that the bench may set.
    pub fn at(
        state: State,
        motor_stable: bool,
        status: u8,
        error: u16,
        info: Info,
    ) -> Option<Model> {
        let model = Model { state, motor_stable, status, error, info };
        (status <= LARGEST_SETTING).then_some(model)
    }

    /// What the scanner is doing.
    pub fn state(&self) -> State {
        self.state
    }

    /// Whether the bench said that the motor is stable.
    pub fn motor_stable(&self) -> bool {
        self.motor_stable
    }

    /// The status that the bench set, whether or not there is a protection stop.
    pub fn status_as_set(&self) -> u8 {
        self.status
    }

    /// The health that the scanner would answer with.
    pub fn health(&self) -> Health {
        let status = match self.state {
            State::Protection => PROTECTION_STATUS,
            State::Idle | State::Scanning { .. } => self.status,
        };
        Health { status, error: self.error }
    }

    /// Whether samples are sent now.
    pub fn sends_samples(&self) -> bool {
        match self.state {
            State::Scanning { forced } => forced || self.motor_stable,
            State::Idle | State::Protection => false,
        }
    }

    /// Takes a request, writes what the scanner sends for it, and answers how many bytes that is.
    ///
    /// Refused: 1 for a code that is none of the six; then 2. A refused request changes nothing.
    pub fn request(&mut self, code: u8, out: &mut [u8]) -> Result<usize, Refusal> {
        let request = Request::from_code(code)?;
        let unless_scanning = match self.state {
            State::Scanning { .. } => State::Idle,
            state => state,
        };
        let (next, sent) = match request {
            Request::Reset => (State::Idle, 0),
            Request::Stop => (unless_scanning, 0),
            Request::Scan | Request::ForceScan => match self.state {
                State::Protection => (State::Protection, 0),
                State::Idle | State::Scanning { .. } => {
                    let forced = request == Request::ForceScan;
                    (State::Scanning { forced }, SCAN_REPLY.write(out)?)
                }
            },
            Request::GetInfo => {
                let bytes = self.info.to_bytes();
                let out = lend(out, DESCRIPTOR_BYTES + bytes.len())?;
                let (head, body) = out.split_at_mut(DESCRIPTOR_BYTES);
                body.copy_from_slice(&bytes);
                (unless_scanning, INFO_REPLY.write(head)? + bytes.len())
            }
            Request::GetHealth => {
                let out = lend(out, DESCRIPTOR_BYTES + super::health::HEALTH_BYTES)?;
                let (head, body) = out.split_at_mut(DESCRIPTOR_BYTES);
                let written = self.health().write(body)?;
                (unless_scanning, HEALTH_REPLY.write(head)? + written)
            }
        };
        self.state = next;
        Ok(sent)
    }

    /// Writes a sample as the scanner sends it. Refused: 13 while it sends none, then 8, then 2.
    pub fn sample(&self, sample: &Sample, out: &mut [u8]) -> Result<usize, Refusal> {
        if !self.sends_samples() {
            return Err(Refusal::NotSending);
        }
        sample.write(out)
    }

    /// A fault: the scanner goes into protection stop.
    pub fn fault(&mut self) {
        self.state = State::Protection;
    }

    /// Says whether the motor is stable.
    pub fn set_motor_stable(&mut self, stable: bool) {
        self.motor_stable = stable;
    }

    /// Sets the status for when there is no protection stop. Refused: 7 from 2 on.
    pub fn set_status(&mut self, status: u8) -> Result<(), Refusal> {
        if status > LARGEST_SETTING {
            return Err(Refusal::NotReply);
        }
        self.status = status;
        Ok(())
    }

    /// Sets the error code.
    pub fn set_error(&mut self, error: u16) {
        self.error = error;
    }

    /// Sets status and error code together. Refused: 7 for a status from 2 on, and neither is set.
    pub fn set_health(&mut self, status: u8, error: u16) -> Result<(), Refusal> {
        self.set_status(status)?;
        self.set_error(error);
        Ok(())
    }
}

#[cfg(test)]
mod tests {
    use super::*;
    use crate::own::Angle;
    use Request::*;

    const SCAN_BYTES: [u8; 7] = [0xA5, 0x5A, 0x05, 0, 0, 0x40, 0x81];

    fn info() -> Info {
        Info::read(&(1..=20).collect::<Vec<u8>>()).unwrap()
    }

    fn ask(model: &mut Model, request: Request) -> Vec<u8> {
        let mut out = [0xEE; 40];
        let n = model.request(request.code(), &mut out).unwrap();
        assert!(out[n..].iter().all(|&b| b == 0xEE));
        out[..n].to_vec()
    }

    fn in_state(state: State) -> Model {
        assert_eq!(Model::at(state, false, 2, 0, info()), None);
        Model::at(state, false, 0, 0, info()).unwrap()
    }

    const STATES: [State; 4] = [
        State::Idle,
        State::Scanning { forced: false },
        State::Scanning { forced: true },
        State::Protection,
    ];

    #[test]
    fn fresh() {
        let mut model = Model::new(info());
        assert_eq!(model.state(), State::Idle);
        assert_eq!(ask(&mut model, GetHealth), [0xA5, 0x5A, 3, 0, 0, 0, 6, 0, 0, 0]);
        ask(&mut model, Scan);
        assert!(!model.sends_samples());
    }

    #[test]
    fn requests_in_every_state() {
        for state in STATES {
            let scanning = matches!(state, State::Scanning { .. });
            let rest = if scanning { State::Idle } else { state };
            for request in Request::ALL {
                let mut model = in_state(state);
                let sent = ask(&mut model, request);
                let (next, bytes) = match request {
                    Reset => (State::Idle, 0),
                    Stop => (rest, 0),
                    Scan if state == State::Protection => (state, 0),
                    ForceScan if state == State::Protection => (state, 0),
                    Scan => (State::Scanning { forced: false }, 7),
                    ForceScan => (State::Scanning { forced: true }, 7),
                    GetInfo => (rest, 27),
                    GetHealth => (rest, 10),
                };
                assert_eq!((model.state(), sent.len()), (next, bytes), "{state:?} {request:?}");
                if bytes == 7 {
                    assert_eq!(sent, SCAN_BYTES);
                }
            }
        }
    }

    #[test]
    fn info_and_health_are_sent_whole() {
        let mut model = Model::new(info());
        let sent = ask(&mut model, GetInfo);
        assert_eq!(sent[..7], [0xA5, 0x5A, 0x14, 0, 0, 0, 4]);
        assert_eq!(sent[7..], info().to_bytes());
        model.set_health(1, 0x1234).unwrap();
        assert_eq!(ask(&mut model, GetHealth)[7..], [1, 0x34, 0x12]);
        model.fault();
        assert_eq!(ask(&mut model, GetHealth)[7..], [2, 0x34, 0x12]);
    }

    #[test]
    fn reset_ends_the_protection_stop_and_keeps_what_the_bench_set() {
        let mut model = Model::new(info());
        model.set_motor_stable(true);
        model.set_health(1, 77).unwrap();
        model.fault();
        assert_eq!(ask(&mut model, Stop), []);
        assert_eq!(model.state(), State::Protection);
        assert_eq!(ask(&mut model, Reset), []);
        assert_eq!(model.state(), State::Idle);
        assert_eq!(ask(&mut model, GetHealth)[7..], [1, 77, 0]);
        ask(&mut model, Scan);
        assert!(model.sends_samples());
    }

    #[test]
    fn settings() {
        let mut model = Model::new(info());
        for status in 2..=255 {
            assert_eq!(model.set_status(status), Err(Refusal::NotReply));
            assert_eq!(model.set_health(status, 9), Err(Refusal::NotReply));
        }
        assert_eq!(model, Model::new(info()));
        model.fault();
        assert_eq!(model.set_status(1), Ok(()));
        model.set_error(5);
        assert_eq!(model.health(), Health { status: 2, error: 5 });
        ask(&mut model, Reset);
        assert_eq!(model.health(), Health { status: 1, error: 5 });
    }

    #[test]
    fn another_code_or_a_short_output_changes_nothing() {
        for state in STATES {
            for code in (0..=255).filter(|&code| Request::from_code(code).is_err()) {
                let mut model = in_state(state);
                assert_eq!(model.request(code, &mut []), Err(Refusal::Unsuited));
                assert_eq!(model, in_state(state));
            }
            for request in Request::ALL {
                let mut model = in_state(state);
                let needed = ask(&mut model, request).len();
                for room in 0..needed {
                    let mut model = in_state(state);
                    let mut out = [0xEE; 40];
                    let answer = model.request(request.code(), &mut out[..room]);
                    assert_eq!(answer, Err(Refusal::OutputShort));
                    assert_eq!((model, out), (in_state(state), [0xEE; 40]));
                }
                let mut model = in_state(state);
                assert_eq!(model.request(request.code(), &mut [0; 40][..needed]), Ok(needed));
            }
        }
    }

    #[test]
    fn samples_and_the_motor() {
        let fit = Sample::default();
        let unfit = Sample { angle: Angle::from_q6(23_040), ..fit };
        for state in STATES {
            for stable in [false, true] {
                let mut model = in_state(state);
                model.set_motor_stable(stable);
                let sends = match state {
                    State::Scanning { forced: true } => true,
                    State::Scanning { forced: false } => stable,
                    _ => false,
                };
                let mut out = [0; 5];
                if sends {
                    assert_eq!(model.sample(&fit, &mut out), Ok(5));
                    assert_eq!(out, [2, 1, 0, 0, 0]);
                    assert_eq!(model.sample(&unfit, &mut []), Err(Refusal::NotSample));
                    assert_eq!(model.sample(&fit, &mut out[..4]), Err(Refusal::OutputShort));
                } else {
                    assert_eq!(model.sample(&unfit, &mut []), Err(Refusal::NotSending));
                }
            }
        }
    }

    #[test]
    fn the_later_scan_request_decides() {
        let mut model = Model::new(info());
        ask(&mut model, ForceScan);
        assert!(model.sends_samples());
        ask(&mut model, Scan);
        assert!(!model.sends_samples());
        ask(&mut model, ForceScan);
        assert!(model.sends_samples());
    }
}
