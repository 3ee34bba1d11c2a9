//! The host's session: which request may be sent when.

use super::{write_request, Refusal, Request};

/// A session with one scanner. The default is a fresh one.
#[derive(Clone, Copy, Debug, Default, PartialEq, Eq, Hash)]
pub struct Session {
    last: u64,
    wait: u64,
    awaiting: bool,
}

impl Session {
    /// A fresh session: no time accepted yet, no wait, nothing awaited.
    pub fn new() -> Session {
        Session::default()
    }

    /// A session whose last request went out at `last`, with `wait` milliseconds asked after it.
    pub fn at(last: u64, wait: u64, awaiting: bool) -> Session {
        Session { last, wait, awaiting }
    }

    /// The last time accepted, 0 where there is none.
    pub fn last(&self) -> u64 {
        self.last
    }

    /// The milliseconds asked after the last request.
    pub fn wait(&self) -> u64 {
        self.wait
    }

    /// Whether a single reply is awaited.
    pub fn awaiting(&self) -> bool {
        self.awaiting
    }

    /// Writes one of the six requests at a time, and answers how many bytes it has.
    ///
    /// Refused, in this order: 3 for an earlier time, 1 for another code or for a payload, 4 while
    /// a wait runs, 5 while a reply is awaited and this is neither STOP nor RESET, 2 for a short
    /// output. A refused request changes nothing.
    pub fn request(
        &mut self,
        now: u64,
        code: u8,
        payload: &[u8],
        out: &mut [u8],
    ) -> Result<usize, Refusal> {
        let since = now.checked_sub(self.last).ok_or(Refusal::Earlier)?;
        let request = Request::from_code(code)?;
        if !payload.is_empty() {
            return Err(Refusal::Unsuited);
        }
        if since < self.wait {
            return Err(Refusal::Waiting);
        }
        if self.awaiting && !request.interrupts() {
            return Err(Refusal::Awaiting);
        }
        let written = write_request(request.code(), &[], out)?;
        *self = Session { last: now, wait: request.wait(), awaiting: request.awaits_reply() };
        Ok(written)
    }

    /// Tells the session that the reply has ended. Where none is awaited, nothing changes.
    pub fn reply_ended(&mut self) {
        self.awaiting = false;
    }
}

#[cfg(test)]
mod tests {
    use super::*;
    use Request::*;

    fn send(session: &mut Session, now: u64, request: Request) -> Result<usize, Refusal> {
        let mut out = [0xEE; 2];
        let answer = session.request(now, request.code(), &[], &mut out);
        match answer {
            Ok(_) => assert_eq!(out, [0xA5, request.code()]),
            Err(_) => assert_eq!(out, [0xEE; 2]),
        }
        answer
    }

    #[test]
    fn all_six_go_out_of_a_fresh_session_at_any_time() {
        for request in Request::ALL {
            for now in [0, 1, u64::MAX] {
                assert_eq!(send(&mut Session::new(), now, request), Ok(2));
            }
        }
    }

    #[test]
    fn waits_on_both_sides_of_the_edge() {
        for (first, wait) in [(Stop, 1), (Reset, 2)] {
            for start in [0, 1_000, u64::MAX - 2] {
                for next in Request::ALL {
                    let mut session = Session::new();
                    assert_eq!(send(&mut session, start, first), Ok(2));
                    let before = session;
                    for early in 0..wait {
                        assert_eq!(send(&mut session, start + early, next), Err(Refusal::Waiting));
                        assert_eq!(session, before);
                    }
                    assert_eq!(send(&mut session, start + wait, next), Ok(2));
                }
            }
        }
    }

    #[test]
    fn a_wait_at_the_end_of_time_never_wraps() {
        let mut session = Session::new();
        assert_eq!(send(&mut session, u64::MAX, Reset), Ok(2));
        assert_eq!(send(&mut session, u64::MAX, Stop), Err(Refusal::Waiting));
        assert_eq!(send(&mut session, 0, Stop), Err(Refusal::Earlier));
        assert_eq!(send(&mut session, 1, Stop), Err(Refusal::Earlier));
    }

    #[test]
    fn scans_ask_for_no_wait() {
        for first in [Scan, ForceScan] {
            for next in Request::ALL {
                let mut session = Session::new();
                assert_eq!(send(&mut session, 7, first), Ok(2));
                assert_eq!(send(&mut session, 7, next), Ok(2));
            }
        }
    }

    #[test]
    fn a_reply_is_awaited_until_told_or_interrupted() {
        for first in [GetInfo, GetHealth] {
            let mut session = Session::new();
            assert_eq!(send(&mut session, 7, first), Ok(2));
            for next in [Scan, ForceScan, GetInfo, GetHealth] {
                assert_eq!(send(&mut session, 1_000_000, next), Err(Refusal::Awaiting));
            }
            let mut told = session;
            told.reply_ended();
            assert_eq!(send(&mut told, 7, Scan), Ok(2));
            for next in [Stop, Reset] {
                let mut interrupted = session;
                assert_eq!(send(&mut interrupted, 7, next), Ok(2));
                assert!(!interrupted.awaiting());
                assert_eq!(send(&mut interrupted, 9, GetInfo), Ok(2));
                assert!(interrupted.awaiting());
            }
        }
    }

    #[test]
    fn being_told_with_nothing_awaited_changes_nothing() {
        for first in [Stop, Reset, Scan] {
            let mut session = Session::new();
            send(&mut session, 7, first).unwrap();
            let before = session;
            session.reply_ended();
            assert_eq!(session, before);
        }
    }

    #[test]
    fn an_equal_time_is_accepted_and_an_earlier_one_refused() {
        let mut session = Session::new();
        assert_eq!(send(&mut session, 7, Scan), Ok(2));
        assert_eq!(send(&mut session, 7, Scan), Ok(2));
        assert_eq!(send(&mut session, 6, Scan), Err(Refusal::Earlier));
        assert_eq!(send(&mut session, 7, Scan), Ok(2));
    }

    #[test]
    fn a_refused_request_does_not_move_the_last_time() {
        let mut session = Session::new();
        assert_eq!(send(&mut session, 7, GetInfo), Ok(2));
        assert_eq!(send(&mut session, 50, Scan), Err(Refusal::Awaiting));
        assert_eq!(session.request(60, 0x51, &[], &mut [0; 2]), Err(Refusal::Unsuited));
        assert_eq!(session.request(70, Stop.code(), &[], &mut [0; 1]), Err(Refusal::OutputShort));
        assert_eq!(session.last(), 7);
        assert_eq!(send(&mut session, 7, Stop), Ok(2));
    }

    #[test]
    fn the_order_of_the_checks() {
        // Every fault at once, and then one less at a time: 3, 1, 4, 5, 2.
        let at = Session::at(10, 2, true);
        let ask = |now, code: u8, payload: &[u8], room: usize| {
            let mut session = at;
            let answer = session.request(now, code, payload, &mut [0; 2][..room]);
            if answer.is_err() {
                assert_eq!(session, at);
            }
            answer
        };
        assert_eq!(ask(9, 0x51, &[0], 0), Err(Refusal::Earlier));
        assert_eq!(ask(10, 0x51, &[0], 0), Err(Refusal::Unsuited));
        assert_eq!(ask(10, Scan.code(), &[0], 0), Err(Refusal::Unsuited));
        assert_eq!(ask(10, Scan.code(), &[], 0), Err(Refusal::Waiting));
        assert_eq!(ask(11, Scan.code(), &[], 0), Err(Refusal::Waiting));
        assert_eq!(ask(12, Scan.code(), &[], 0), Err(Refusal::Awaiting));
        assert_eq!(ask(12, Stop.code(), &[], 1), Err(Refusal::OutputShort));
        assert_eq!(ask(12, Stop.code(), &[], 2), Ok(2));
    }

    #[test]
    fn codes_with_payload_are_none_of_the_six() {
        let mut session = Session::new();
        let answer = session.request(0, 0x82, &[0; 5], &mut [0; 300]);
        assert_eq!(answer, Err(Refusal::Unsuited));
    }
}
