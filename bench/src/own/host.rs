//! The recorder's core: one session, one reader and one gatherer, told of each other, and the scanner's serial.

use super::info::SERIAL_BYTES;
use super::record::RECORD_BYTES;
use super::{
    Expected, Gathered, Gatherer, Info, Outcome, Phase, Reader, Record, Refusal, Session, Stop,
    Turn,
};

/// A recorder's side of the line.
#[derive(Clone, Debug, Default, PartialEq, Eq)]
pub struct Host {
    pub(crate) session: Session,
    pub(crate) reader: Reader,
    pub(crate) gatherer: Gatherer,
    /// The serial of the last info reply, zeros before the first.
    pub(crate) serial: [u8; SERIAL_BYTES],
}

impl Host {
    /// Writes a request; where the session sends it, the reader is told and an open turn is dropped.
    ///
    /// Refused as a session does: 3, 1, 4, 5, 2.
    pub fn send(
        &mut self,
        now: u64,
        code: u8,
        payload: &[u8],
        out: &mut [u8],
    ) -> Result<usize, Refusal> {
        let written = self.session.request(now, code, payload, out)?;
        self.reader.tell(code)?;
        self.gatherer.request_told();
        Ok(written)
    }

    /// Reads on in the stream. The end of a reply, one that doesn't read too, ends the wait for it; the serial of an
    /// info reply is kept.
    pub fn read(&mut self, input: &[u8], row: &mut [u16]) -> Outcome {
        let phase = self.reader.phase();
        let outcome = self.reader.read(input, row);
        if matches!(outcome.stop, Stop::Reply | Stop::BadHealth) {
            self.session.reply_ended();
        }
        if outcome.stop == Stop::Reply && phase == Phase::Reading(Expected::Info) {
            self.serial = Info::read(&outcome.reply).expect("twenty bytes").serial;
        }
        outcome
    }

    /// Gathers a row as a gatherer does. Where a turn closes, its record has this number and the serial. Refused: 8.
    pub fn gather(
        &mut self,
        row: &[u16],
        number: u32,
        closed: &mut Turn,
        record: &mut [u8; RECORD_BYTES],
    ) -> Result<Gathered, Refusal> {
        let gathered = self.gatherer.row(row, closed)?;
        if gathered.closed {
            Record::new(number, self.serial, closed).write(record)?;
        }
        Ok(gathered)
    }
}

#[cfg(test)]
mod tests {
    use super::*;
    use crate::own::Request;

    #[test]
    fn a_request_tells_all_three() {
        let mut host = Host::default();
        let mut out = [0; 2];
        assert_eq!(host.send(5, Request::Scan.code(), &[], &mut out), Ok(2));
        assert_eq!(host.reader.phase(), Phase::Seeking(Expected::Samples));
        let (mut turn, mut record) = (Turn::EMPTY, [0; 754]);
        let gathered = host.gather(&[0, 9, 1], 1, &mut turn, &mut record);
        assert_eq!(gathered, Ok(Gathered { words: 3, closed: false }));
        assert_eq!(host.gatherer.samples(), 1);
        let before = host.clone();
        assert_eq!(host.send(4, Request::Stop.code(), &[], &mut out), Err(Refusal::Earlier));
        assert_eq!(host, before);
        assert_eq!(host.send(5, Request::Stop.code(), &[], &mut out), Ok(2));
        assert_eq!((host.reader.phase(), host.gatherer.samples()), (Phase::Idle, 0));
    }

    #[test]
    fn a_reply_ends_the_wait_and_gives_the_serial() {
        let mut host = Host::default();
        host.send(0, Request::GetInfo.code(), &[], &mut [0; 2]).unwrap();
        assert!(host.session.awaiting());
        let mut input = vec![0xA5, 0x5A, 0x14, 0, 0, 0, 4, 1, 2, 3, 4];
        input.extend([7; 16]);
        assert_eq!(host.read(&input, &mut []).stop, Stop::Descriptor);
        assert!(host.session.awaiting());
        assert_eq!(host.read(&input[7..], &mut []).stop, Stop::Reply);
        assert_eq!((host.session.awaiting(), host.serial), (false, [7; 16]));
        // A health reply that doesn't read ends its wait as well, and leaves the serial.
        host.send(0, Request::GetHealth.code(), &[], &mut [0; 2]).unwrap();
        let health = [0xA5, 0x5A, 3, 0, 0, 0, 6, 3, 0, 0];
        assert_eq!(host.read(&health, &mut []).stop, Stop::Descriptor);
        assert_eq!(host.read(&health[7..], &mut []).stop, Stop::BadHealth);
        assert_eq!((host.session.awaiting(), host.serial), (false, [7; 16]));
    }
}
