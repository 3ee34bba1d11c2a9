//! The six requests with their codes and waits, and the writer of any request packet.

use super::{lend, Refusal};

/// The byte that begins every request.
pub(super) const START: u8 = 0xA5;
/// Codes from this one carry a size, a payload and a checksum.
pub(super) const FIRST_WITH_PAYLOAD: u8 = 0x80;

/// The requests that a session sends. The codes are named here and nowhere else.
#[derive(Clone, Copy, Debug, PartialEq, Eq, Hash)]
#[repr(u8)]
pub enum Request {
    /// Stop scanning.
    Stop = 0x25,
    /// Restart the scanner.
    Reset = 0x40,
    /// Scan once the motor is stable.
    Scan = 0x20,
    /// Scan at once.
    ForceScan = 0x21,
    /// Ask for model, versions and serial.
    GetInfo = 0x50,
    /// Ask for status and error code.
    GetHealth = 0x52,
}

impl Request {
    /// The six requests.
    pub const ALL: [Request; 6] = [
        Request::Stop,
        Request::Reset,
        Request::Scan,
        Request::ForceScan,
        Request::GetInfo,
        Request::GetHealth,
    ];

    /// The code of the request.
    pub const fn code(self) -> u8 {
        self as u8
    }

    /// The request with a code; any other code is refused (1).
    pub fn from_code(code: u8) -> Result<Request, Refusal> {
        Request::ALL.into_iter().find(|request| request.code() == code).ok_or(Refusal::Unsuited)
    }

    /// How many milliseconds the next request has to wait after this one.
    pub const fn wait(self) -> u64 {
        match self {
            Request::Stop => 1,
            Request::Reset => 2,
            Request::Scan | Request::ForceScan | Request::GetInfo | Request::GetHealth => 0,
        }
    }

    /// Whether the request ends whatever goes on, and so may be sent while a reply is awaited.
    pub const fn interrupts(self) -> bool {
        matches!(self, Request::Stop | Request::Reset)
    }

    /// Whether one single reply follows, which the session awaits.
    pub const fn awaits_reply(self) -> bool {
        matches!(self, Request::GetInfo | Request::GetHealth)
    }
}

/// Writes the packet of any code and payload, and answers how many bytes it has.
///
/// Refused: 1 where a code below 80 has a payload or the payload is over 255 bytes; then 2.
pub fn write_request(code: u8, payload: &[u8], out: &mut [u8]) -> Result<usize, Refusal> {
    if code < FIRST_WITH_PAYLOAD {
        if !payload.is_empty() {
            return Err(Refusal::Unsuited);
        }
        lend(out, 2)?.copy_from_slice(&[START, code]);
        return Ok(2);
    }
    let size = u8::try_from(payload.len()).map_err(|_| Refusal::Unsuited)?;
    let total = payload.len() + 4;
    let packet = lend(out, total)?;
    packet[..3].copy_from_slice(&[START, code, size]);
    packet[3..total - 1].copy_from_slice(payload);
    packet[total - 1] = packet[..total - 1].iter().fold(0, |sum, byte| sum ^ byte);
    Ok(total)
}

#[cfg(test)]
mod tests {
    use super::*;

    #[test]
    fn the_codes_are_the_paper_s() {
        let codes: Vec<u8> = Request::ALL.iter().map(|r| r.code()).collect();
        assert_eq!(codes, [0x25, 0x40, 0x20, 0x21, 0x50, 0x52]);
        for code in 0..=255 {
            match Request::from_code(code) {
                Ok(request) => assert_eq!(request.code(), code),
                Err(refusal) => {
                    assert_eq!(refusal, Refusal::Unsuited);
                    assert!(!codes.contains(&code));
                }
            }
        }
        assert_eq!(Request::from_code(0x51), Err(Refusal::Unsuited));
    }

    #[test]
    fn every_short_code_is_two_bytes() {
        for code in 0..0x80 {
            let mut out = [0xEE; 3];
            assert_eq!(write_request(code, &[], &mut out), Ok(2));
            assert_eq!(out, [0xA5, code, 0xEE]);
            assert_eq!(write_request(code, &[0], &mut out), Err(Refusal::Unsuited));
            assert_eq!(write_request(code, &[0], &mut []), Err(Refusal::Unsuited));
            assert_eq!(write_request(code, &[], &mut out[..1]), Err(Refusal::OutputShort));
        }
    }

    #[test]
    fn code_82_with_five_zeros() {
        let mut out = [0xEE; 10];
        assert_eq!(write_request(0x82, &[0; 5], &mut out), Ok(9));
        assert_eq!(out, [0xA5, 0x82, 0x05, 0, 0, 0, 0, 0, 0x22, 0xEE]);
    }

    #[test]
    fn long_codes_carry_0_to_255_bytes() {
        let mut out = [0xEE; 300];
        assert_eq!(write_request(0x80, &[], &mut out), Ok(4));
        assert_eq!(out[..5], [0xA5, 0x80, 0, 0x25, 0xEE]);
        let payload = [0x5A; 256];
        assert_eq!(write_request(0xFF, &payload[..255], &mut out), Ok(259));
        assert_eq!(out[..4], [0xA5, 0xFF, 255, 0x5A]);
        assert_eq!(out[258], 0xA5 ^ 0xFF ^ 0xFF ^ 0x5A);
        assert_eq!(out[259], 0xEE);
        assert_eq!(write_request(0xFF, &payload, &mut out), Err(Refusal::Unsuited));
        assert_eq!(write_request(0xFF, &payload, &mut []), Err(Refusal::Unsuited));
    }

    #[test]
    fn a_short_output_stays_as_it_was() {
        let mut out = [0xEE; 8];
        assert_eq!(write_request(0x82, &[0; 5], &mut out), Err(Refusal::OutputShort));
        assert_eq!(out, [0xEE; 8]);
    }
}
