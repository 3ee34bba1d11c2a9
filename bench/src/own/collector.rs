//! The device's side of the line: collects request packets byte by byte, with times.

use super::request::{FIRST_WITH_PAYLOAD, START};
use super::Refusal;

/// A byte later than this after the packet's first one discards the packet.
pub const PACKET_MS: u64 = 5_000;
/// The longest payload a packet can carry.
pub const LARGEST_PAYLOAD: usize = 255;

/// A whole packet, with its payload in the collector.
#[derive(Clone, Copy, Debug, PartialEq, Eq)]
pub struct Packet<'a> {
    /// The code.
    pub code: u8,
    /// The payload, empty for codes below 80.
    pub payload: &'a [u8],
}

/// Which byte of a packet comes next.
#[derive(Clone, Copy, Debug, PartialEq, Eq, Hash)]
pub enum Stage {
    /// The first one: anything else is skipped.
    Start,
    /// The code.
    Code,
    /// The size of the payload.
    Size,
    /// A byte of the payload.
    Payload,
    /// The checksum.
    Checksum,
}

/// A collector of request packets.
#[derive(Clone, Debug, PartialEq, Eq)]
pub struct Collector {
    pub(crate) stage: Stage,
    /// Time of the last byte accepted.
    pub(crate) last: u64,
    /// Time of the packet's first byte.
    pub(crate) began: u64,
    pub(crate) code: u8,
    pub(crate) size: u8,
    pub(crate) got: u8,
    pub(crate) checksum: u8,
    pub(crate) payload: [u8; LARGEST_PAYLOAD],
}

impl Default for Collector {
    fn default() -> Collector {
        Collector::new()
    }
}

impl Collector {
    /// A fresh collector: no byte accepted, no packet begun.
    pub fn new() -> Collector {
        Collector {
            stage: Stage::Start,
            last: 0,
            began: 0,
            code: 0,
            size: 0,
            got: 0,
            checksum: 0,
            payload: [0; LARGEST_PAYLOAD],
        }
    }

    /// A collector that took its last byte at `last`, with a packet begun at `began` of which these
    /// bytes are there: none where no packet is begun. Nothing where they are no beginning of one.
    pub fn at(last: u64, began: u64, packet: &[u8]) -> Option<Collector> {
        let mut collector = Collector::new();
        for &byte in packet {
            let complete = collector.push(byte, began).ok()?.is_some();
            if complete || collector.stage == Stage::Start {
                return None;
            }
        }
        collector.last = last;
        (packet.is_empty() || began <= last).then_some(collector)
    }

    /// Which byte of a packet comes next.
    pub fn stage(&self) -> Stage {
        self.stage
    }

    /// Time of the last byte accepted, 0 where there is none.
    pub fn last(&self) -> u64 {
        self.last
    }

    /// Time of the first byte of the packet begun, where one is.
    pub fn began(&self) -> Option<u64> {
        (self.stage != Stage::Start).then_some(self.began)
    }

    /// The bytes of the packet begun, empty where none is.
    pub fn packet(&self) -> Vec<u8> {
        let mut bytes = vec![START, self.code, self.size];
        match self.stage {
            Stage::Start => bytes.clear(),
            Stage::Code => bytes.truncate(1),
            Stage::Size => bytes.truncate(2),
            Stage::Payload | Stage::Checksum => {
                bytes.extend_from_slice(&self.payload[..usize::from(self.got)]);
            }
        }
        bytes
    }

    /// Takes one byte with its time, and answers the packet that it completes, if it does.
    ///
    /// Refused: 3 for a time earlier than that of the last byte accepted; nothing changes.
    pub fn push(&mut self, byte: u8, now: u64) -> Result<Option<Packet<'_>>, Refusal> {
        if now < self.last {
            return Err(Refusal::Earlier);
        }
        self.last = now;
        if self.stage != Stage::Start && now.saturating_sub(self.began) > PACKET_MS {
            self.stage = Stage::Start;
        }
        let complete = match self.stage {
            Stage::Start => {
                if byte == START {
                    self.began = now;
                    self.checksum = 0;
                    self.size = 0;
                    self.got = 0;
                    self.stage = Stage::Code;
                }
                false
            }
            Stage::Code => {
                self.code = byte;
                self.stage = Stage::Size;
                byte < FIRST_WITH_PAYLOAD
            }
            Stage::Size => {
                self.size = byte;
                self.stage = if byte == 0 { Stage::Checksum } else { Stage::Payload };
                false
            }
            Stage::Payload => {
                self.payload[usize::from(self.got)] = byte;
                self.got += 1;
                if self.got == self.size {
                    self.stage = Stage::Checksum;
                }
                false
            }
            Stage::Checksum => {
                self.stage = Stage::Start;
                byte == self.checksum
            }
        };
        self.checksum ^= byte;
        if !complete {
            return Ok(None);
        }
        self.stage = Stage::Start;
        let payload = &self.payload[..usize::from(self.size)];
        Ok(Some(Packet { code: self.code, payload }))
    }
}

#[cfg(test)]
mod tests {
    use super::*;
    use crate::own::write_request;

    /// What a run of bytes at given times gives: the packets, each with the place of its last byte.
    fn run(bytes: &[(u8, u64)]) -> Vec<(usize, u8, Vec<u8>)> {
        let mut collector = Collector::new();
        let mut packets = Vec::new();
        for (place, &(byte, now)) in bytes.iter().enumerate() {
            if let Some(packet) = collector.push(byte, now).unwrap() {
                packets.push((place, packet.code, packet.payload.to_vec()));
            }
        }
        packets
    }

    fn at_once(bytes: &[u8]) -> Vec<(usize, u8, Vec<u8>)> {
        run(&bytes.iter().map(|&byte| (byte, 0)).collect::<Vec<_>>())
    }

    #[test]
    fn every_packet_that_is_written_is_collected() {
        for code in 0..=255 {
            for size in [0, 1, 5, 254, 255] {
                if code < 0x80 && size > 0 {
                    continue;
                }
                let payload: Vec<u8> = (0..size).map(|n| n ^ code).collect();
                let mut out = [0; 300];
                let n = write_request(code, &payload, &mut out).unwrap();
                // Noise before, and a second packet right behind.
                let mut bytes = vec![0x00, 0x5A, 0xFF];
                bytes.extend_from_slice(&out[..n]);
                bytes.extend_from_slice(&[0xA5, 0x25]);
                let expected = vec![(n + 2, code, payload), (n + 4, 0x25, vec![])];
                assert_eq!(at_once(&bytes), expected, "{code:02x} {size}");
            }
        }
    }

    #[test]
    fn a5_as_second_byte_is_the_code() {
        // A5 A5 00 00: code A5, no payload, checksum A5 ^ A5 ^ 00.
        assert_eq!(at_once(&[0xA5, 0xA5, 0, 0]), [(3, 0xA5, vec![])]);
        assert_eq!(at_once(&[0xA5, 0xA5, 0x25, 0x00]), []);
    }

    #[test]
    fn a_wrong_checksum_discards_its_own_byte_too() {
        // The wrong checksum is A5: it does not begin a packet.
        assert_eq!(at_once(&[0xA5, 0x80, 0, 0xA5, 0x25]), []);
        assert_eq!(at_once(&[0xA5, 0x80, 0, 0xA5, 0xA5, 0x25]), [(5, 0x25, vec![])]);
        assert_eq!(at_once(&[0xA5, 0x80, 0, 0x24, 0xA5, 0x25]), [(5, 0x25, vec![])]);
    }

    #[test]
    fn five_seconds_on_both_sides() {
        for began in [0, 77, u64::MAX - 6_000] {
            let belongs = began + 5_000;
            assert_eq!(run(&[(0xA5, began), (0x25, belongs)]), [(1, 0x25, vec![])]);
            assert_eq!(run(&[(0xA5, began), (0x25, belongs + 1)]), []);
            // The late byte is looked at as a start, at its own time.
            let again = [(0xA5, began), (0xA5, belongs + 1), (0x25, belongs + 900)];
            assert_eq!(run(&again), [(2, 0x25, vec![])]);
        }
    }

    #[test]
    fn a_late_start_counts_from_its_own_time() {
        let bytes = [(0xA5, 0), (0xA5, 5_001), (0x25, 10_001)];
        assert_eq!(run(&bytes), [(2, 0x25, vec![])]);
        let bytes = [(0xA5, 0), (0xA5, 5_001), (0x25, 10_002)];
        assert_eq!(run(&bytes), []);
    }

    #[test]
    fn the_time_counts_from_the_first_byte_not_the_last() {
        let packet = [0xA5, 0x80, 0x01, 0x00, 0x24];
        let steady: Vec<_> = packet.iter().zip(0..).map(|(&b, n)| (b, n * 1_250)).collect();
        assert_eq!(run(&steady), [(4, 0x80, vec![0])]);
        let slow: Vec<_> = packet.iter().zip(0..).map(|(&b, n)| (b, n * 1_251)).collect();
        assert_eq!(run(&slow), []);
    }

    #[test]
    fn a_late_byte_at_every_stage() {
        let packet = [0xA5, 0x82, 0x02, 7, 8, 0xA5 ^ 0x82 ^ 2 ^ 7 ^ 8];
        for late in 1..packet.len() {
            let mut bytes: Vec<_> = packet[..late].iter().map(|&b| (b, 10)).collect();
            bytes.extend([(0xA5, 5_011), (0x40, 5_011)]);
            assert_eq!(run(&bytes), [(late + 1, 0x40, vec![])]);
        }
    }

    #[test]
    fn a_given_state_goes_on() {
        let packet = [0xA5, 0x82, 0x02, 7, 8, 0xA5 ^ 0x82 ^ 2 ^ 7 ^ 8];
        for count in 0..packet.len() {
            let (before, after) = packet.split_at(count);
            let mut collector = Collector::at(90, 40, before).unwrap();
            assert_eq!(collector.packet(), before);
            assert_eq!(collector.began(), (count > 0).then_some(40));
            assert_eq!(collector.push(0, 89), Err(Refusal::Earlier));
            let (last, middle) = after.split_last().unwrap();
            for &byte in middle {
                assert_eq!(collector.push(byte, 5_040), Ok(None));
            }
            let whole = Packet { code: 0x82, payload: &[7, 8] };
            assert_eq!(collector.push(*last, 5_040), Ok(Some(whole)));
        }
        assert_eq!(Collector::at(90, 40, &packet), None);
        assert_eq!(Collector::at(90, 40, &[0xA5, 0x25]), None);
        assert_eq!(Collector::at(90, 40, &[0x25]), None);
        assert_eq!(Collector::at(39, 40, &[0xA5]), None);
        assert!(Collector::at(39, 40, &[]).is_some());
    }

    #[test]
    fn earlier_is_against_every_byte_accepted() {
        let mut collector = Collector::new();
        assert_eq!(collector.push(0x00, 9), Ok(None));
        let before = collector.clone();
        assert_eq!(collector.push(0xA5, 8), Err(Refusal::Earlier));
        assert_eq!(collector, before);
        assert_eq!(collector.push(0xA5, 9), Ok(None));
        assert_eq!(collector.push(0x25, 8), Err(Refusal::Earlier));
        assert_eq!(collector.push(0x25, 9), Ok(Some(Packet { code: 0x25, payload: &[] })));
    }
}
