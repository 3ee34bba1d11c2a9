//! The bench's own program: every part of paper 01, written from the paper alone, in safe Rust.

pub mod collector;
pub mod descriptor;
pub mod health;
pub mod host;
pub mod info;
pub mod listing;
pub mod model;
pub mod plain_reader;
pub mod reader;
pub mod record;
pub mod recording;
pub mod refusal;
pub mod request;
pub mod ring;
pub mod sample;
pub mod scanlist;
pub mod session;
mod text;
pub mod turn;
pub mod units;

pub use collector::{Collector, Packet};
pub use descriptor::Descriptor;
pub use health::Health;
pub use host::Host;
pub use info::Info;
pub use listing::listing;
pub use model::{Model, State};
pub use plain_reader::PlainReader;
pub use reader::{Expected, Outcome, Phase, Reader, Stop};
pub use record::Record;
pub use refusal::Refusal;
pub use request::{write_request, Request};
pub use sample::Sample;
pub use scanlist::scanlist;
pub use session::Session;
pub use turn::{Gathered, Gatherer, Turn};
pub use units::{Angle, Distance};

/// Lends the first `size` bytes of an output, or refuses it as too short.
fn lend(out: &mut [u8], size: usize) -> Result<&mut [u8], Refusal> {
    out.get_mut(..size).ok_or(Refusal::OutputShort)
}
