//! An independent reference for vtiming by Kirikolatz.
//!
//! Everything here is written from document 01 ("What is being built, with
//! exact rules") and the requests of document 02 ("Changes to make after the
//! base") that have landed, alone. It is naive on purpose: 128-bit whole
//! numbers, exact fractions compared by cross-multiplication, vectors of
//! events, and where a thing can be worked out in two ways both are done and
//! asserted to agree.
//! No floating point is used except for the figures of the graph.

pub mod bucket;
pub mod call;
pub mod capture;
pub mod cases;
pub mod feed;
pub mod fixed_captures;
pub mod fraction;
pub mod frame;
pub mod generate;
pub mod graph;
pub mod measure;
pub mod next_read;
pub mod numbers;
pub mod output;
pub mod packet;
pub mod pcap;
pub mod program;
pub mod random;
pub mod ranges;
pub mod reads;
pub mod record;
pub mod stream;
pub mod traffic;
pub mod waits;

pub use call::{call, CallAnswer};
pub use capture::{expected_capture_call, expected_capture_output, expected_packets, Asked};
pub use graph::{graph, Graph};
pub use measure::{measure, Buffer, Measurement, Network};
pub use next_read::{next_read, NextRead, Wait};
pub use numbers::{set_up, Edition, Limits, Numbers, EDITIONS, EDITION_1, EDITION_2};
pub use numbers::{Period, Profile, COMPRESSED, INTERLACED, PROFILES, VIDEO};
pub use output::{expected_c_call, expected_output};
pub use packet::Packet;
pub use record::{parse, write, writer};

/// A refusal: its number from the table and its place. The place is a packet's
/// place in the history, or an offset in a record file.
#[derive(Clone, Copy, Debug, PartialEq, Eq)]
pub struct Refusal {
    pub number: u8,
    pub place: u64,
}

impl Refusal {
    pub fn new(number: u8, place: u64) -> Refusal {
        Refusal { number, place }
    }
}
