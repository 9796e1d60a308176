//! Packets, and the refusals 11 to 14 that a packet can meet.

use crate::numbers::GRAINS_PER_NANOSECOND;
use crate::Refusal;

/// "13: more than 600 s after the first packet."
pub const LONGEST_HISTORY: u64 = 600_000_000_000;
/// "14: more than 1,000,000,000 packets."
pub const MOST_PACKETS: u64 = 1_000_000_000;

/// "A packet is an arrival t (u64, nanoseconds since the SMPTE epoch), an RTP
/// timestamp (u32) and a marker (0 or 1)."
#[derive(Clone, Copy, Debug, PartialEq, Eq)]
pub struct Packet {
    pub arrival: u64,
    pub timestamp: u32,
    pub marker: u8,
}

impl Packet {
    pub fn new(arrival: u64, timestamp: u32, marker: u8) -> Packet {
        Packet {
            arrival,
            timestamp,
            marker,
        }
    }

    /// 27t, wide: "27t in 64 bits" is one of the errors that look reasonable.
    pub fn grains(&self) -> i128 {
        i128::from(self.arrival) * GRAINS_PER_NANOSECOND
    }
}

/// All that refusals 11 to 14 need to know of the packets before.
#[derive(Clone, Copy, Debug, Default, PartialEq, Eq)]
pub struct Past {
    pub count: u64,
    pub first: u64,
    pub last: u64,
}

impl Past {
    pub fn of(packets: &[Packet]) -> Past {
        Past {
            count: packets.len() as u64,
            first: packets.first().map_or(0, |packet| packet.arrival),
            last: packets.last().map_or(0, |packet| packet.arrival),
        }
    }

    /// "packet by packet 11 to 14": for one packet, in this order. The first
    /// packet of a history has none before it, so 12 and 13 pass it by.
    pub fn refuses(&self, packet: &Packet) -> Option<u8> {
        let fresh = self.count == 0;
        if packet.marker > 1 {
            Some(11)
        } else if !fresh && packet.arrival < self.last {
            Some(12)
        } else if !fresh && packet.arrival - self.first > LONGEST_HISTORY {
            Some(13)
        } else if self.count + 1 > MOST_PACKETS {
            Some(14)
        } else {
            None
        }
    }

    pub fn with(self, packet: &Packet) -> Past {
        Past {
            count: self.count + 1,
            first: if self.count == 0 {
                packet.arrival
            } else {
                self.first
            },
            last: packet.arrival,
        }
    }
}

/// The first packet refused after a given past, with its "place in the history".
pub fn first_refused(past: Past, packets: &[Packet]) -> Option<Refusal> {
    let mut past = past;
    for packet in packets {
        if let Some(number) = past.refuses(packet) {
            return Some(Refusal::new(number, past.count));
        }
        past = past.with(packet);
    }
    None
}

/// Three slices made into packets. "10: the three slices differ in length";
/// its place is 0.
pub fn zip(arrivals: &[u64], timestamps: &[u32], markers: &[u8]) -> Result<Vec<Packet>, Refusal> {
    if arrivals.len() != timestamps.len() || arrivals.len() != markers.len() {
        return Err(Refusal::new(10, 0));
    }
    Ok((0..arrivals.len())
        .map(|i| Packet::new(arrivals[i], timestamps[i], markers[i]))
        .collect())
}

#[cfg(test)]
mod tests {
    use super::*;

    #[test]
    fn fourteen_is_given_at_the_packet_after_the_last_allowed() {
        let packet = Packet::new(5, 0, 0);
        let room_for_one = Past {
            count: MOST_PACKETS - 1,
            first: 0,
            last: 5,
        };
        assert_eq!(first_refused(room_for_one, &[packet]), None);
        assert_eq!(
            first_refused(room_for_one, &[packet, packet]),
            Some(Refusal::new(14, MOST_PACKETS))
        );
    }

    #[test]
    fn the_order_at_one_packet_is_11_12_13_14() {
        let full = Past {
            count: MOST_PACKETS,
            first: 10,
            last: 20,
        };
        let late = 10 + LONGEST_HISTORY + 1;
        assert_eq!(full.refuses(&Packet::new(5, 0, 2)), Some(11));
        assert_eq!(full.refuses(&Packet::new(19, 0, 1)), Some(12));
        assert_eq!(full.refuses(&Packet::new(late, 0, 1)), Some(13));
        assert_eq!(full.refuses(&Packet::new(late - 1, 0, 1)), Some(14));
    }
}
