//! Writes frames and captures, good ones and wrong ones: every part can say one
//! thing and be another.

use crate::capture::{ETHERNET, NANOSECONDS};
use crate::packet::Packet;
use crate::random::Random;

const SECOND: u64 = 1_000_000_000;
pub const IPV4: u16 = 0x0800;
pub const TAG: u16 = 0x8100;
pub const UDP: u8 = 17;
/// The longest that all headers can be up to an extension's words: one tag, all
/// options, all contributors and the extension's head.
pub const LONGEST_HEADERS: usize = 162;

/// A frame that carries one RTP packet, part by part. What is said of a part
/// and what is there are two things where a frame is to be wrong.
#[derive(Clone, Debug, PartialEq, Eq)]
pub struct Frame {
    /// The types of the tags between the addresses and the type.
    pub tags: Vec<u16>,
    pub ether_type: u16,
    pub ip_version: u8,
    /// The header length in words, and the bytes of options that are there.
    pub ip_words: u8,
    pub options: usize,
    /// Three flags and the fragment offset.
    pub fragment: u16,
    pub protocol: u8,
    pub port: u16,
    pub rtp_version: u8,
    /// How many contributors are said, and how many bytes of them are there.
    pub contributors: u8,
    pub contributor_bytes: usize,
    /// How many words are said, and how many bytes of them are there.
    pub extension: Option<(u16, usize)>,
    pub timestamp: u32,
    pub marker: u8,
    pub payload: usize,
    /// Where all that is not read comes from.
    pub noise: u64,
}

impl Frame {
    /// The shortest frame that hands this packet on at this port.
    pub fn of(port: u16, packet: &Packet) -> Frame {
        Frame {
            tags: vec![],
            ether_type: IPV4,
            ip_version: 4,
            ip_words: 5,
            options: 0,
            fragment: 0,
            protocol: UDP,
            port,
            rtp_version: 2,
            contributors: 0,
            contributor_bytes: 0,
            extension: None,
            timestamp: packet.timestamp,
            marker: packet.marker,
            payload: 0,
            noise: 0,
        }
    }

    /// With one tag, all options, all contributors and an extension of so many
    /// words.
    pub fn full(port: u16, packet: &Packet, words: u16) -> Frame {
        Frame {
            tags: vec![TAG],
            ip_words: 15,
            options: 40,
            contributors: 15,
            contributor_bytes: 60,
            extension: Some((words, 4 * usize::from(words))),
            ..Frame::of(port, packet)
        }
    }

    pub fn bytes(&self) -> Vec<u8> {
        self.parts().concat()
    }

    /// Where each part ends; the last end is the frame's own.
    pub fn ends(&self) -> Vec<usize> {
        let mut end = 0;
        let parts = self.parts();
        let ends = parts.iter().map(|part| {
            end += part.len();
            end
        });
        ends.collect()
    }

    fn parts(&self) -> Vec<Vec<u8>> {
        let mut noise = Noise(Random::new(self.noise, 0));
        let mut parts = self.ethernet(&mut noise);
        parts.push(self.ip(&mut noise));
        parts.push(noise.bytes(self.options));
        parts.push(self.udp(&mut noise));
        parts.push(self.rtp(&mut noise));
        parts.push(noise.bytes(self.contributor_bytes));
        if let Some((words, there)) = self.extension {
            parts.push([noise.bytes(2), words.to_be_bytes().to_vec()].concat());
            parts.push(noise.bytes(there));
        }
        parts.push(noise.bytes(self.payload));
        parts.retain(|part| !part.is_empty());
        parts
    }

    /// Addresses and the first type; behind each tag's two bytes the next one.
    fn ethernet(&self, noise: &mut Noise) -> Vec<Vec<u8>> {
        let mut part = noise.bytes(12);
        let mut parts = vec![];
        for tag in &self.tags {
            part.extend(tag.to_be_bytes());
            parts.push(std::mem::replace(&mut part, noise.bytes(2)));
        }
        part.extend(self.ether_type.to_be_bytes());
        parts.push(part);
        parts
    }

    /// A header length below five words is followed at once by what a reader
    /// would find there that believed it: UDP after three or four words; and
    /// with none the header is itself UDP's, its total length the port, and
    /// RTP's begins with the time to live.
    fn ip(&self, noise: &mut Noise) -> Vec<u8> {
        let mut header = noise.bytes(20);
        header[0] = self.ip_version << 4 | self.ip_words;
        header[6..8].copy_from_slice(&self.fragment.to_be_bytes());
        header[9] = self.protocol;
        match self.ip_words {
            0 => {
                header[2..4].copy_from_slice(&self.port.to_be_bytes());
                header[8] = 0x80;
            }
            3 | 4 => header.truncate(4 * usize::from(self.ip_words)),
            _ => {}
        }
        header
    }

    fn udp(&self, noise: &mut Noise) -> Vec<u8> {
        let mut header = noise.bytes(8);
        header[2..4].copy_from_slice(&self.port.to_be_bytes());
        header
    }

    /// Padding bit, payload type, sequence and source are not read.
    fn rtp(&self, noise: &mut Noise) -> Vec<u8> {
        let mut header = noise.bytes(12);
        let padding = header[0] & 0x20;
        let extension = u8::from(self.extension.is_some()) << 4;
        header[0] = self.rtp_version << 6 | padding | extension | self.contributors;
        header[1] = self.marker << 7 | header[1] & 0x7f;
        header[4..8].copy_from_slice(&self.timestamp.to_be_bytes());
        header
    }
}

/// Bytes that must not matter: any, all 0 or all ones.
struct Noise(Random);

impl Noise {
    fn bytes(&mut self, count: usize) -> Vec<u8> {
        match self.0.below(6) {
            0 => vec![0; count],
            1 => vec![0xff; count],
            _ => (0..count).map(|_| self.0.bits() as u8).collect(),
        }
    }
}

/// A capture record as it is written.
#[derive(Clone, Debug, PartialEq, Eq)]
pub struct Recorded {
    pub seconds: u32,
    pub fraction: u32,
    /// The captured length as it is said.
    pub captured: u32,
    pub frame: Vec<u8>,
}

#[derive(Clone, Debug, PartialEq, Eq)]
pub struct Capture {
    pub magic: u32,
    pub big: bool,
    pub link: u32,
    pub records: Vec<Recorded>,
    /// Where version, zone, sigfigs, snap length and original lengths come from.
    pub noise: u64,
}

impl Capture {
    pub fn new(magic: u32, big: bool) -> Capture {
        Capture {
            magic,
            big,
            link: ETHERNET,
            records: vec![],
            noise: 0,
        }
    }

    /// How many of the sub-second field are one second.
    pub fn fractions(&self) -> u32 {
        if self.magic == NANOSECONDS {
            1_000_000_000
        } else {
            1_000_000
        }
    }

    /// A frame at a time in nanoseconds, of which a capture in microseconds
    /// keeps the whole ones. Seconds have 32 bits: a later time is their last.
    pub fn push(&mut self, time: u64, frame: Vec<u8>) {
        let unit = SECOND / u64::from(self.fractions());
        self.records.push(Recorded {
            seconds: u32::try_from(time / SECOND).unwrap_or(u32::MAX),
            fraction: (time % SECOND / unit) as u32,
            captured: frame.len() as u32,
            frame,
        });
    }

    /// The same capture in the other byte order.
    pub fn turned(&self) -> Capture {
        Capture {
            big: !self.big,
            ..self.clone()
        }
    }

    pub fn bytes(&self) -> Vec<u8> {
        let mut noise = Noise(Random::new(self.noise, 1));
        let mut bytes = self.word(self.magic).to_vec();
        bytes.extend(noise.bytes(16));
        bytes.extend(self.word(self.link));
        for record in &self.records {
            for number in [record.seconds, record.fraction, record.captured] {
                bytes.extend(self.word(number));
            }
            bytes.extend(noise.bytes(4));
            bytes.extend(&record.frame);
        }
        bytes
    }

    fn word(&self, number: u32) -> [u8; 4] {
        if self.big {
            number.to_be_bytes()
        } else {
            number.to_le_bytes()
        }
    }
}
