//! Captures that do not depend on a seed and reach every outcome: both sides of
//! each condition of a frame, each bound of a record and of the header, and a
//! small capture cut and changed at every place.

use crate::capture::{Asked, GREATEST_OFFSET, MICROSECONDS, NANOSECONDS};
use crate::numbers::{Numbers, EDITION_1};
use crate::packet::{Packet, LONGEST_HISTORY};
use crate::pcap::{Capture, Frame, IPV4, TAG};
use crate::traffic::{OTHER_TAGS, WRONG_LINKS, WRONG_MAGICS};

const PORT: u16 = 20_000;
const SECOND: u64 = 1_000_000_000;
/// About now, on a whole second.
const NOW: u64 = 1_760_000_000 * SECOND;
const LAST_SECOND: u64 = 0xffff_ffff * SECOND;
const MAGICS: [u32; 2] = [MICROSECONDS, NANOSECONDS];
const ORDERS: [bool; 2] = [false, true];

/// Every packet closes a frame, and its row tells its arrival and its timestamp:
/// so the rows say which frames were handed on.
const ONE_A_FRAME: Numbers = Numbers::narrow(1);

const ASKED: Asked = Asked {
    port: PORT,
    offset: 37,
    numbers: ONE_A_FRAME,
    edition: EDITION_1,
};

/// Every packet closes a whole field.
const ONE_A_FIELD: Numbers = Numbers {
    tro: Some(700),
    ..Numbers::narrow(2)
};

type Captures = Vec<(Asked, Vec<u8>)>;

/// All of them; with captures of the given streams, and the given numbers asked
/// of a capture, some of which set-up refuses. Each by edition 1: by which others
/// it is measured, `cases` says.
pub fn fixed_captures(streams: &[(Numbers, Vec<Packet>)], numbers: &[Numbers]) -> Captures {
    [
        of_streams(streams),
        of_numbers(numbers),
        headers(),
        offsets(),
        ports(),
        frames(),
        values(),
        fractions(),
        lengths(),
        times(),
        orders(),
        everywhere(MICROSECONDS, false),
        everywhere(NANOSECONDS, true),
        of_fields([headers(), offsets(), times(), orders()].concat()),
    ]
    .concat()
}

/// Marker packets a millisecond apart, in one frame each as they are made here.
fn capture_of(magic: u32, big: bool, frames: &[Vec<u8>]) -> Capture {
    let mut capture = Capture::new(magic, big);
    for (place, frame) in frames.iter().enumerate() {
        capture.push(NOW + 1_000_000 * place as u64, frame.clone());
    }
    capture
}

fn marked(place: usize) -> Packet {
    Packet::new(0, 1000 + place as u32, 1)
}

fn plain(place: usize) -> Vec<u8> {
    Frame::of(PORT, &marked(place)).bytes()
}

/// Skipped, for its port.
fn skipped() -> Vec<u8> {
    Frame::of(PORT + 1, &marked(0)).bytes()
}

fn asked(captures: Vec<Vec<u8>>) -> Captures {
    captures.into_iter().map(|bytes| (ASKED, bytes)).collect()
}

/// Packet, skipped frame, and one of each part that a frame need not have.
fn small(magic: u32, big: bool) -> Capture {
    let tagged = Frame {
        tags: vec![TAG],
        ..Frame::of(PORT, &marked(1))
    };
    let options = Frame {
        ip_words: 6,
        options: 4,
        ..Frame::of(PORT, &marked(2))
    };
    let extended = Frame {
        contributors: 1,
        contributor_bytes: 4,
        extension: Some((1, 4)),
        payload: 1,
        ..Frame::of(PORT, &marked(3))
    };
    let frames = [
        plain(0),
        tagged.bytes(),
        skipped(),
        options.bytes(),
        extended.bytes(),
    ];
    capture_of(magic, big, &frames)
}

/// The same captures, asked with numbers that are accepted of every profile.
fn of_fields(captures: Captures) -> Captures {
    let asked = |asked| Asked {
        numbers: ONE_A_FIELD,
        ..asked
    };
    let captures = captures.into_iter();
    captures.map(|(own, bytes)| (asked(own), bytes)).collect()
}

// --- what is asked ---

/// Those that a capture can hold, in nanoseconds and both orders.
fn of_streams(streams: &[(Numbers, Vec<Packet>)]) -> Captures {
    let held =
        |packet: &Packet| packet.marker <= 1 && packet.arrival / SECOND <= LAST_SECOND / SECOND;
    let mut captures = vec![];
    for (numbers, packets) in streams.iter().filter(|(_, list)| list.iter().all(held)) {
        for big in ORDERS {
            let mut capture = Capture::new(NANOSECONDS, big);
            for packet in packets {
                capture.push(packet.arrival, Frame::of(PORT, packet).bytes());
            }
            let asked = Asked {
                port: PORT,
                offset: 0,
                numbers: *numbers,
                edition: EDITION_1,
            };
            captures.push((asked, capture.bytes()));
        }
    }
    captures
}

/// 1 to 7 come before 33 and 30.
fn of_numbers(numbers: &[Numbers]) -> Captures {
    let mut captures = vec![];
    for numbers in numbers {
        let asked = Asked {
            numbers: *numbers,
            ..ASKED
        };
        let far = Asked {
            offset: GREATEST_OFFSET + 1,
            ..asked
        };
        captures.push((asked, small(MICROSECONDS, false).bytes()));
        captures.push((asked, vec![]));
        captures.push((far, vec![]));
    }
    captures
}

/// 33 comes before 30, "also of an empty capture".
fn offsets() -> Captures {
    let offsets = [0, 1, 36, 37, 98, 99, 100, 101, 128, 255, 256, 293, 65_573];
    let far = [1 << 31, u32::MAX - 1, u32::MAX];
    let bytes = small(NANOSECONDS, false).bytes();
    let mut captures = vec![];
    for offset in offsets.into_iter().chain(far) {
        let asked = Asked { offset, ..ASKED };
        captures.push((asked, bytes.clone()));
        captures.push((asked, bytes[..23].to_vec()));
        captures.push((asked, bytes[..24].to_vec()));
        captures.push((asked, vec![]));
    }
    captures
}

fn ports() -> Captures {
    let ports = [0, 1, 255, 256, PORT, PORT.swap_bytes(), 32_768, 65_535];
    let mut captures = vec![];
    for port in ports {
        let frames = ports.map(|sent| Frame::of(sent, &marked(usize::from(sent))).bytes());
        let capture = capture_of(MICROSECONDS, true, &frames);
        captures.push((Asked { port, ..ASKED }, capture.bytes()));
    }
    captures
}

// --- the header ---

fn headers() -> Captures {
    let mut captures = vec![];
    for big in ORDERS {
        for magic in MAGICS {
            captures.push(small(magic, big).bytes());
            for link in WRONG_LINKS {
                let mut capture = small(magic, big);
                capture.link = link;
                captures.push(capture.bytes());
                capture.records.clear();
                captures.push(capture.bytes());
            }
        }
        for magic in WRONG_MAGICS {
            captures.push(small(magic, big).bytes());
        }
    }
    asked(captures)
}

// --- frames ---

/// Frames with each part that there is, whole and cut at the end of each part
/// and one byte before it.
fn cut_frames() -> Vec<Vec<u8>> {
    let of = |place| Frame::of(PORT, &marked(place));
    let extended = |words: u16| Frame {
        extension: Some((words, 4 * usize::from(words))),
        ..of(3)
    };
    let kinds = [
        of(0),
        Frame {
            tags: vec![TAG],
            payload: 5,
            ..of(1)
        },
        Frame {
            ip_words: 15,
            options: 40,
            ..of(2)
        },
        Frame {
            contributors: 15,
            contributor_bytes: 60,
            ..of(2)
        },
        extended(0),
        extended(1),
        extended(70),
        Frame::full(PORT, &marked(4), 3),
    ];
    let mut frames = vec![];
    for kind in kinds {
        for end in kind.ends() {
            for keep in [end - 1, end] {
                frames.push(kind.bytes()[..keep].to_vec());
            }
        }
    }
    frames
}

/// Each frame between two packets; and the longest extension, one byte too short
/// and whole, and as many words as come out as 0 in 16 bits.
fn frames() -> Captures {
    let mut frames = cut_frames();
    for tags in OTHER_TAGS {
        frames.push(
            Frame {
                tags: tags.to_vec(),
                ..Frame::of(PORT, &marked(5))
            }
            .bytes(),
        );
    }
    let said = |words: u16, there: usize| Frame {
        extension: Some((words, there)),
        ..Frame::full(PORT, &marked(6), 0)
    };
    for (words, there) in [
        (65_535, 262_140),
        (65_535, 262_139),
        (65_535, 65_532),
        (65_535, 0),
        (32_768, 0),
        (16_384, 0),
        (16_384, 3),
        (16_385, 4),
    ] {
        frames.push(said(words, there).bytes());
    }
    let mut captures = vec![];
    for frame in frames {
        let three = [plain(0), frame, plain(2)];
        captures.push(capture_of(MICROSECONDS, false, &three).bytes());
    }
    asked(captures)
}

/// Frames that differ in one field, which has every value or every bit turned.
fn values() -> Captures {
    let all = [
        ip_beginnings(),
        protocols(),
        fragments(),
        other_ports(),
        types(),
        rtp_beginnings(),
    ];
    let captures = all.iter().map(|change| {
        let frames: Vec<Vec<u8>> = change.iter().map(Frame::bytes).collect();
        let framed = [vec![plain(1000)], frames, vec![plain(1001)]].concat();
        capture_of(NANOSECONDS, true, &framed).bytes()
    });
    asked(captures.collect())
}

fn numbered(place: usize) -> Frame {
    Frame {
        noise: place as u64,
        ..Frame::of(PORT, &marked(place))
    }
}

/// Every version with every header length.
fn ip_beginnings() -> Vec<Frame> {
    let all = (0..=255).map(|byte: u8| Frame {
        ip_version: byte >> 4,
        ip_words: byte & 15,
        options: 4 * usize::from((byte & 15).saturating_sub(5)),
        ..numbered(usize::from(byte))
    });
    all.collect()
}

fn protocols() -> Vec<Frame> {
    let all = (0..=255).map(|protocol: u8| Frame {
        protocol,
        ..numbered(usize::from(protocol))
    });
    all.collect()
}

/// Each bit alone, and with the two bits that are not looked at.
fn fragments() -> Vec<Frame> {
    let mut frames = vec![];
    for others in [0x0000, 0x4000, 0x8000, 0xc000] {
        frames.push(others);
        frames.extend((0..16).map(|bit| 1 << bit | others));
    }
    let made = frames.iter().enumerate().map(|(place, fragment)| Frame {
        fragment: *fragment,
        ..numbered(place)
    });
    made.collect()
}

fn other_ports() -> Vec<Frame> {
    let bits = (0..16).map(|bit| Frame {
        port: PORT ^ 1 << bit,
        ..numbered(bit)
    });
    bits.collect()
}

/// One bit off 0800, with a tag and without, and one bit off the tag's type.
fn types() -> Vec<Frame> {
    let mut frames = vec![];
    for bit in 0..16 {
        for tags in [vec![], vec![TAG], vec![0x88a8], vec![TAG ^ 1 << bit]] {
            let off = !tags.is_empty() && tags[0] != TAG;
            let ether_type = if off { IPV4 } else { IPV4 ^ 1 << bit };
            frames.push(Frame {
                tags,
                ether_type,
                ..numbered(4 * bit + frames.len() % 4)
            });
        }
    }
    frames
}

/// Every version with every number of contributors, with an extension and
/// without, the last of them the frame's end.
fn rtp_beginnings() -> Vec<Frame> {
    let all = (0..128).map(|byte: u8| Frame {
        rtp_version: byte >> 5,
        contributors: byte & 15,
        contributor_bytes: 4 * usize::from(byte & 15),
        extension: (byte & 16 != 0).then_some((1, 4)),
        ..numbered(usize::from(byte))
    });
    all.collect()
}

// --- records ---

/// Both sides of a second, on a packet and on a frame that is skipped.
fn fractions() -> Captures {
    let mut captures = vec![];
    for magic in MAGICS {
        for big in ORDERS {
            for place in 0..5 {
                let limit = small(magic, big).fractions();
                for fraction in [limit - 1, limit, limit + 1, 1_000_000, 1 << 31, u32::MAX] {
                    let mut capture = small(magic, big);
                    capture.records[place].fraction = fraction;
                    captures.push(capture.bytes());
                }
            }
        }
    }
    asked(captures)
}

/// Captured lengths that are not the frame's, on each record; the sums of the
/// greatest with what comes before them come out small in 32 bits.
fn lengths() -> Captures {
    let mut captures = vec![];
    for big in ORDERS {
        let whole = small(MICROSECONDS, big);
        let behind = |place: usize| -> u32 {
            let records = whole.records[place..].iter();
            records.map(|record| 16 + record.captured).sum::<u32>() - 16
        };
        for place in 0..whole.records.len() {
            let (own, rest) = (whole.records[place].captured, behind(place));
            let before = whole.bytes().len() as u32 - rest;
            let wrapping = [0, 1, 16, 24, 40, before, before + 1].map(|by| 0_u32.wrapping_sub(by));
            let near = [0, 1, own - 1, own + 1, rest - 1, rest, rest + 1, 1 << 31];
            for captured in near.into_iter().chain(wrapping) {
                let mut capture = whole.clone();
                capture.records[place].captured = captured;
                captures.push(capture.bytes());
            }
        }
    }
    asked(captures)
}

/// One list of times, each with a plain frame.
fn at_times(magic: u32, times: &[u64]) -> Vec<u8> {
    let mut capture = Capture::new(magic, false);
    for (place, time) in times.iter().enumerate() {
        capture.push(*time, plain(place));
    }
    capture.bytes()
}

/// 12 and 13 and their other sides, in both units; the first second of a capture
/// and the last, which has 32 bits, and more than that with an offset.
fn times() -> Captures {
    let limit = LONGEST_HISTORY;
    let mut captures = vec![];
    for (magic, least) in [(MICROSECONDS, 1000), (NANOSECONDS, 1)] {
        for list in [
            vec![NOW, NOW, NOW + least, NOW + least],
            vec![NOW, NOW + least, NOW],
            vec![NOW, NOW + limit],
            vec![NOW, NOW + limit, NOW + limit + least],
            vec![NOW, NOW + limit + SECOND, NOW],
            vec![0, least, SECOND - least],
            vec![LAST_SECOND, LAST_SECOND + SECOND - least],
            vec![LAST_SECOND - SECOND, LAST_SECOND],
            vec![NOW, 0],
        ] {
            captures.push(at_times(magic, &list));
        }
    }
    let mut all = vec![];
    for offset in [0, 1, 37, GREATEST_OFFSET] {
        let moved = Asked { offset, ..ASKED };
        all.extend(captures.iter().map(|bytes| (moved, bytes.clone())));
    }
    all
}

/// Two things wrong: at one record 31 comes before 32 and 32 before 12; else the
/// earlier record decides. What is skipped may come at any time.
fn orders() -> Captures {
    let whole = small(NANOSECONDS, false);
    let mut captures = vec![];
    let mut with = |change: &dyn Fn(&mut Capture)| {
        let mut capture = whole.clone();
        change(&mut capture);
        captures.push(capture.bytes());
    };
    with(&|c| c.records[4].seconds = 0);
    with(&|c| c.records[2].seconds = 0);
    with(&|c| c.records[2].seconds = u32::MAX);
    for place in [1, 2, 4] {
        with(&|c| {
            c.records[place].fraction = u32::MAX;
            c.records[place].captured = u32::MAX;
        });
        with(&|c| {
            c.records[place].fraction = u32::MAX;
            c.records[place].seconds = 0;
        });
        with(&|c| {
            c.records[place].seconds = 0;
            c.records[place].captured += 1000;
        });
        with(&|c| {
            c.records[1].seconds = 0;
            c.records[place].fraction = u32::MAX;
        });
        with(&|c| {
            c.records[3].seconds = 0;
            c.records[place].captured = u32::MAX;
        });
    }
    with(&|c| c.records.truncate(0));
    with(&|c| c.records = vec![c.records[2].clone(); 3]);
    asked(captures)
}

/// Cut at every place, and each byte one more, one less and 0.
fn everywhere(magic: u32, big: bool) -> Captures {
    let whole = small(magic, big).bytes();
    let mut captures = vec![];
    for place in 0..whole.len() {
        captures.push(whole[..place].to_vec());
        let byte = whole[place];
        for other in [byte.wrapping_add(1), byte.wrapping_sub(1), 0] {
            let mut changed = whole.clone();
            changed[place] = other;
            captures.push(changed);
        }
    }
    captures.push(whole);
    asked(captures)
}
