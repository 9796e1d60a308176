//! Request (i), "Read the capture itself": a classic pcap file, frame by frame,
//! and the packets that it hands on to the measurement.
//!
//! A capture is a header of 24 bytes and records of 16 bytes, each with its
//! captured bytes after it. Whether a frame is handed on is decided by those
//! captured bytes alone, and is worked out twice: header by header, and by
//! places counted from the frame's first byte.

use std::cmp::Reverse;
use std::collections::BTreeMap;

use crate::measure::{measure_accepted, Measurement};
use crate::numbers::{set_up, Numbers};
use crate::output::{c_bytes, last_line, nine_numbers, refusal_line, row_line};
use crate::packet::{first_refused, Packet, Past};
use crate::record::tro_field;
use crate::Refusal;

const HEADER: usize = 24;
const RECORD_HEADER: usize = 16;
/// "both magic numbers (microseconds, nanoseconds)".
pub const MICROSECONDS: u32 = 0xa1b2_c3d4;
pub const NANOSECONDS: u32 = 0xa1b2_3c4d;
/// The link type that is read.
pub const ETHERNET: u32 = 1;
/// "33 for an offset above 99".
pub const GREATEST_OFFSET: u32 = 99;
const SECOND: u64 = 1_000_000_000;

/// All that a caller gives beside the capture's bytes: "UDP to a given port",
/// "the offset from the capture clock to the SMPTE epoch" in whole seconds, the
/// seven stream numbers with the profile of request (vii), and by request (vi) the
/// test plan's edition.
#[derive(Clone, Copy, Debug, PartialEq, Eq)]
pub struct Asked {
    pub port: u16,
    pub offset: u32,
    pub numbers: Numbers,
    pub edition: u32,
}

impl Asked {
    /// The same by another edition.
    pub fn by(&self, edition: u32) -> Asked {
        Asked { edition, ..*self }
    }

    /// The same as another profile.
    pub fn of(&self, profile: u64) -> Asked {
        let numbers = self.numbers.of(profile);
        Asked { numbers, ..*self }
    }

    /// The eleven words that the program is called with.
    pub fn words(&self) -> Vec<String> {
        let numbers = &self.numbers;
        [
            u64::from(self.port),
            u64::from(self.offset),
            numbers.rate,
            numbers.schedule,
            numbers.class,
            numbers.height,
            numbers.packets_per_frame,
            numbers.maxudp,
            tro_field(numbers.tro),
            numbers.profile,
            u64::from(self.edition),
        ]
        .map(|number| number.to_string())
        .to_vec()
    }
}

// --- one frame ---

/// What of a frame that is handed on is told further: RTP's timestamp and
/// marker, and which of the parts it has that a frame need not have.
#[derive(Clone, Copy, Debug, PartialEq, Eq)]
pub struct Carried {
    pub timestamp: u32,
    pub marker: u8,
    pub tagged: bool,
    pub options: bool,
    pub contributors: bool,
    pub extension: bool,
}

/// Why a frame is skipped: a condition that does not hold. The port is asked
/// last, so that it is named only where a frame goes elsewhere and is well.
#[derive(Clone, Copy, Debug, PartialEq, Eq, PartialOrd, Ord)]
pub enum Why {
    EthernetCut,
    TagCut,
    OtherType,
    IpCut,
    IpVersion,
    IpWords,
    OptionsCut,
    Protocol,
    Fragment,
    UdpCut,
    RtpCut,
    RtpVersion,
    ContributorsCut,
    ExtensionCut,
    ExtensionWordsCut,
    Port,
}

/// The bytes of a frame that no header has taken yet.
struct Rest<'a>(&'a [u8]);

impl<'a> Rest<'a> {
    fn take(&mut self, count: usize, cut: Why) -> Result<&'a [u8], Why> {
        if self.0.len() < count {
            return Err(cut);
        }
        let (taken, rest) = self.0.split_at(count);
        self.0 = rest;
        Ok(taken)
    }
}

fn demand(holds: bool, why: Why) -> Result<(), Why> {
    if holds {
        Ok(())
    } else {
        Err(why)
    }
}

/// Whether a frame is handed on, header by header.
pub fn handed_on(frame: &[u8], port: u16) -> Result<Carried, Why> {
    let answer = read_frame(frame).and_then(|(to, carried)| {
        demand(to == port, Why::Port)?;
        Ok(carried)
    });
    let told = answer
        .ok()
        .map(|carried| (carried.timestamp, carried.marker));
    assert_eq!(told, by_places(frame, port));
    answer
}

/// What the frame carries, and the port that it is sent to.
fn read_frame(frame: &[u8]) -> Result<(u16, Carried), Why> {
    let mut rest = Rest(frame);
    let tagged = read_ethernet(&mut rest)?;
    let options = read_ip(&mut rest)?;
    let udp = rest.take(8, Why::UdpCut)?;
    let fixed = rest.take(12, Why::RtpCut)?;
    demand(fixed[0] >> 6 == 2, Why::RtpVersion)?;
    let contributors = usize::from(fixed[0] % 16);
    rest.take(4 * contributors, Why::ContributorsCut)?;
    let extension = fixed[0] & 0x10 != 0;
    if extension {
        let head = rest.take(4, Why::ExtensionCut)?;
        let words = usize::from(head[2]) * 256 + usize::from(head[3]);
        rest.take(4 * words, Why::ExtensionWordsCut)?;
    }
    let carried = Carried {
        timestamp: big_endian(&fixed[4..8]) as u32,
        marker: fixed[1] >> 7,
        tagged,
        options,
        contributors: contributors > 0,
        extension,
    };
    Ok((big_endian(&udp[2..4]) as u16, carried))
}

/// "Ethernet with at most one VLAN tag": type 0800, or one tag of type 8100 and
/// then 0800. Gives whether there is a tag.
fn read_ethernet(rest: &mut Rest) -> Result<bool, Why> {
    let header = rest.take(14, Why::EthernetCut)?;
    let mut ether_type = &header[12..];
    let tagged = ether_type == [0x81, 0x00];
    if tagged {
        ether_type = &rest.take(4, Why::TagCut)?[2..];
    }
    demand(ether_type == [0x08, 0x00], Why::OtherType)?;
    Ok(tagged)
}

/// IPv4 with all of its header, carrying UDP, and no fragment: more fragments 0
/// and fragment offset 0. Gives whether there are options.
fn read_ip(rest: &mut Rest) -> Result<bool, Why> {
    let fixed = rest.take(20, Why::IpCut)?;
    demand(fixed[0] / 16 == 4, Why::IpVersion)?;
    let words = usize::from(fixed[0] % 16);
    demand(words >= 5, Why::IpWords)?;
    rest.take(4 * (words - 5), Why::OptionsCut)?;
    demand(fixed[9] == 17, Why::Protocol)?;
    // Of the two bytes the first bit is reserved and the second says "don't
    // fragment"; neither is looked at.
    let more_and_offset = big_endian(&fixed[6..8]) % 0x4000;
    demand(more_and_offset == 0, Why::Fragment)?;
    Ok(words > 5)
}

/// Timestamp and marker once more, by places counted from the frame's first
/// byte, where a byte that was not captured counts as 0: the places where the
/// headers begin only grow, so that the last one's end says whether all were
/// captured.
fn by_places(frame: &[u8], port: u16) -> Option<(u32, u8)> {
    let at = |place: usize, width: usize| {
        (place..place + width).fold(0_u64, |number, place| {
            number * 256 + u64::from(frame.get(place).copied().unwrap_or(0))
        })
    };
    let ip = if at(12, 2) == 0x8100 { 18 } else { 14 };
    let udp = ip + 4 * (at(ip, 1) as usize & 15);
    let rtp = udp + 8;
    let contributors_end = rtp + 12 + 4 * (at(rtp, 1) as usize & 15);
    let end = match at(rtp, 1) & 0x10 {
        0 => contributors_end,
        _ => contributors_end + 4 + 4 * at(contributors_end + 2, 2) as usize,
    };
    let holds = at(ip - 2, 2) == 0x0800
        && (0x45..=0x4f).contains(&at(ip, 1))
        && at(ip + 6, 1) & 0x3f == 0
        && at(ip + 7, 1) == 0
        && at(ip + 9, 1) == 17
        && at(udp + 2, 2) == u64::from(port)
        && (0x80..=0xbf).contains(&at(rtp, 1))
        && end <= frame.len();
    holds.then(|| (at(rtp + 4, 4) as u32, u8::from(at(rtp + 1, 1) >= 128)))
}

fn big_endian(bytes: &[u8]) -> u64 {
    bytes
        .iter()
        .fold(0, |number, byte| number * 256 + u64::from(*byte))
}

// --- the file ---

/// A capture record that was read: where in the file its captured bytes begin
/// and where they end, and the packet that it hands on, or why its frame is
/// skipped.
#[derive(Clone, Copy, Debug, PartialEq, Eq)]
pub struct Record {
    pub begin: usize,
    pub end: usize,
    pub read: Result<(Packet, Carried), Why>,
}

/// The records of a capture up to a refusal by 33, 30, 31 or 32.
#[derive(Clone, Debug, PartialEq, Eq)]
pub struct Records {
    pub records: Vec<Record>,
    pub refusal: Option<Refusal>,
}

/// What the header says: the order of the bytes of a number, and how many
/// nanoseconds one of the sub-second field is.
#[derive(Clone, Copy)]
struct Header {
    big: bool,
    unit: u64,
}

impl Header {
    /// A number of four bytes in the file's order.
    fn number(&self, bytes: &[u8]) -> u64 {
        if self.big {
            big_endian(bytes)
        } else {
            let turned: Vec<u8> = bytes.iter().rev().copied().collect();
            big_endian(&turned)
        }
    }
}

/// 33 and 30 name 0; "31 and 32 name the capture record, from 0".
pub fn records(bytes: &[u8], port: u16, offset: u32) -> Records {
    let mut records = vec![];
    let refusal = read_all(bytes, port, offset, &mut records).err();
    Records { records, refusal }
}

fn read_all(bytes: &[u8], port: u16, offset: u32, into: &mut Vec<Record>) -> Result<(), Refusal> {
    if offset > GREATEST_OFFSET {
        return Err(Refusal::new(33, 0));
    }
    let header = header_of(bytes).ok_or(Refusal::new(30, 0))?;
    let mut from = HEADER;
    while from < bytes.len() {
        let refused = |number| Refusal::new(number, into.len() as u64);
        let (arrival, frame) = record_of(&header, &bytes[from..], offset).map_err(refused)?;
        let begin = from + RECORD_HEADER;
        from = begin + frame.len();
        let read = handed_on(frame, port).map(|carried| {
            let packet = Packet::new(arrival, carried.timestamp, carried.marker);
            (packet, carried)
        });
        into.push(Record {
            begin,
            end: from,
            read,
        });
    }
    Ok(())
}

/// "30 for an unknown magic or link type or a capture shorter than its 24-byte
/// header". The magic tells the order of all that follows, the link type too.
fn header_of(bytes: &[u8]) -> Option<Header> {
    let header = bytes.get(..HEADER)?;
    for big in [true, false] {
        for (magic, unit) in [(MICROSECONDS, 1000), (NANOSECONDS, 1)] {
            let told = Header { big, unit };
            if told.number(&header[..4]) == u64::from(magic) {
                let link = told.number(&header[20..24]);
                return (link == u64::from(ETHERNET)).then_some(told);
            }
        }
    }
    None
}

/// Arrival and captured bytes of the record at the front of `rest`. "31 for a
/// capture record cut short", then "32 for a sub-second field of one second or
/// more", of a frame that is skipped too.
fn record_of<'a>(header: &Header, rest: &'a [u8], offset: u32) -> Result<(u64, &'a [u8]), u8> {
    if rest.len() < RECORD_HEADER {
        return Err(31);
    }
    let (words, behind) = rest.split_at(RECORD_HEADER);
    let word = |place: usize| header.number(&words[4 * place..4 * place + 4]);
    let captured = word(2);
    if (behind.len() as u64) < captured {
        return Err(31);
    }
    let nanoseconds = word(1) * header.unit;
    if nanoseconds >= SECOND {
        return Err(32);
    }
    // Seconds are 32 bits wide, so that the sum and the product have room in 64.
    let arrival = (word(0) + u64::from(offset)) * SECOND + nanoseconds;
    Ok((arrival, &behind[..captured as usize]))
}

// --- the answer ---

/// How far a whole capture was measured. What came before a refusal is kept,
/// since the program prints the rows closed before it.
#[derive(Clone, Debug, PartialEq, Eq)]
pub struct Reading {
    /// Records read before a refusal.
    pub records: Vec<Record>,
    /// None where set-up refuses.
    pub measurement: Option<Measurement>,
    pub refusal: Option<Refusal>,
}

impl Reading {
    /// "Frames [...] are skipped and counted".
    pub fn skipped(&self) -> usize {
        let skipped = self.records.iter().filter(|record| record.read.is_err());
        skipped.count()
    }

    /// Of a whole capture, "the skipped count plus the packets handed on is the
    /// number of capture records read".
    fn counts(&self, measurement: &Measurement) -> [i64; 2] {
        let (read, skipped) = (self.records.len(), self.skipped());
        assert_eq!(skipped as u64 + measurement.packets, read as u64);
        [read as i64, skipped as i64]
    }
}

/// Set-up and a whole capture: 22 of a profile that there is not, 1 to 7, 8, then
/// 33, 30, then record by record 31, 32 and 12 to 14 of the packet handed on. A
/// packet is refused at its own record, so before any record that comes later in
/// the file.
pub fn read(asked: &Asked, bytes: &[u8]) -> Reading {
    let limits = match set_up(asked.edition, &asked.numbers) {
        Ok(limits) => limits,
        Err(number) => {
            return Reading {
                records: vec![],
                measurement: None,
                refusal: Some(Refusal::new(number, 0)),
            }
        }
    };
    let Records {
        mut records,
        mut refusal,
    } = records(bytes, asked.port, asked.offset);
    let mut packets = packets_of(&records);
    if let Some(refused) = first_refused(Past::default(), &packets) {
        let mut handed_on = (0..records.len()).filter(|&place| records[place].read.is_ok());
        let record = handed_on.nth(refused.place as usize);
        records.truncate(record.expect("its packet was refused"));
        packets.truncate(refused.place as usize);
        refusal = Some(refused);
    }
    Reading {
        records,
        measurement: Some(measure_accepted(&limits, &packets)),
        refusal,
    }
}

/// The packets that are handed on.
pub fn packets_of(records: &[Record]) -> Vec<Packet> {
    let read = records.iter().flat_map(|record| record.read.ok());
    read.map(|(packet, _)| packet).collect()
}

/// The parts that a frame need not have, as bits: whether some frame that is
/// handed on has a tag, options, contributors, an extension.
pub fn parts_seen(asked: &Asked, bytes: &[u8]) -> u8 {
    let records = records(bytes, asked.port, asked.offset).records;
    let carried = records.iter().flat_map(|record| record.read.ok());
    let bits = carried.map(|(_, carried)| {
        [
            carried.tagged,
            carried.options,
            carried.contributors,
            carried.extension,
        ]
        .iter()
        .rev()
        .fold(0, |bits, has| 2 * bits + u8::from(*has))
    });
    bits.fold(0, |all, one| all | one)
}

/// The ports to which frames would be handed on, the one with the most first.
pub fn ports(bytes: &[u8]) -> Vec<u16> {
    let mut counts = BTreeMap::new();
    for record in records(bytes, 0, 0).records {
        if let Ok((port, _)) = read_frame(&bytes[record.begin..record.end]) {
            *counts.entry(port).or_insert(0) += 1;
        }
    }
    let mut ports: Vec<u16> = counts.keys().copied().collect();
    ports.sort_by_key(|port| Reverse(counts[port]));
    ports
}

/// What the program prints: the rows and the last line as `vtiming` prints
/// them, where the last line goes on with the records read and skipped; or,
/// after the rows closed before a refusal, its number and place.
pub fn expected_capture_output(asked: &Asked, bytes: &[u8]) -> String {
    let reading = read(asked, bytes);
    let rows = reading.measurement.iter().flat_map(|m| m.rows.iter());
    let mut text: String = rows.map(row_line).collect();
    text.push_str(&match (&reading.refusal, &reading.measurement) {
        (Some(refusal), _) => refusal_line(refusal),
        (None, Some(measurement)) => {
            let [read, skipped] = reading.counts(measurement);
            let line = last_line(measurement);
            format!("{} records {} skipped {}\n", line.trim_end(), read, skipped)
        }
        (None, None) => unreachable!("without a refusal it was set up"),
    });
    text
}

/// The C call with `room` lent bytes: number, place, and the bytes written:
/// eleven numbers, the nine of `vtiming_measure` and the records read and
/// skipped, and then the rows. Too few bytes is 15, "with 15 last"; its place is
/// the call's first packet's, and the history is fresh.
pub fn expected_capture_call(
    asked: &Asked,
    bytes: &[u8],
    room: usize,
) -> (u8, u64, Option<Vec<u8>>) {
    let reading = read(asked, bytes);
    let measurement = match (&reading.refusal, &reading.measurement) {
        (None, Some(measurement)) => measurement,
        (Some(refusal), _) => return (refusal.number, refusal.place, None),
        (None, None) => unreachable!("without a refusal it was set up"),
    };
    let head = [
        &nine_numbers(measurement)[..],
        &reading.counts(measurement)[..],
    ]
    .concat();
    let filled = c_bytes(&head, &measurement.rows);
    if room < filled.len() {
        return (15, 0, None);
    }
    (0, 0, Some(filled))
}

/// One line a record, for comparison with what other programs read out of a
/// capture: its number, and `skipped`, or `packet` with arrival, timestamp and
/// marker. Nothing is measured, so that only 30 to 33 are refused.
pub fn expected_packets(bytes: &[u8], port: u16, offset: u32) -> String {
    let Records { records, refusal } = records(bytes, port, offset);
    let line = |(place, record): (usize, &Record)| match record.read {
        Ok((packet, _)) => format!(
            "{} packet {} {} {}\n",
            place, packet.arrival, packet.timestamp, packet.marker
        ),
        Err(_) => format!("{} skipped\n", place),
    };
    let mut text: String = records.iter().enumerate().map(line).collect();
    text.extend(refusal.iter().map(refusal_line));
    text
}
