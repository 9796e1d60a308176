//! The record file: reading and writing, in both versions, and what class 0 means
//! in each; and the kinds of parameters that choose a profile.

use crate::numbers::{profile_of, set_up, Limits, Numbers, EDITION_1};
use crate::packet::{first_refused, zip, Packet, Past};
use crate::Refusal;

/// Request (viii): "Record files get version byte 2, with the new meaning;
/// version 1 files keep 0 as wide. [...] Both versions are read, the writer
/// writes the one asked for".
pub const VERSIONS: [u8; 2] = [1, 2];
/// "Kind 1, 16 bytes: kind, rate, schedule, class, height (2), n (4), MAXUDP
/// (2), TRO (4; all ones is default)." Request (vii): "a parameter record of kind
/// 3, laid out as kind 1"; request (ix): "a parameter record of kind 4, laid out as
/// kind 1". The kind is the profile's number.
const PARAMETERS_LENGTH: usize = 16;
/// "Kind 2, 14 bytes: kind, arrival (8), timestamp (4), marker."
const PACKET_KIND: u8 = 2;
const PACKET_LENGTH: usize = 14;
const LENGTH_BYTES: usize = 2;
const DEFAULT_TRO: u64 = 0xffff_ffff;

/// How far a reading went. What came before a refusal is kept, since the
/// program prints "the rows closed before a refusal".
#[derive(Clone, Debug, PartialEq, Eq)]
pub struct FileReading {
    /// "Record files carry none: the C call takes it as a number beside the
    /// file". As it was given.
    edition: u32,
    /// 1 or 2; none where 20 is given.
    pub version: Option<u8>,
    /// As they are written.
    pub numbers: Option<Numbers>,
    /// What set-up makes of them in a file of this version, by this edition.
    pub limits: Option<Limits>,
    pub packets: Vec<Packet>,
    pub refusal: Option<Refusal>,
    past: Past,
}

enum Record {
    Parameters(Numbers),
    Packet(Packet),
}

/// "Reading stops at the first record that is refused and gives its offset
/// (0 for 20)".
pub fn read(edition: u32, bytes: &[u8]) -> FileReading {
    let mut reading = FileReading {
        edition,
        version: bytes
            .first()
            .copied()
            .filter(|byte| VERSIONS.contains(byte)),
        numbers: None,
        limits: None,
        packets: Vec::new(),
        refusal: None,
        past: Past::default(),
    };
    reading.refusal = reading.read_all(bytes).err();
    reading
}

/// The version and the records of a file, or number and offset. No edition has a
/// part in it.
pub fn parse(bytes: &[u8]) -> Result<(u8, Numbers, Vec<Packet>), Refusal> {
    let reading = read(EDITION_1, bytes);
    match (reading.refusal, reading.version, reading.numbers) {
        (Some(refusal), _, _) => Err(refusal),
        (None, Some(version), Some(numbers)) => Ok((version, numbers, reading.packets)),
        _ => unreachable!("a file without version or parameters is refused by 20 or 23"),
    }
}

/// Class 0 replaced by the class that it means in a file: "version 1 files keep
/// 0 as wide", and by the new meaning it is "narrow on a gapped schedule and
/// narrow linear on a linear one". Where the schedule is unknown it means
/// nothing, and set-up refuses by 2.
pub fn meant(version: u8, numbers: &Numbers) -> Numbers {
    let class = match (version, numbers.class, numbers.schedule) {
        (1, 0, _) => 3,
        (2, 0, 0) => 1,
        (2, 0, 1) => 2,
        (_, class, _) => class,
    };
    Numbers { class, ..*numbers }
}

/// Set-up of a stream in a file. "Set-up without a file takes the new meaning",
/// so that of version 2 it must come to the same with the numbers as written.
pub fn set_up_in(edition: u32, version: u8, numbers: &Numbers) -> Result<Limits, u8> {
    let limits = set_up(edition, &meant(version, numbers));
    assert!(version != 2 || limits == set_up(edition, numbers));
    limits
}

impl FileReading {
    fn read_all(&mut self, bytes: &[u8]) -> Result<(), Refusal> {
        // "20: file empty", or as request (viii) has it "20 is given, first of
        // all, for a version other than 1 or 2".
        let version = self.version.ok_or(Refusal::new(20, 0))?;
        let mut offset = 1;
        while offset < bytes.len() {
            let length = self
                .read_record(version, &bytes[offset..])
                .map_err(|number| Refusal::new(number, offset as u64))?;
            offset += LENGTH_BYTES + length;
        }
        // "A lone version byte is 23 at offset 1."
        if self.numbers.is_none() {
            return Err(Refusal::new(23, offset as u64));
        }
        Ok(())
    }

    /// One record at the front of `rest`; gives its body's length. "at one
    /// record 21, 22, 23 come in that order, before set-up and packet
    /// refusals."
    fn read_record(&mut self, version: u8, rest: &[u8]) -> Result<usize, u8> {
        let body = body_of(rest).ok_or(21)?;
        match record_of(body).ok_or(22)? {
            Record::Parameters(numbers) => self.take_parameters(version, numbers)?,
            Record::Packet(packet) => self.take_packet(packet)?,
        }
        Ok(body.len())
    }

    /// "23: [...] parameters again", of any kind after any, before set-up
    /// has a word. Set-up gives 8 too, so that a wrong edition is refused where
    /// these parameters would be accepted: at this record, and before any later one
    /// is looked at.
    fn take_parameters(&mut self, version: u8, numbers: Numbers) -> Result<(), u8> {
        if self.numbers.is_some() {
            return Err(23);
        }
        self.limits = Some(set_up_in(self.edition, version, &numbers)?);
        self.numbers = Some(numbers);
        Ok(())
    }

    /// "23: no parameters first", before 11 to 14.
    fn take_packet(&mut self, packet: Packet) -> Result<(), u8> {
        if self.numbers.is_none() {
            return Err(23);
        }
        if let Some(number) = self.past.refuses(&packet) {
            return Err(number);
        }
        self.past = self.past.with(&packet);
        self.packets.push(packet);
        Ok(())
    }
}

/// "21: record cut short, or its length 0". A length field of which only one
/// byte is there is a record cut short too.
fn body_of(rest: &[u8]) -> Option<&[u8]> {
    if rest.len() < LENGTH_BYTES {
        return None;
    }
    let length = big_endian(&rest[..LENGTH_BYTES]) as usize;
    if length == 0 || rest.len() < LENGTH_BYTES + length {
        return None;
    }
    Some(&rest[LENGTH_BYTES..LENGTH_BYTES + length])
}

/// "22: unknown kind, or wrong length for its kind". Request (vii): "22 and 23 read
/// with that kind too", and request (ix): "22 and 23 read with it".
fn record_of(body: &[u8]) -> Option<Record> {
    let parameters = profile_of(u64::from(body[0])).is_some();
    match (body[0], body.len()) {
        (_, PARAMETERS_LENGTH) if parameters => Some(Record::Parameters(numbers_of(body))),
        (PACKET_KIND, PACKET_LENGTH) => Some(Record::Packet(packet_of(body))),
        _ => None,
    }
}

/// "Records keep class 0 and a default TRO as written."
fn numbers_of(body: &[u8]) -> Numbers {
    let tro = big_endian(&body[12..16]);
    Numbers {
        rate: big_endian(&body[1..2]),
        schedule: big_endian(&body[2..3]),
        class: big_endian(&body[3..4]),
        height: big_endian(&body[4..6]),
        packets_per_frame: big_endian(&body[6..10]),
        maxudp: big_endian(&body[10..12]),
        tro: if tro == DEFAULT_TRO { None } else { Some(tro) },
        profile: big_endian(&body[..1]),
    }
}

fn packet_of(body: &[u8]) -> Packet {
    Packet {
        arrival: big_endian(&body[1..9]),
        timestamp: big_endian(&body[9..13]) as u32,
        marker: body[13],
    }
}

/// "All big-endian."
fn big_endian(bytes: &[u8]) -> u64 {
    bytes
        .iter()
        .fold(0, |value, byte| value * 256 + u64::from(*byte))
}

/// The bytes of a file, nothing checked but that each number has room in its
/// field, so that files that are to be refused can be written as well.
pub fn write(version: u8, numbers: &Numbers, packets: &[Packet]) -> Vec<u8> {
    let mut bytes = vec![version];
    bytes.extend(record(&parameters_body(numbers)));
    for packet in packets {
        bytes.extend(record(&packet_body(packet)));
    }
    bytes
}

/// "records: length (two bytes, big-endian, of the body), body".
pub fn record(body: &[u8]) -> Vec<u8> {
    let mut bytes = field(body.len() as u64, LENGTH_BYTES);
    bytes.extend(body);
    bytes
}

pub fn parameters_body(numbers: &Numbers) -> Vec<u8> {
    [
        field(numbers.profile, 1),
        field(numbers.rate, 1),
        field(numbers.schedule, 1),
        field(numbers.class, 1),
        field(numbers.height, 2),
        field(numbers.packets_per_frame, 4),
        field(numbers.maxudp, 2),
        field(tro_field(numbers.tro), 4),
    ]
    .concat()
}

/// "TRO (4; all ones is default)".
pub fn tro_field(tro: Option<u64>) -> u64 {
    tro.unwrap_or(DEFAULT_TRO)
}

pub fn packet_body(packet: &Packet) -> Vec<u8> {
    [
        field(u64::from(PACKET_KIND), 1),
        field(packet.arrival, 8),
        field(u64::from(packet.timestamp), 4),
        field(u64::from(packet.marker), 1),
    ]
    .concat()
}

fn field(value: u64, width: usize) -> Vec<u8> {
    let bytes = value.to_be_bytes();
    let (above, kept) = bytes.split_at(8 - width);
    assert!(above.iter().all(|byte| *byte == 0), "no room in the field");
    kept.to_vec()
}

/// The writer. Request (viii): "20 is given, first of all, for a version other
/// than 1 or 2, by the writer too"; then set-up's 22 for a profile that there is
/// not; then, as document 01 has it, "The writer refuses by 1 to 7, 10 to 14, then
/// 24, and then writes nothing". Places are "0 for 1 to 10 and 24" and for 20 and
/// 22, else the packet's.
pub fn writer(
    version: u8,
    numbers: &Numbers,
    (arrivals, timestamps, markers): (&[u64], &[u32], &[u8]),
    room: usize,
) -> Result<Vec<u8>, Refusal> {
    if !VERSIONS.contains(&version) {
        return Err(Refusal::new(20, 0));
    }
    // "the writer mean[s] edition 1".
    set_up_in(EDITION_1, version, numbers).map_err(|number| Refusal::new(number, 0))?;
    let packets = zip(arrivals, timestamps, markers)?;
    if let Some(refusal) = first_refused(Past::default(), &packets) {
        return Err(refusal);
    }
    let bytes = write(version, numbers, &packets);
    // "24: the writer's lent bytes are fewer than the file needs".
    if room < bytes.len() {
        return Err(Refusal::new(24, 0));
    }
    Ok(bytes)
}
