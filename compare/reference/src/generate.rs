//! Test files: record files of streams, whole and damaged, of both versions and
//! of all kinds of parameters.

use std::io;
use std::path::Path;

use crate::numbers::{Numbers, PROFILES};
use crate::packet::Packet;
use crate::random::Random;
use crate::record::{packet_body, parameters_body, record, write, VERSIONS};
use crate::stream::{refused_numbers, stream};

/// Versions that are refused by 20: those beside 1 and 2, and the last.
pub const OTHER_VERSIONS: [u8; 3] = [0, 3, 255];

/// One of these, or any that is neither 1 nor 2.
pub(crate) fn other_version(random: &mut Random) -> u8 {
    let [below, above, last] = OTHER_VERSIONS;
    let any = random.between(i128::from(above), i128::from(last)) as u8;
    random.pick(&[below, above, last, any])
}

/// Editions that are refused by 8: those beside 1 and 2, the last of a byte and
/// the last of all.
pub const OTHER_EDITIONS: [u32; 4] = [0, 3, 255, u32::MAX];

/// Others that are 1 or 2 in fewer bits than an edition has.
pub const LOOKALIKES: [u32; 4] = [257, 258, 65_537, (1 << 31) + 2];

/// One of these, or any that is neither 1 nor 2.
pub(crate) fn other_edition(random: &mut Random) -> u32 {
    let any = random.between(3, i128::from(u32::MAX)) as u32;
    let lookalike = random.pick(&LOOKALIKES);
    let [zero, three, byte, last] = OTHER_EDITIONS;
    random.pick(&[zero, three, byte, last, any, lookalike])
}

/// Profiles that are refused by 22: those beside 1, 3 and 4, of which 2 is the kind of
/// a packet's record and 5 may become a profile, and the last of a byte.
pub const OTHER_PROFILES: [u64; 4] = [0, 2, 5, 255];

/// Others that are 1, 3 or 4 in fewer bits than a byte has.
pub const PROFILE_LOOKALIKES: [u64; 6] = [129, 131, 132, 17, 12, 7];

/// Others that have no room in a byte, and are 1, 3 or 4 in the byte that is left of
/// them: no C call takes one, and a program may be given one.
pub const WIDE_PROFILES: [u64; 5] = [257, 259, 260, 65_537, (1 << 32) + 3];

/// One of those that have room in a byte, or any that is none of 1, 3 and 4.
pub(crate) fn other_profile(random: &mut Random) -> u64 {
    let any = random.between(5, 255) as u64;
    let lookalike = random.pick(&PROFILE_LOOKALIKES);
    let [zero, packets, next, last] = OTHER_PROFILES;
    random.pick(&[zero, packets, next, last, any, lookalike])
}

/// The file with each of these version bytes, everything else the same, if it is
/// of version 1 or 2. Any other is refused by 20 as it is, and stays alone.
pub fn under(versions: &[u8], file: &[u8]) -> Vec<Vec<u8>> {
    with_each(0, &VERSIONS, versions, file)
}

/// Where the kind of a file's first record stands: after the version and two bytes
/// of length.
pub const FIRST_KIND: usize = 3;

/// The file with its first record as each of these kinds of parameters, everything
/// else the same, if its kind is one of them, whatever its length. Any other stays
/// alone.
pub fn as_profiles(profiles: &[u64], file: &[u8]) -> Vec<Vec<u8>> {
    let kinds: Vec<u8> = profiles.iter().map(|profile| *profile as u8).collect();
    with_each(FIRST_KIND, &PROFILES.map(|kind| kind as u8), &kinds, file)
}

/// The file with each of these bytes at a place, if one of the known ones is there.
fn with_each(place: usize, known: &[u8], bytes: &[u8], file: &[u8]) -> Vec<Vec<u8>> {
    let with = |byte: &u8| [&file[..place], &[*byte], &file[place + 1..]].concat();
    match file.get(place) {
        Some(own) if known.contains(own) => bytes.iter().map(with).collect(),
        _ => vec![file.to_vec()],
    }
}

/// File `index` of a seed, of one version or the other and of any profile.
pub fn file(seed: u64, index: u64) -> Vec<u8> {
    let mut random = Random::new(seed, index);
    match random.below(100) {
        0 => vec![],
        1..=2 => front(&mut random),
        3..=4 => random_bytes(&mut random),
        5..=12 => refused_set_up(&mut random),
        13..=38 => damaged(&mut random),
        _ => {
            let (numbers, packets) = stream(&mut random);
            written(&mut random, &numbers, &packets)
        }
    }
}

fn version(random: &mut Random) -> u8 {
    random.pick(&VERSIONS)
}

/// The same stream as any profile.
fn of_any(random: &mut Random, numbers: &Numbers) -> Numbers {
    numbers.of(random.pick(&PROFILES))
}

fn written(random: &mut Random, numbers: &Numbers, packets: &[Packet]) -> Vec<u8> {
    let numbers = of_any(random, numbers);
    write(version(random), &numbers, packets)
}

/// Writes `count` files `NNNNNN.rec`.
pub fn generate(seed: u64, count: u64, directory: &Path) -> io::Result<()> {
    std::fs::create_dir_all(directory)?;
    for index in 0..count {
        let name = format!("{:06}.rec", index);
        std::fs::write(directory.join(name), file(seed, index))?;
    }
    Ok(())
}

/// A file cut off within its first bytes; the version byte alone is one.
pub(crate) fn front(random: &mut Random) -> Vec<u8> {
    let (numbers, packets) = stream(random);
    let mut bytes = written(random, &numbers, &packets);
    bytes.truncate(random.pick(&[1, 1, 2, 3, 4, 18, 19]));
    bytes
}

/// Half of them with a version byte that there is, so that they get past 20.
pub(crate) fn random_bytes(random: &mut Random) -> Vec<u8> {
    let length = 1 + random.place(80);
    let mut bytes: Vec<u8> = (0..length).map(|_| random.bits() as u8).collect();
    if random.chance(50) {
        bytes[0] = version(random);
    }
    bytes
}

fn refused_set_up(random: &mut Random) -> Vec<u8> {
    let numbers = refused_numbers(random);
    let packets = if random.chance(50) {
        vec![Packet::new(1_000, 0, 1), Packet::new(2_000, 0, 1)]
    } else {
        vec![]
    };
    written(random, &numbers, &packets)
}

/// A file as its records, so that damage can be aimed at one of them.
struct Pieces {
    version: u8,
    records: Vec<Vec<u8>>,
}

impl Pieces {
    fn of(version: u8, numbers: &Numbers, packets: &[Packet]) -> Pieces {
        let mut records = vec![record(&parameters_body(numbers))];
        records.extend(packets.iter().map(|packet| record(&packet_body(packet))));
        Pieces { version, records }
    }

    fn bytes(&self) -> Vec<u8> {
        let mut bytes = vec![self.version];
        bytes.extend(self.records.concat());
        bytes
    }

    /// The first records are hit more often, the parameters among them.
    fn any(&self, random: &mut Random) -> usize {
        let few = self.records.len().min(4);
        if random.chance(40) {
            random.place(few)
        } else {
            random.place(self.records.len())
        }
    }
}

pub(crate) fn damaged(random: &mut Random) -> Vec<u8> {
    let (numbers, mut packets) = stream(random);
    packets.truncate(600);
    let numbers = of_any(random, &numbers);
    let mut pieces = Pieces::of(version(random), &numbers, &packets);
    match random.below(14) {
        0 => zero_length(random, &mut pieces),
        1 => other_length(random, &mut pieces),
        2 | 9 => resized_body(random, &mut pieces),
        3 => other_kind(random, &mut pieces),
        4 => swapped_kind(random, &mut pieces),
        5 => pieces.version = other_version(random),
        6 => second_parameters(random, &mut pieces, &numbers),
        7 => packets_first(random, &mut pieces),
        8 => inserted(random, &mut pieces),
        _ => {}
    }
    damaged_bytes(random, pieces.bytes())
}

fn set_length(record: &mut [u8], length: usize) {
    record[..2].copy_from_slice(&(length as u16).to_be_bytes());
}

fn zero_length(random: &mut Random, pieces: &mut Pieces) {
    let place = pieces.any(random);
    set_length(&mut pieces.records[place], 0);
}

/// The field alone is changed: what follows is then read out of step, or the
/// file ends too soon. The lengths of both kinds are among them.
fn other_length(random: &mut Random, pieces: &mut Pieces) {
    let place = pieces.any(random);
    let rest: usize = pieces.records[place..].iter().map(|r| r.len()).sum();
    let to_the_end = (rest - 2).min(65_535);
    let beyond = (rest - 1).min(65_535);
    let length = random.pick(&[1, 13, 14, 15, 16, 17, 256, 65_535, to_the_end, beyond]);
    set_length(&mut pieces.records[place], length);
}

/// Field and body grow or shrink together: 22, or 21 when nothing is left.
fn resized_body(random: &mut Random, pieces: &mut Pieces) {
    let place = pieces.any(random);
    let body = pieces.records[place].len() - 2;
    let any = random.place(40);
    let size = random.pick(&[0, 1, body - 1, body + 1, 14, 16, any]);
    let changed = &mut pieces.records[place];
    changed.resize(2 + size, 0);
    set_length(changed, size);
}

fn other_kind(random: &mut Random, pieces: &mut Pieces) {
    let place = pieces.any(random);
    pieces.records[place][2] = random.pick(&[0, 5, 6, 255]);
}

/// A kind that is known, on a body of another's length.
fn swapped_kind(random: &mut Random, pieces: &mut Pieces) {
    let place = pieces.any(random);
    let kind = &mut pieces.records[place][2];
    *kind = match *kind {
        2 => random.pick(&PROFILES) as u8,
        _ => 2,
    };
}

/// Parameters again, at once or later: the same ones, or ones that set-up would
/// refuse; of the same kind or of another.
fn second_parameters(random: &mut Random, pieces: &mut Pieces, numbers: &Numbers) {
    let again = if random.chance(50) {
        *numbers
    } else {
        refused_numbers(random)
    };
    let again = of_any(random, &again);
    let later = 1 + random.place(pieces.records.len());
    let place = random.pick(&[1, later]);
    pieces
        .records
        .insert(place, record(&parameters_body(&again)));
}

/// Parameters later, or not at all; the packet in front may itself be one that
/// would be refused.
fn packets_first(random: &mut Random, pieces: &mut Pieces) {
    let parameters = pieces.records.remove(0);
    if pieces.records.is_empty() || random.chance(60) {
        let packet = Packet::new(random.bits(), 0, random.pick(&[0, 1, 2, 2]));
        pieces.records.insert(0, record(&packet_body(&packet)));
    }
    if random.chance(60) {
        let place = 1 + random.place(pieces.records.len());
        pieces.records.insert(place, parameters);
    }
}

/// A record of an unknown kind, or of a known one and the wrong length.
fn inserted(random: &mut Random, pieces: &mut Pieces) {
    let place = random.place(pieces.records.len() + 1);
    let length = random.pick(&[1, 2, 14, 16, 300, 65_535]);
    let mut body = vec![0; length];
    body[0] = random.pick(&[0, 1, 2, 3, 4, 5, 200]);
    pieces.records.insert(place, record(&body));
}

fn damaged_bytes(random: &mut Random, mut bytes: Vec<u8>) -> Vec<u8> {
    match random.below(10) {
        0..=1 => bytes.truncate(random.place(bytes.len())),
        2 => bytes.truncate(random.place(bytes.len().min(40))),
        3..=4 => flip(random, &mut bytes),
        5 => bytes.extend(vec![random.pick(&[0, 1, 255]); 1 + random.place(3)]),
        _ => {}
    }
    bytes
}

pub(crate) fn flip(random: &mut Random, bytes: &mut [u8]) {
    for _ in 0..=random.below(4) {
        let reach = random.pick(&[bytes.len(), bytes.len().min(60)]);
        let place = random.place(reach);
        bytes[place] ^= 1 << random.below(8);
    }
}
