//! What the program prints for a file, and what the C call answers for it.

use crate::measure::{measure_accepted, Buffer, Measurement, Network, Row};
use crate::numbers::EDITION_1;
use crate::record::{read, FileReading};
use crate::Refusal;

/// The whole text on standard output. "It prints `frame` and the ten numbers
/// of each row as it closes, then one last line: packets, frames closed, peak,
/// verdicts [...]; or, after the rows closed before a refusal, `refused`,
/// number, offset." Request (ii): "Printed frame lines and the C call's rows
/// grow by it", the eleventh number. Request (vi): "`vtiming` [...] mean[s]
/// edition 1".
pub fn expected_output(bytes: &[u8]) -> String {
    output_by(EDITION_1, bytes)
}

/// What would be printed by an edition.
pub(crate) fn output_by(edition: u32, bytes: &[u8]) -> String {
    let reading = read(edition, bytes);
    let measurement = measured(&reading);
    let rows = measurement.iter().flat_map(|m| m.rows.iter());
    let mut text: String = rows.map(row_line).collect();
    text.push_str(&match (&reading.refusal, &measurement) {
        (Some(refusal), _) => refusal_line(refusal),
        (None, Some(measurement)) => last_line(measurement),
        (None, None) => unreachable!("a file without parameters is refused by 23"),
    });
    text
}

/// The measurement of what was read before any refusal; none without
/// parameters.
fn measured(reading: &FileReading) -> Option<Measurement> {
    let limits = reading.limits?;
    Some(measure_accepted(&limits, &reading.packets))
}

pub(crate) fn row_line(row: &Row) -> String {
    let numbers: Vec<String> = row.iter().map(|number| number.to_string()).collect();
    format!("frame {}\n", numbers.join(" "))
}

pub(crate) fn refusal_line(refusal: &Refusal) -> String {
    format!("refused {} {}\n", refusal.number, refusal.place)
}

pub(crate) fn last_line(measurement: &Measurement) -> String {
    format!(
        "packets {} frames {} peak {} network {} buffer {}\n",
        measurement.packets,
        measurement.frames,
        measurement.peak,
        network_words(&measurement.network),
        buffer_words(&measurement.buffer),
    )
}

/// "(as `network burst 0 4`, `buffer under 0 3`)".
fn network_words(network: &Network) -> String {
    match network {
        Network::Pass => "pass".to_string(),
        Network::Burst(run) => format!("burst {} {}", run.first, run.last),
    }
}

fn buffer_words(buffer: &Buffer) -> String {
    match buffer {
        Buffer::None => "none".to_string(),
        Buffer::Pass => "pass".to_string(),
        Buffer::Under { frame, packet } => format!("under {} {}", frame, packet),
        Buffer::Over { frame, peak } => format!("over {} {}", frame, peak),
        Buffer::Broken { frame, kind } => format!("broken {} {}", frame, kind),
    }
}

/// The C call on a file by an edition, with `room` lent bytes: number, offset,
/// and the bytes written at the front of the lent ones. "Too few bytes is 15 at the file's
/// length, after all else; refused, it writes nothing. The call returns the
/// number, a twin that writes nothing the offset; both are 0 when accepted."
pub fn expected_c_call(edition: u32, bytes: &[u8], room: usize) -> (u8, u64, Option<Vec<u8>>) {
    let reading = read(edition, bytes);
    if let Some(refusal) = reading.refusal {
        return (refusal.number, refusal.place, None);
    }
    let measurement = measured(&reading).expect("a file without parameters is refused by 23");
    let filled = c_bytes(&nine_numbers(&measurement), &measurement.rows);
    if room < filled.len() {
        return (15, bytes.len() as u64, None);
    }
    (0, 0, Some(filled))
}

/// "nine numbers [...], then the rows"; "Each number is 8 bytes, signed,
/// big-endian." Of a capture more than nine stand in front.
pub(crate) fn c_bytes(head: &[i64], rows: &[Row]) -> Vec<u8> {
    head.iter()
        .chain(rows.iter().flatten())
        .flat_map(|number| number.to_be_bytes())
        .collect()
}

/// "packets, frames, peak; network 0 pass or 1 burst, first, last; buffer 0
/// none, 1 pass, 2 under or 3 over, frame, packet or peak; 0 where there is
/// none". Request (vi): the C call "reports a broken frame as 4 with frame and
/// kind".
pub(crate) fn nine_numbers(measurement: &Measurement) -> [i64; 9] {
    let (network, first, last) = match measurement.network {
        Network::Pass => (0, 0, 0),
        Network::Burst(run) => (1, run.first as i64, run.last as i64),
    };
    let (buffer, frame, place) = match measurement.buffer {
        Buffer::None => (0, 0, 0),
        Buffer::Pass => (1, 0, 0),
        Buffer::Under { frame, packet } => (2, frame as i64, packet as i64),
        Buffer::Over { frame, peak } => (3, frame as i64, peak as i64),
        Buffer::Broken { frame, kind } => (4, frame as i64, kind as i64),
    };
    [
        measurement.packets as i64,
        measurement.frames as i64,
        measurement.peak as i64,
        network,
        first,
        last,
        buffer,
        frame,
        place,
    ]
}
