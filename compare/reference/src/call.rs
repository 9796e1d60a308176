//! One call after an accepted history: the refusals 10 and 15 that a whole
//! list does not show. (9 depends on ranges given outside both documents: `ranges`.)

use crate::measure::{measure_accepted, Measurement, Row, ROW_NUMBERS};
use crate::numbers::{set_up, Numbers};
use crate::packet::{first_refused, zip, Packet, Past};
use crate::Refusal;

/// What an accepted call gives: the measurement of the whole history so far
/// and the rows that this call writes.
#[derive(Clone, Debug, PartialEq, Eq)]
pub struct CallAnswer {
    pub after: Measurement,
    pub rows: Vec<Row>,
}

/// "A call lends three slices of these and a slice of signed 64-bit numbers
/// for rows"; `room` is that slice's length. "Order: 9, 10, then packet by
/// packet 11 to 14, then 15."
pub fn call(
    edition: u32,
    numbers: &Numbers,
    history: &[Packet],
    (arrivals, timestamps, markers): (&[u64], &[u32], &[u8]),
    room: usize,
) -> Result<CallAnswer, Refusal> {
    let limits = set_up(edition, numbers).map_err(|number| Refusal::new(number, 0))?;
    let packets = zip(arrivals, timestamps, markers)?;
    if let Some(refusal) = first_refused(Past::of(history), &packets) {
        return Err(refusal);
    }
    let before = measure_accepted(&limits, history);
    let after = measure_accepted(&limits, &[history, &packets].concat());
    let rows = after.rows[before.rows.len()..].to_vec();
    // "15: fewer than ten row numbers per frame closed in this call", and
    // request (ii): "15 is given below eleven numbers per frame"; its place is
    // "the call's first packet's".
    if room < ROW_NUMBERS * rows.len() {
        return Err(Refusal::new(15, history.len() as u64));
    }
    Ok(CallAnswer { after, rows })
}
