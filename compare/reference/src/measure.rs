//! The measurement of a whole list: rows and verdict.

use crate::bucket::{bucket, Run};
use crate::frame::{closed_frames, times, Frame, Kind, Times};
use crate::numbers::{set_up, Edition, Limits, Numbers, Profile};
use crate::packet::{first_refused, Packet, Past};
use crate::reads::reading;
use crate::Refusal;

/// "A closed frame writes ten numbers", and request (ii): "Each row gets an
/// eleventh number".
pub const ROW_NUMBERS: usize = 11;
pub type Row = [i64; ROW_NUMBERS];

/// "Network: pass, or burst with first and last packet of the failing run".
#[derive(Clone, Copy, Debug, PartialEq, Eq)]
pub enum Network {
    Pass,
    Burst(Run),
}

/// "Buffer: none (no whole frame yet); pass; under (least below 0) with frame
/// and the lowest j whose packet arrives after read j; over (VRX peak above
/// VRX_FULL) with frame and peak." Request (vi): "Under edition 2 the buffer
/// answer gains a case that names frame and kind; [...] and none means no frame
/// closed." Request (vii): of a compressed stream it "is always none, in test plan
/// edition 2 as well". Of an interlaced one frames are fields, and the lowest j is in
/// the field.
#[derive(Clone, Copy, Debug, PartialEq, Eq)]
pub enum Buffer {
    None,
    Pass,
    Under { frame: u64, packet: u64 },
    Over { frame: u64, peak: i128 },
    Broken { frame: u64, kind: u64 },
}

#[derive(Clone, Debug, PartialEq, Eq)]
pub struct Measurement {
    pub packets: u64,
    pub frames: u64,
    pub peak: i128,
    pub network: Network,
    pub buffer: Buffer,
    pub rows: Vec<Row>,
}

/// Set-up and one list. Set-up's refusals have place 0, a packet's has its
/// place in the list.
pub fn measure(
    edition: u32,
    numbers: &Numbers,
    packets: &[Packet],
) -> Result<Measurement, Refusal> {
    let limits = set_up(edition, numbers).map_err(|number| Refusal::new(number, 0))?;
    match first_refused(Past::default(), packets) {
        Some(refusal) => Err(refusal),
        None => Ok(measure_accepted(&limits, packets)),
    }
}

/// The measurement of packets that are known to be accepted. Every profile "runs
/// the bucket and the frame times".
pub fn measure_accepted(limits: &Limits, packets: &[Packet]) -> Measurement {
    match limits.profile {
        Profile::Video => measured(limits, packets, video),
        Profile::Compressed => measured(limits, packets, compressed),
        Profile::Interlaced => interlaced(limits, packets),
    }
}

/// With the buffer answer and the rows that are made of the closed frames.
fn measured(
    limits: &Limits,
    packets: &[Packet],
    judged: fn(&Limits, &[Frame]) -> (Buffer, Vec<Row>),
) -> Measurement {
    let bucket = bucket(limits, packets);
    let (buffer, rows) = judged(limits, &closed_frames(packets));
    Measurement {
        packets: packets.len() as u64,
        frames: rows.len() as u64,
        peak: bucket.peak,
        network: bucket.burst.map_or(Network::Pass, Network::Burst),
        buffer,
        rows,
    }
}

/// The buffer answer and the rows, with all that the reads say.
fn video(limits: &Limits, frames: &[Frame]) -> (Buffer, Vec<Row>) {
    let judged: Vec<Judged> = frames
        .iter()
        .enumerate()
        .map(|(number, frame)| judge(limits, number, frame))
        .collect();
    let rows = judged.iter().map(|frame| frame.row).collect();
    (buffer_answer(limits, &judged), rows)
}

/// Fields are judged as frames are. And they are the frames of a progressive stream
/// that has twice as many, each of half the length and half the packets: as F/n is
/// the same, reads and drains lie where they did. The limits alone are of the whole
/// frame, and C_MAX and VRX_FULL are left as they are.
fn interlaced(limits: &Limits, packets: &[Packet]) -> Measurement {
    let answer = measured(limits, packets, video);
    let twice_as_many = Limits {
        frame: limits.period.length,
        n: limits.period.packets,
        ..*limits
    };
    assert_eq!(answer, measured(&twice_as_many, packets, video));
    answer
}

/// The same without any reads: "rows with peak and least 0 for whole frames", and
/// no frame is judged. Those of the stream taken for video must be these, once all
/// is left out of them that comes of reads.
fn compressed(limits: &Limits, frames: &[Frame]) -> (Buffer, Vec<Row>) {
    let of_frame = |(number, frame): (usize, &Frame)| match frame.kind(limits.period) {
        Kind::Whole => timed_row(&times(limits, frame), number, frame),
        kind => broken_row(number, kind, frame.place),
    };
    let rows: Vec<Row> = frames.iter().enumerate().map(of_frame).collect();
    let mut as_video = video(limits, frames).1;
    for row in &mut as_video {
        row[PEAK] = 0;
        row[LEAST] = 0;
    }
    assert_eq!(rows, as_video);
    (Buffer::None, rows)
}

/// A frame's row, and "the lowest j whose packet arrives after read j" of a whole
/// one: all that its buffer is judged by.
struct Judged {
    row: Row,
    first_late: Option<u64>,
}

/// Where in a row stand its frame, its kind, VRX peak and VRX least.
const FRAME: usize = 0;
const KIND: usize = 1;
const PEAK: usize = 8;
const LEAST: usize = 9;

/// Frame numbers count broken frames too: each closed frame writes a row with
/// its "frame number from 0".
fn judge(limits: &Limits, number: usize, frame: &Frame) -> Judged {
    let kind = frame.kind(limits.period);
    if kind == Kind::Whole {
        judge_whole(limits, number, frame)
    } else {
        Judged {
            row: broken_row(number, kind, frame.place),
            first_late: None,
        }
    }
}

/// "For kinds 1 to 3 the last seven are 0": of the ten, as request (ii) has the
/// eleventh "filled for broken frames too".
fn broken_row(number: usize, kind: Kind, place: usize) -> Row {
    let (kind, detail) = kind.numbers();
    let (number, place) = (number as i64, place as i64);
    [number, kind, detail, 0, 0, 0, 0, 0, 0, 0, place]
}

/// "frame number from 0; kind; detail [...]; FPT; RTP_OFFSET; VL; margin; GAP;
/// VRX peak; VRX least", and request (ii): "the place in the history of the
/// frame's first packet".
fn judge_whole(limits: &Limits, number: usize, frame: &Frame) -> Judged {
    let times = times(limits, frame);
    let reading = reading(limits, times.t_cf, frame.packets);
    let mut row = timed_row(&times, number, frame);
    row[PEAK] = narrow(reading.peak);
    row[LEAST] = narrow(reading.least);
    Judged {
        row,
        first_late: reading.first_late,
    }
}

/// A whole frame's row where no read is asked: VRX peak and VRX least are 0.
fn timed_row(times: &Times, number: usize, frame: &Frame) -> Row {
    [
        number as i64,
        0,
        0,
        narrow(times.first_packet_time),
        narrow(times.rtp_offset),
        narrow(times.latency),
        narrow(times.margin),
        narrow(times.gap),
        0,
        0,
        frame.place as i64,
    ]
}

fn narrow(value: i128) -> i64 {
    i64::try_from(value).expect("every number of a row has room in 64 bits")
}

/// "The first failing frame decides"; request (vi): "broken or not". Where none
/// fails, the buffer passes if there is a frame that was judged: by edition 1 a
/// whole one, as none means "no whole frame yet"; by edition 2 any closed one.
fn buffer_answer(limits: &Limits, frames: &[Judged]) -> Buffer {
    let judged = |frame: &&Judged| limits.edition == Edition::Two || frame.row[KIND] == 0;
    let of_frame = |frame: &Judged| failure(limits, frame);
    let answer = match frames.iter().find_map(of_frame) {
        Some(failed) => failed,
        None if frames.iter().any(|frame| judged(&frame)) => Buffer::Pass,
        None => Buffer::None,
    };
    assert_eq!(answer, by_ways_to_fail(limits, frames));
    answer
}

/// How a frame fails, if it does. "Judging a broken frame's buffer" is an error
/// of edition 1; by edition 2 "a stream with any broken frame fails its buffer",
/// and nothing else is asked of such a frame. Of a whole one "in one frame under
/// goes first."
fn failure(limits: &Limits, judged: &Judged) -> Option<Buffer> {
    let row = &judged.row;
    let frame = row[FRAME] as u64;
    match (limits.edition, row[KIND]) {
        (Edition::One, 1..=3) => None,
        (Edition::Two, kind @ 1..=3) => Some(Buffer::Broken {
            frame,
            kind: kind as u64,
        }),
        _ if row[LEAST] < 0 => Some(Buffer::Under {
            frame,
            packet: judged.first_late.expect("where the buffer runs dry"),
        }),
        _ if i128::from(row[PEAK]) > limits.vrx_full => Some(Buffer::Over {
            frame,
            peak: i128::from(row[PEAK]),
        }),
        _ => None,
    }
}

/// The same once more, from the first frame that fails in each way: the least of
/// them decides. The peak of a broken frame's row is 0 and no packet of it is late,
/// so that it is neither under nor over; where one frame is both, it is under.
fn by_ways_to_fail(limits: &Limits, frames: &[Judged]) -> Buffer {
    let first = |fails: &dyn Fn(&Judged) -> bool| frames.iter().position(fails);
    let whole = frames.iter().filter(|frame| frame.row[KIND] == 0).count();
    let (broken, judged) = match limits.edition {
        Edition::One => (None, whole),
        Edition::Two => (first(&|frame| frame.row[KIND] != 0), frames.len()),
    };
    let under = first(&|frame| frame.first_late.is_some());
    let over = first(&|frame| i128::from(frame.row[PEAK]) > limits.vrx_full);
    let decides = [broken, under, over].into_iter().flatten().min();
    let at = match decides {
        Some(at) => at,
        None if judged > 0 => return Buffer::Pass,
        None => return Buffer::None,
    };
    let (frame, row) = (at as u64, &frames[at].row);
    if decides == broken {
        let kind = row[KIND] as u64;
        return Buffer::Broken { frame, kind };
    }
    match frames[at].first_late {
        Some(packet) => Buffer::Under { frame, packet },
        None => Buffer::Over {
            frame,
            peak: i128::from(row[PEAK]),
        },
    }
}
