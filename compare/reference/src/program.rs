//! Runs `vtiming` on files and `vcapture` on captures, whole and in pieces, and
//! holds what they print against what documents 01 and 02 ask for.

use std::collections::BTreeMap;
use std::fs::File;
use std::io::{self, Read, Write};
use std::os::unix::io::AsRawFd;
use std::path::{Path, PathBuf};
use std::process::{Child, ChildStdin, Command, Stdio};
use std::sync::atomic::{AtomicUsize, Ordering};
use std::sync::{Arc, Mutex};
use std::time::{Duration, Instant};

use crate::capture::{self, expected_capture_output, Asked};
use crate::cases::{captures, class_0_streams, edition_streams};
use crate::generate::{as_profiles, file, under, FIRST_KIND};
use crate::generate::{OTHER_EDITIONS, OTHER_PROFILES, WIDE_PROFILES};
use crate::numbers::{set_up, Numbers, EDITIONS, EDITION_1, EDITION_2};
use crate::numbers::{COMPRESSED, INTERLACED, PROFILES, VIDEO};
use crate::output::{expected_output, output_by};
use crate::record::{packet_body, parameters_body, read, record, write, VERSIONS};
use crate::traffic;

/// No file takes the program near as long; one that does has stopped it.
const LONGEST: Duration = Duration::from_secs(120);
/// A row that has closed is out long before.
const LONGEST_FOR_A_ROW: Duration = Duration::from_secs(if cfg!(test) { 1 } else { 10 });
const AT_ONCE: usize = 2;

/// What a program is run on.
pub struct Input {
    pub name: String,
    pub bytes: Vec<u8>,
    pub what: What,
}

/// A record file, or a capture with what is asked of it.
#[derive(Clone, Copy, Debug, PartialEq, Eq)]
pub enum What {
    RecordFile,
    Capture(Asked),
}

impl Input {
    /// The words that the program is called with.
    fn words(&self) -> Vec<String> {
        match self.what {
            What::RecordFile => vec![],
            What::Capture(asked) => asked.words(),
        }
    }

    fn wanted(&self) -> String {
        match &self.what {
            What::RecordFile => expected_output(&self.bytes),
            What::Capture(asked) => expected_capture_output(asked, &self.bytes),
        }
    }

    /// What its last line says, and whether that shows what class 0 means, by which
    /// edition it was measured and as which profile.
    fn outcomes(&self) -> Vec<String> {
        let own = outcomes(&self.wanted());
        let others = [
            self.class_0_meant_otherwise(),
            self.by_the_other_edition(),
            self.as_another_profile(),
        ];
        let shown = others.into_iter().flatten();
        let shown = shown.filter(|(_, text)| outcomes(text) != own);
        let names: Vec<String> = shown.map(|(name, _)| name.to_string()).collect();
        own.into_iter().chain(names).collect()
    }

    /// The edition by which it is measured, and the text that would come by the
    /// other one. Of a record file edition 1 is meant.
    fn by_the_other_edition(&self) -> Option<(&'static str, String)> {
        match &self.what {
            What::RecordFile => Some(("by edition 1", output_by(EDITION_2, &self.bytes))),
            What::Capture(asked) => {
                let (name, other) = match asked.edition {
                    EDITION_1 => ("by edition 1", EDITION_2),
                    EDITION_2 => ("by edition 2", EDITION_1),
                    _ => return None,
                };
                let text = expected_capture_output(&asked.by(other), &self.bytes);
                Some((name, text))
            }
        }
    }

    /// The profile as which it is measured, and the text that would come as another
    /// one. As interlaced it may be refused where it is not as video.
    fn as_another_profile(&self) -> Option<(&'static str, String)> {
        let own = match &self.what {
            What::RecordFile => u64::from(*self.bytes.get(FIRST_KIND)?),
            What::Capture(asked) => asked.numbers.profile,
        };
        let refused = self.wanted().contains("refused ");
        let (name, other) = match own {
            VIDEO => ("as video", COMPRESSED),
            COMPRESSED => ("as compressed", VIDEO),
            INTERLACED if refused => ("refused as interlaced alone", VIDEO),
            INTERLACED => ("as interlaced", VIDEO),
            _ => return None,
        };
        let text = match &self.what {
            What::RecordFile => expected_output(&as_profiles(&[other], &self.bytes)[0]),
            What::Capture(asked) => expected_capture_output(&asked.of(other), &self.bytes),
        };
        Some((name, text))
    }

    /// Of an input of class 0, what that means there, and the text that would
    /// come of the other meaning: of a file, its text in the other version.
    fn class_0_meant_otherwise(&self) -> Option<(&'static str, String)> {
        match &self.what {
            What::RecordFile => {
                let reading = read(EDITION_1, &self.bytes);
                reading.numbers.filter(|numbers| numbers.class == 0)?;
                let (name, other) = match reading.version? {
                    1 => ("class 0 as wide", 2),
                    _ => ("class 0 as strict", 1),
                };
                let file = [&[other], &self.bytes[1..]].concat();
                Some((name, expected_output(&file)))
            }
            What::Capture(asked) if asked.numbers.class == 0 => {
                let mut wide = *asked;
                wide.numbers.class = 3;
                let text = expected_capture_output(&wide, &self.bytes);
                Some(("class 0 as strict", text))
            }
            What::Capture(_) => None,
        }
    }

    /// Where each packet that is accepted ends, and its marker.
    fn packet_ends(&self) -> Vec<(usize, u8)> {
        match &self.what {
            What::RecordFile => record_ends(&self.bytes),
            What::Capture(asked) => {
                let records = capture::read(asked, &self.bytes).records;
                let handed_on = records
                    .iter()
                    .flat_map(|record| record.read.map(|(packet, _)| (record.end, packet.marker)));
                handed_on.collect()
            }
        }
    }

    /// The longest that goes in row by row: each row costs a turn of both
    /// processes. A packet is longer in a capture.
    fn short(&self) -> bool {
        let longest = match self.what {
            What::RecordFile => 1500,
            What::Capture(_) => 4000,
        };
        self.bytes.len() <= longest
    }

    fn keep(&self, directory: &Path) -> io::Result<PathBuf> {
        let suffix = match self.what {
            What::RecordFile => "rec",
            What::Capture(_) => "pcap",
        };
        let kept = directory.join("first").with_extension(suffix);
        std::fs::write(&kept, &self.bytes)?;
        if let What::Capture(_) = self.what {
            std::fs::write(kept.with_extension("words"), self.words().join(" ") + "\n")?;
        }
        Ok(kept)
    }
}

fn record_ends(bytes: &[u8]) -> Vec<(usize, u8)> {
    let reading = read(EDITION_1, bytes);
    let mut end = match reading.numbers {
        Some(numbers) => 1 + record(&parameters_body(&numbers)).len(),
        None => return vec![],
    };
    let ends = reading.packets.iter().map(|packet| {
        end += record(&packet_body(packet)).len();
        (end, packet.marker)
    });
    ends.collect()
}

/// What is told at the end, and whether all was the same.
pub struct Told {
    pub text: String,
    pub same: bool,
}

/// Generated files of the seed and some fixed ones, in both versions and as every
/// profile, and every `.rec` file of the directory as it is.
pub fn inputs(seed: u64, count: u64, directory: &Path) -> io::Result<Vec<Input>> {
    let mut inputs = vec![];
    for index in 0..count {
        let name = format!("file {} of seed {}", index, seed);
        inputs.extend(as_each_profile(index, &name, &file(seed, index)));
    }
    // So that what class 0 means shows, whatever the seed.
    for (place, (numbers, packets)) in class_0_streams().iter().enumerate() {
        let file = write(VERSIONS[0], numbers, packets);
        // As each profile in each version.
        for turn in 0..2 {
            let name = format!("fixed file {}", place);
            inputs.extend(as_each_profile(turn, &name, &file));
        }
    }
    // So that it shows that edition 1 is meant, and as compressed nothing of it: fields
    // as interlaced, frames as the others.
    for (place, (numbers, packets)) in edition_streams().iter().enumerate() {
        let fields = set_up(EDITION_1, &numbers.of(INTERLACED)).is_ok();
        let profiles = PROFILES.into_iter();
        let own = profiles.filter(|profile| fields == (*profile == INTERLACED));
        inputs.extend(own.map(|profile| Input {
            name: format!("fixed file {} of the editions, kind {}", place, profile),
            bytes: write(VERSIONS[1], &numbers.of(profile), packets),
            what: What::RecordFile,
        }));
    }
    for path in files_of(directory, "rec")? {
        inputs.push(Input {
            name: path.display().to_string(),
            bytes: std::fs::read(&path)?,
            what: What::RecordFile,
        });
    }
    Ok(inputs)
}

/// As each profile, in one version or the other, which takes turns; a file whose first
/// record is no parameters in each version, and one that is of no version as it is.
fn as_each_profile(turn: u64, name: &str, file: &[u8]) -> Vec<Input> {
    let named = |bytes: &[u8]| match bytes {
        [version, _, _, kind, ..] => format!("{}, version {}, kind {}", name, version, kind),
        _ => name.to_string(),
    };
    let versions = under(&VERSIONS, file);
    let known = as_profiles(&PROFILES, file).len();
    let turns = versions.iter().cycle().skip(turn as usize % 2);
    let inputs = turns
        .zip(PROFILES)
        .take(known.max(versions.len()))
        .map(|(file, profile)| {
            let bytes = as_profiles(&[profile], file).concat();
            Input {
                name: named(&bytes),
                bytes,
                what: What::RecordFile,
            }
        });
    inputs.collect()
}

/// Generated captures of the seed, some fixed ones, and every `.pcap` file of
/// the directories.
pub fn capture_inputs(seed: u64, count: u64, directories: &[&Path]) -> io::Result<Vec<Input>> {
    let mut inputs: Vec<Input> = (0..count)
        .map(|index| {
            let (asked, bytes) = traffic::capture(seed, index);
            Input {
                name: format!("capture {} of seed {}", index, seed),
                bytes,
                what: What::Capture(asked),
            }
        })
        .collect();
    inputs.extend(worth_running());
    for directory in directories {
        for path in files_of(directory, "pcap")? {
            let bytes = std::fs::read(&path)?;
            inputs.extend(asked_of(&bytes).into_iter().map(|asked| Input {
                name: format!("{} {}", path.display(), asked.words().join(" ")),
                bytes: bytes.clone(),
                what: What::Capture(asked),
            }));
        }
    }
    Ok(inputs)
}

/// Each edition as each profile, others as video, and profiles that there are not by
/// edition 1.
fn by_all() -> Vec<(u32, u64)> {
    let editions = [&EDITIONS[..], &OTHER_EDITIONS].concat();
    let mut all: Vec<(u32, u64)> = editions.into_iter().map(|e| (e, VIDEO)).collect();
    for profile in [COMPRESSED, INTERLACED] {
        all.extend(EDITIONS.map(|edition| (edition, profile)));
    }
    let profiles = [&OTHER_PROFILES[..], &WIDE_PROFILES].concat();
    all.extend(profiles.into_iter().map(|profile| (EDITION_1, profile)));
    all
}

/// Of the fixed captures, by each edition and as each profile, those that reach an
/// outcome which none before them reached by that edition as that profile, so that no
/// outcome depends on the seed; and those with a frame that no pipe holds at once.
fn worth_running() -> Vec<Input> {
    let mut reached = BTreeMap::new();
    let mut kept = vec![];
    for (place, (asked, bytes)) in captures().into_iter().enumerate() {
        for by in by_all() {
            let (edition, profile) = by;
            let input = Input {
                name: format!(
                    "fixed capture {} by edition {}, kind {}",
                    place, edition, profile
                ),
                bytes: bytes.clone(),
                what: What::Capture(asked.by(edition).of(profile)),
            };
            let outcomes = input.outcomes().into_iter();
            let outcomes: Vec<_> = outcomes.map(|outcome| (by, outcome)).collect();
            let new = outcomes
                .iter()
                .any(|outcome| !reached.contains_key(outcome));
            if new || (by == (EDITION_1, VIDEO) && bytes.len() > 1 << 17) {
                reached.extend(outcomes.into_iter().map(|outcome| (outcome, place)));
                kept.push(input);
            }
        }
    }
    kept
}

fn files_of(directory: &Path, suffix: &str) -> io::Result<Vec<PathBuf>> {
    let mut paths: Vec<PathBuf> = std::fs::read_dir(directory)?
        .map(|entry| entry.map(|entry| entry.path()))
        .collect::<io::Result<_>>()?;
    paths.retain(|path| path.extension().map_or(false, |end| end == suffix));
    paths.sort();
    Ok(paths)
}

/// A file does not say what is to be asked of it: the ports to which it has the
/// most packets, and one to which it has none, each with so many packets a frame
/// as the last frame has that closes there, or twice as many where that is a field;
/// as each profile once, by one edition or the other, which takes turns.
fn asked_of(bytes: &[u8]) -> Vec<Asked> {
    let ports = capture::ports(bytes);
    let silent = (1..=u16::MAX).find(|port| !ports.contains(port));
    let mut all = vec![];
    for (turn, port) in ports.into_iter().take(3).chain(silent).enumerate() {
        let packets = capture::packets_of(&capture::records(bytes, port, 0).records);
        let frames = packets.split_inclusive(|packet| packet.marker == 1);
        let counts: Vec<usize> = frames.map(|frame| frame.len()).collect();
        let last = counts.iter().rev().nth(1).copied().unwrap_or(4);
        let editions = EDITIONS.into_iter().cycle().skip(turn);
        let by = PROFILES.into_iter().zip(editions);
        for ((profile, edition), (offset, rate, schedule, class)) in
            by.zip([(37, 6, 0, 1), (0, 3, 1, 3), (37, 5, 0, 0)])
        {
            let (fields, tro) = match profile {
                INTERLACED => (2, Some(700)),
                _ => (1, None),
            };
            let numbers = Numbers {
                rate,
                schedule,
                class,
                height: 1080,
                packets_per_frame: fields * last as u64,
                maxudp: 1460,
                tro,
                profile,
            };
            all.push(Asked {
                port,
                offset,
                numbers,
                edition,
            });
        }
    }
    all
}

/// How a file reaches the program.
#[derive(Clone, Copy, Debug, PartialEq, Eq)]
pub enum Way {
    /// As a file that is its standard input.
    Whole,
    /// Through a pipe, each piece once the one before it has been read. The
    /// sizes are used again and again.
    Pieces(&'static [usize]),
    /// Through a pipe, up to the end of each marker packet; the rest is held
    /// back until the rows closed so far have come out: the program "prints
    /// `frame` and the ten numbers of each row as it closes", by request (ii)
    /// eleven. A packet of a capture ends with its captured bytes.
    Live,
}

const BYTES: &[usize] = &[1];
const SMALL: &[usize] = &[1, 2, 3, 7, 17];
const MIXED: &[usize] = &[3, 1, 4097, 17, 65_537, 2, 511, 7, 8191];

/// The shorter the file, the smaller its pieces: each costs a turn of both
/// processes.
pub fn pieces_for(length: usize) -> Way {
    Way::Pieces(match length {
        0..=400 => BYTES,
        401..=4000 => SMALL,
        _ => MIXED,
    })
}

/// Every way for a file. Row by row for short ones that close a frame.
fn ways(input: &Input, text: &str) -> Vec<Way> {
    let mut ways = vec![Way::Whole, pieces_for(input.bytes.len())];
    if input.short() && text.starts_with("frame ") {
        ways.push(Way::Live);
    }
    ways
}

/// Where each marker packet that is accepted ends, and how much text the rows
/// closed by then make: the first marker ends the lead-in, each one after it
/// closes a row.
fn row_ends(input: &Input) -> Vec<(usize, usize)> {
    let text = input.wanted();
    let rows = text.lines().filter(|line| line.starts_with("frame "));
    let mut so_far = 0;
    let lengths = rows.map(|line| {
        so_far += line.len() + 1;
        so_far
    });
    let ends = input.packet_ends().into_iter();
    let marked = ends.filter(|(_, marker)| *marker == 1).map(|(end, _)| end);
    marked.zip(std::iter::once(0).chain(lengths)).collect()
}

/// Every file in each of its ways, two programs at a time. All of the outcomes
/// must be seen.
pub fn run_all(
    inputs: &[Input],
    command: &[&str],
    keep: &Path,
    outcomes: &[&str],
) -> io::Result<Told> {
    let next = AtomicUsize::new(0);
    let tally = Mutex::new(Tally::default());
    std::thread::scope(|scope| {
        let workers: Vec<_> = (0..AT_ONCE)
            .map(|worker| {
                let (next, tally) = (&next, &tally);
                scope.spawn(move || -> io::Result<()> {
                    let scratch = keep.join(format!("worker-{}.input", worker));
                    loop {
                        let at = next.fetch_add(1, Ordering::Relaxed);
                        let stopped = tally.lock().unwrap().first.is_some();
                        match inputs.get(at) {
                            Some(input) if !stopped => {
                                try_file(at, input, command, &scratch, tally)?;
                            }
                            _ => break,
                        }
                    }
                    std::fs::remove_file(&scratch).or(Ok(()))
                })
            })
            .collect();
        workers
            .into_iter()
            .try_for_each(|worker| worker.join().expect("a worker does not panic"))
    })?;
    let tally = tally.into_inner().unwrap();
    match tally.first {
        Some((input, difference)) => difference.told(&inputs[input], keep),
        None => Ok(tally.told(outcomes)),
    }
}

#[derive(Default)]
struct Tally {
    runs: BTreeMap<&'static str, u64>,
    last_lines: BTreeMap<String, u64>,
    /// Which input it was, and what differs.
    first: Option<(usize, Difference)>,
}

struct Difference {
    way: Way,
    wanted: String,
    got: String,
}

fn try_file(
    at: usize,
    input: &Input,
    command: &[&str],
    scratch: &Path,
    tally: &Mutex<Tally>,
) -> io::Result<()> {
    let wanted = input.wanted();
    for way in ways(input, &wanted) {
        let got = run(input, way, command, scratch)?;
        let mut tally = tally.lock().unwrap();
        *tally.runs.entry(way.name()).or_default() += 1;
        if got == wanted {
            continue;
        }
        let difference = Difference { way, wanted, got };
        tally.first.get_or_insert((at, difference));
        return Ok(());
    }
    for outcome in input.outcomes() {
        *tally.lock().unwrap().last_lines.entry(outcome).or_default() += 1;
    }
    Ok(())
}

/// The answers of a last line, a broken frame's with its kind, or its refusal
/// number.
fn outcomes(text: &str) -> Vec<String> {
    let last = text.lines().last().unwrap_or("");
    let words: Vec<&str> = last.split(' ').collect();
    if words[0] == "refused" {
        return vec![format!("refused {:0>2}", words[1])];
    }
    ["network", "buffer"]
        .iter()
        .map(|what| {
            let place = words.iter().position(|word| word == what);
            let at = place.map_or(0, |at| at + 1);
            match words[at] {
                "broken" => format!("{} broken {}", what, words[at + 2]),
                answer => format!("{} {}", what, answer),
            }
        })
        .collect()
}

impl Way {
    fn name(&self) -> &'static str {
        match self {
            Way::Whole => "whole",
            Way::Pieces(_) => "in pieces",
            Way::Live => "row by row",
        }
    }
}

/// What the program prints; any way in which it does not end well is part of
/// the text, and so a difference.
pub fn run(input: &Input, way: Way, command: &[&str], scratch: &Path) -> io::Result<String> {
    let bytes = &input.bytes[..];
    let stdin = match way {
        Way::Whole => {
            std::fs::write(scratch, bytes)?;
            Stdio::from(File::open(scratch)?)
        }
        Way::Pieces(_) | Way::Live => Stdio::piped(),
    };
    let mut child = Command::new(command[0])
        .args(&command[1..])
        .args(input.words())
        .stdin(stdin)
        .stdout(Stdio::piped())
        .stderr(Stdio::piped())
        .spawn()?;
    let began = Instant::now();
    let printed = Collected::of(child.stdout.take().expect("piped"));
    let said = Collected::of(child.stderr.take().expect("piped"));
    let fault = match (way, child.stdin.take()) {
        (Way::Pieces(sizes), Some(pipe)) => feed(&mut child, pipe, bytes, sizes, began)?,
        (Way::Live, Some(pipe)) => feed_rows(&mut child, pipe, input, &printed)?,
        _ => None,
    };
    let fault = match fault {
        None if !ends(&mut child, began)? => Some(ENDLESS),
        other => other,
    };
    if fault.is_some() {
        child.kill()?;
    }
    let status = child.wait()?;
    let mut text = printed.text()?;
    let said = said.text()?;
    if let Some(fault) = fault {
        text.push_str(&format!("({})\n", fault));
    } else if !status.success() || !said.is_empty() {
        text.push_str(&format!("(it ended with {}, saying: {})\n", status, said));
    }
    Ok(text)
}

const ENDLESS: &str = "it did not end";
const HELD_BACK: &str = "it held back a row that had closed";

/// What comes out of a pipe, as it comes.
struct Collected {
    bytes: Arc<Mutex<Vec<u8>>>,
    reader: std::thread::JoinHandle<io::Result<()>>,
}

impl Collected {
    fn of(mut from: impl Read + Send + 'static) -> Collected {
        let bytes = Arc::new(Mutex::new(vec![]));
        let filled = bytes.clone();
        let reader = std::thread::spawn(move || {
            let mut piece = [0; 1 << 16];
            loop {
                match from.read(&mut piece)? {
                    0 => return Ok(()),
                    count => filled.lock().unwrap().extend(&piece[..count]),
                }
            }
        });
        Collected { bytes, reader }
    }

    fn count(&self) -> usize {
        self.bytes.lock().unwrap().len()
    }

    fn text(self) -> io::Result<String> {
        self.reader.join().expect("a reader does not panic")?;
        let bytes = self.bytes.lock().unwrap();
        Ok(String::from_utf8_lossy(&bytes).into_owned())
    }
}

fn ends(child: &mut Child, began: Instant) -> io::Result<bool> {
    let mut pause = 50;
    while child.try_wait()?.is_none() {
        if began.elapsed() > LONGEST {
            return Ok(false);
        }
        std::thread::sleep(Duration::from_micros(pause));
        pause = (pause * 2).min(2000);
    }
    Ok(true)
}

/// Writes the pieces. A pipe joins what is written before it is read, so each
/// piece waits until the pipe is empty. A program that has seen enough closes
/// its end; what is left then has no reader, which is no fault.
fn feed(
    child: &mut Child,
    mut pipe: ChildStdin,
    bytes: &[u8],
    sizes: &[usize],
    began: Instant,
) -> io::Result<Option<&'static str>> {
    let mut rest = bytes;
    for size in sizes.iter().cycle() {
        let (piece, after) = rest.split_at((*size).min(rest.len()));
        if piece.is_empty() || !taken(&mut pipe, piece)? {
            break;
        }
        while unread(&pipe)? > 0 {
            if child.try_wait()?.is_some() {
                return Ok(None);
            }
            if began.elapsed() > LONGEST {
                return Ok(Some(ENDLESS));
            }
            std::thread::yield_now();
        }
        rest = after;
    }
    Ok(None)
}

/// Writes up to the end of each row, and waits for that row.
fn feed_rows(
    child: &mut Child,
    mut pipe: ChildStdin,
    input: &Input,
    printed: &Collected,
) -> io::Result<Option<&'static str>> {
    let bytes = &input.bytes;
    let mut from = 0;
    for (end, wanted) in row_ends(input) {
        if !taken(&mut pipe, &bytes[from..end])? {
            return Ok(None);
        }
        from = end;
        let began = Instant::now();
        while printed.count() < wanted && child.try_wait()?.is_none() {
            if began.elapsed() > LONGEST_FOR_A_ROW {
                return Ok(Some(HELD_BACK));
            }
            std::thread::sleep(Duration::from_micros(50));
        }
    }
    taken(&mut pipe, &bytes[from..])?;
    Ok(None)
}

/// Whether there was somebody to take it.
fn taken(pipe: &mut ChildStdin, piece: &[u8]) -> io::Result<bool> {
    match pipe.write_all(piece) {
        Err(error) if error.kind() == io::ErrorKind::BrokenPipe => Ok(false),
        other => other.map(|()| true),
    }
}

extern "C" {
    fn ioctl(descriptor: i32, request: std::os::raw::c_ulong, ...) -> i32;
}

/// Bytes in the pipe that nobody has read yet.
fn unread(pipe: &ChildStdin) -> io::Result<i32> {
    const FIONREAD: std::os::raw::c_ulong = 0x541b;
    let mut count: i32 = 0;
    // SAFETY: the descriptor is open, and FIONREAD writes one int.
    let answer = unsafe { ioctl(pipe.as_raw_fd(), FIONREAD, &mut count as *mut i32) };
    if answer < 0 {
        return Err(io::Error::last_os_error());
    }
    Ok(count)
}

impl Tally {
    fn told(&self, outcomes: &[&str]) -> Told {
        let seen = |outcome: &&str| match self.last_lines.get(*outcome) {
            Some(count) => format!("{} ({})", outcome, count),
            None => format!("{} (NEVER SEEN)", outcome),
        };
        let lines: Vec<String> = outcomes.iter().map(seen).collect();
        let same = outcomes.iter().all(|o| self.last_lines.contains_key(*o));
        let ways = self
            .runs
            .iter()
            .map(|(way, count)| format!("{} {}", count, way));
        let text = format!(
            "program: last lines seen: {}\nprogram: {} runs ({}), 0 different{}\n",
            lines.join(", "),
            self.runs.values().sum::<u64>(),
            ways.collect::<Vec<String>>().join(", "),
            if same {
                ""
            } else {
                "; but an outcome was NEVER SEEN"
            },
        );
        Told { text, same }
    }
}

/// Every last line that a record file can bring about, but a refusal by 14,
/// which takes a billion packets; and last lines that would be others if class 0
/// meant something else, edition 2 were meant, or it were of another profile.
pub const OF_FILES: &[&str] = &[
    "network pass",
    "network burst",
    "buffer none",
    "buffer pass",
    "buffer under",
    "buffer over",
    "class 0 as wide",
    "class 0 as strict",
    "by edition 1",
    "as video",
    "as compressed",
    "as interlaced",
    "refused as interlaced alone",
    "refused 01",
    "refused 02",
    "refused 03",
    "refused 04",
    "refused 05",
    "refused 06",
    "refused 07",
    "refused 11",
    "refused 12",
    "refused 13",
    "refused 20",
    "refused 21",
    "refused 22",
    "refused 23",
];

/// The same of a capture; a marker is one bit there, so that 11 is not among
/// them, and class 0 has one meaning. Of both editions and of every profile there
/// are last lines that would be others by another one.
pub const OF_CAPTURES: &[&str] = &[
    "network pass",
    "network burst",
    "buffer none",
    "buffer pass",
    "buffer under",
    "buffer over",
    "buffer broken 1",
    "buffer broken 2",
    "buffer broken 3",
    "class 0 as strict",
    "by edition 1",
    "by edition 2",
    "as video",
    "as compressed",
    "as interlaced",
    "refused as interlaced alone",
    "refused 01",
    "refused 02",
    "refused 03",
    "refused 04",
    "refused 05",
    "refused 06",
    "refused 07",
    "refused 08",
    "refused 12",
    "refused 13",
    "refused 22",
    "refused 30",
    "refused 31",
    "refused 32",
    "refused 33",
];

impl Difference {
    /// The file is kept, so that it can be run again.
    fn told(&self, input: &Input, keep: &Path) -> io::Result<Told> {
        let kept = input.keep(keep)?;
        let way = match self.way {
            Way::Pieces(sizes) => format!("in pieces of {:?} bytes", sizes),
            other => other.name().to_string(),
        };
        let mut lines = vec![format!("program: DIFFERENT: {}, {}", input.name, way)];
        let (wanted, got): (Vec<&str>, Vec<&str>) =
            (self.wanted.lines().collect(), self.got.lines().collect());
        let same = wanted.iter().zip(&got).take_while(|(w, g)| w == g).count();
        for (what, text) in [("wanted:", &wanted), ("got:   ", &got)] {
            lines.push(format!(
                "  line {}, {} {}",
                same + 1,
                what,
                or_none(text, same)
            ));
        }
        lines.push(format!("  the file is {}", kept.display()));
        Ok(Told {
            text: lines.join("\n") + "\n",
            same: false,
        })
    }
}

fn or_none<'a>(lines: &[&'a str], at: usize) -> &'a str {
    lines.get(at).copied().unwrap_or("(no such line)")
}

#[cfg(test)]
mod tests {
    use super::*;
    use crate::pcap::{Capture, Frame};

    fn input(bytes: Vec<u8>, what: What) -> Input {
        Input {
            name: String::new(),
            bytes,
            what,
        }
    }

    fn through(command: &[&str], length: usize, way: Way) -> String {
        let scratch =
            std::env::temp_dir().join(format!("vtiming-{}-{}", std::process::id(), length));
        let bytes: Vec<u8> = (0..length).map(|i| b'a' + (i % 26) as u8).collect();
        let input = input(bytes, What::RecordFile);
        let text = run(&input, way, command, &scratch).unwrap();
        let _ = std::fs::remove_file(&scratch);
        let wanted = String::from_utf8(input.bytes).unwrap();
        if text == wanted {
            "same".to_string()
        } else {
            text
        }
    }

    #[test]
    fn every_way_hands_over_every_byte() {
        for length in [0, 1, 399, 401, 4001, 200_000] {
            assert_eq!(through(&["cat"], length, Way::Whole), "same");
            assert_eq!(through(&["cat"], length, pieces_for(length)), "same");
        }
    }

    /// `cat` prints as much as it is handed, which is more than the rows; a
    /// program that prints only at the end is caught.
    #[test]
    fn a_row_that_is_held_back_is_seen() {
        let packet = crate::Packet::new(0, 0, 1);
        let file = input(crate::write(1, &ONE, &[packet; 2]), What::RecordFile);
        let row = "frame 0 0 0 0 0 0 20640000 0 1 0 1\n";
        assert_eq!(row_ends(&file), [(35, 0), (51, row.len())]);
        seen_to_be_held_back(&file);
        let mut capture = Capture::new(capture::NANOSECONDS, true);
        for port in [1, 2, 1] {
            capture.push(0, Frame::of(port, &packet).bytes());
        }
        let asked = Asked {
            port: 1,
            offset: 0,
            numbers: ONE,
            edition: EDITION_1,
        };
        let captured = input(capture.bytes(), What::Capture(asked));
        assert_eq!(row_ends(&captured), [(94, 0), (234, row.len())]);
        seen_to_be_held_back(&captured);
    }

    const ONE: Numbers = Numbers::narrow(1);

    fn seen_to_be_held_back(input: &Input) {
        let scratch = Path::new("");
        let at_once = ["sh", "-c", "cat"];
        let through_cat = run(input, Way::Live, &at_once, scratch).unwrap();
        assert!(!through_cat.contains(HELD_BACK));
        let at_the_end = ["sh", "-c", "cat >/dev/null; echo late"];
        let late = run(input, Way::Live, &at_the_end, scratch).unwrap();
        assert!(late.contains(HELD_BACK));
    }

    #[test]
    fn a_program_that_reads_no_further_is_no_fault_and_a_failing_one_is() {
        assert_eq!(through(&["head", "-c", "0"], 5000, pieces_for(5000)), "");
        assert!(through(&["false"], 10, Way::Whole).contains("it ended with"));
    }

    /// Every generated file that has a version is run in both, and as every profile if
    /// its first record has such a kind; one of no version as it is. What class 0
    /// means, and the profile, show in the fixed files, whatever the seed.
    #[test]
    fn files_are_run_in_both_versions_and_as_every_profile() {
        let nowhere = Path::new(env!("CARGO_MANIFEST_DIR"));
        let fixed = inputs(1, 0, nowhere).unwrap();
        let outcomes: Vec<String> = fixed.iter().flat_map(Input::outcomes).collect();
        for shown in [
            "class 0 as wide",
            "class 0 as strict",
            "as video",
            "as compressed",
            "as interlaced",
            "refused as interlaced alone",
        ] {
            assert!(outcomes.iter().any(|outcome| outcome == shown));
        }
        let generated: Vec<Vec<u8>> = inputs(1, 100, nowhere)
            .unwrap()
            .into_iter()
            .map(|input| input.bytes)
            .collect();
        let mut in_pairs = BTreeMap::new();
        for index in 0..100 {
            let own = file(1, index);
            for twin in as_profiles(&PROFILES, &own) {
                let both = under(&VERSIONS, &twin);
                let run = |twin: &&Vec<u8>| generated.contains(twin);
                let tried: Vec<&Vec<u8>> = both.iter().filter(run).collect();
                let known = as_profiles(&PROFILES, &own).len() == PROFILES.len();
                assert_eq!(tried.len(), if known { 1 } else { both.len() });
                if let ([version @ 1..=2, _, _, kind, ..], true) = (&tried[0][..], known) {
                    *in_pairs.entry((*version, *kind)).or_insert(0) += 1;
                }
            }
        }
        assert_eq!(in_pairs.len(), VERSIONS.len() * PROFILES.len());
        assert!(in_pairs.values().all(|count| *count > 20), "{:?}", in_pairs);
    }

    /// Every last line, what class 0 means and by which edition it was measured.
    #[test]
    fn the_fixed_captures_reach_every_outcome() {
        let inputs = worth_running();
        let outcomes = inputs.iter().flat_map(Input::outcomes);
        let outcomes: Vec<String> = outcomes.collect();
        for outcome in OF_CAPTURES {
            let seen = outcomes.iter().any(|seen| seen == outcome);
            assert!(seen, "never seen: {}", outcome);
        }
        assert!(!outcomes.contains(&"class 0 as wide".to_string()));
        // Whatever the edition, the buffer answer is none as compressed.
        for input in &inputs {
            if let What::Capture(asked) = input.what {
                let buffer = |outcome: &String| outcome.starts_with("buffer ");
                let own = input.outcomes().into_iter().find(buffer);
                if asked.numbers.profile == COMPRESSED {
                    assert!(own.map_or(true, |answer| answer == "buffer none"));
                }
            }
        }
        // One of each is enough: they are run in three ways.
        assert!(inputs.len() < 220, "{} captures", inputs.len());
    }

    /// Request (vi): "`vtiming` [...] mean[s] edition 1". By edition 2 some of the
    /// fixed files would be broken, of whatever else they are by edition 1.
    #[test]
    fn that_edition_1_is_meant_shows_in_the_fixed_files() {
        let nowhere = Path::new(env!("CARGO_MANIFEST_DIR"));
        let inputs = inputs(1, 0, nowhere).unwrap();
        let shown = |input: &&Input| input.outcomes().contains(&"by edition 1".to_string());
        // Not as compressed: by both editions there is no buffer answer then.
        assert!(inputs
            .iter()
            .filter(shown)
            .all(|input| read(EDITION_1, &input.bytes).numbers.unwrap().profile != COMPRESSED));
        let mut instead: Vec<String> = inputs
            .iter()
            .filter(shown)
            .map(|input| outcomes(&input.wanted())[1].clone())
            .collect();
        instead.sort();
        instead.dedup();
        let wanted = ["none", "over", "pass", "under"];
        assert_eq!(instead, wanted.map(|answer| format!("buffer {}", answer)));
    }
}
