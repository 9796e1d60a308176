//! The command `reference`.

use std::io::{self, Read, Write};
use std::path::Path;
use std::process::exit;

use vtiming_reference::cases::{self, fixed, Case};
use vtiming_reference::generate::generate;
use vtiming_reference::next_read::three_numbers;
use vtiming_reference::program::{capture_inputs, inputs, run_all, Told, OF_CAPTURES, OF_FILES};
use vtiming_reference::traffic;
use vtiming_reference::{expected_c_call, expected_output, graph, next_read, set_up};
use vtiming_reference::{expected_capture_call, expected_capture_output, expected_packets, Asked};
use vtiming_reference::{Numbers, Wait, EDITION_1};

const USAGE: &str = "usage:
  reference print FILE|-          what vtiming prints for the file
  reference ccall EDITION ROOM FILE|-
                                  number, offset and bytes of the C call
  reference limits RATE SCHEDULE CLASS HEIGHT N MAXUDP TRO|default PROFILE
  reference next-read RATE SCHEDULE CLASS HEIGHT N MAXUDP TRO|default PROFILE FIRST ARRIVAL
                                  how long a packet waits for the next read of its frame or field
  reference graph FPT MARGIN VL   the graph's doubles for figures in grains
  reference capture PORT OFFSET RATE SCHEDULE CLASS HEIGHT N MAXUDP TRO|default PROFILE EDITION FILE|-
                                  what vcapture prints for the capture
  reference capturecall ROOM PORT OFFSET RATE SCHEDULE CLASS HEIGHT N MAXUDP TRO|default PROFILE EDITION FILE|-
                                  number, place and bytes of the C call on a capture
  reference packets PORT OFFSET FILE|-
                                  each record of the capture: skipped, or the packet it hands on
  reference gen SEED COUNT DIR    writes COUNT test files to DIR
  reference gencaptures SEED COUNT DIR
                                  writes COUNT test captures to DIR, and the words asked of each
  reference expect DIR            writes FILE.out for each .rec file in DIR
  reference cases SEED COUNT      the cases of the fixed inputs and of COUNT generated ones, as the C
                                  host reads them
  reference case SEED INDEX       the cases of one generated input, as the C host reads them
  reference program SEED COUNT DIR KEEP COMMAND..
                                  runs the program on COUNT generated files and on fixed ones, in both
                                  versions and as every profile, and on the .rec files of DIR, whole and
                                  in pieces; a file that differs is copied to KEEP
  reference captures SEED COUNT DIR[:DIR..] KEEP COMMAND..
                                  the same of vcapture, on COUNT generated captures, on fixed ones and on
                                  the .pcap files of each DIR; the eleven words follow those of COMMAND";

fn main() {
    let arguments: Vec<String> = std::env::args().skip(1).collect();
    let words: Vec<&str> = arguments.iter().map(|word| word.as_str()).collect();
    let done = match words.as_slice() {
        ["print", file] => print(file),
        ["ccall", edition, room, file] => c_call(edition, room, file),
        ["limits", numbers @ ..] if numbers.len() == 8 => limits(numbers),
        ["next-read", numbers @ .., first, arrival] if numbers.len() == 8 => {
            wait(numbers, first, arrival)
        }
        ["graph", fpt, margin, vl] => figures(fpt, margin, vl),
        ["capture", asked @ .., file] if asked.len() == 11 => capture(asked, file),
        ["capturecall", room, asked @ .., file] if asked.len() == 11 => {
            capture_call(room, asked, file)
        }
        ["packets", port, offset, file] => packets(port, offset, file),
        ["gen", seed, count, directory] => gen(seed, count, directory),
        ["gencaptures", seed, count, directory] => gen_captures(seed, count, directory),
        ["expect", directory] => expect(Path::new(directory)),
        ["cases", seed, count] => all_cases(seed, count),
        ["case", seed, index] => cases_of(seed, index),
        ["program", seed, count, directory, keep, command @ ..] if !command.is_empty() => {
            program(seed, count, directory, keep, command)
        }
        ["captures", seed, count, directories, keep, command @ ..] if !command.is_empty() => {
            captures(seed, count, directories, keep, command)
        }
        _ => usage(),
    };
    if let Err(error) = done {
        eprintln!("reference: {}", error);
        exit(1);
    }
}

fn usage() -> io::Result<()> {
    eprintln!("{}", USAGE);
    exit(2);
}

fn number<T: std::str::FromStr>(word: &str) -> io::Result<T> {
    word.parse().map_err(|_| {
        let message = format!("not a number here: {}", word);
        io::Error::new(io::ErrorKind::InvalidInput, message)
    })
}

fn contents(file: &str) -> io::Result<Vec<u8>> {
    if file != "-" {
        return std::fs::read(file);
    }
    let mut bytes = Vec::new();
    io::stdin().lock().read_to_end(&mut bytes)?;
    Ok(bytes)
}

fn say(text: &str) -> io::Result<()> {
    io::stdout().lock().write_all(text.as_bytes())
}

fn print(file: &str) -> io::Result<()> {
    say(&expected_output(&contents(file)?))
}

fn c_call(edition: &str, room: &str, file: &str) -> io::Result<()> {
    let (edition, room) = (number(edition)?, number(room)?);
    say_answer(expected_c_call(edition, &contents(file)?, room))
}

fn say_answer((number, place, filled): (u8, u64, Option<Vec<u8>>)) -> io::Result<()> {
    let bytes = filled.unwrap_or_default();
    let hex: String = bytes.iter().map(|byte| format!("{:02x}", byte)).collect();
    say(format!("{} {} {}", number, place, hex).trim_end())?;
    say("\n")
}

fn capture(words: &[&str], file: &str) -> io::Result<()> {
    say(&expected_capture_output(&asked(words)?, &contents(file)?))
}

fn capture_call(room: &str, words: &[&str], file: &str) -> io::Result<()> {
    let (asked, room) = (asked(words)?, number(room)?);
    say_answer(expected_capture_call(&asked, &contents(file)?, room))
}

fn packets(port: &str, offset: &str, file: &str) -> io::Result<()> {
    let (port, offset) = (number(port)?, number(offset)?);
    say(&expected_packets(&contents(file)?, port, offset))
}

/// Port and offset, then the seven numbers, the profile and the edition.
fn asked(words: &[&str]) -> io::Result<Asked> {
    Ok(Asked {
        port: number(words[0])?,
        offset: number(words[1])?,
        numbers: eight(&words[2..10])?,
        edition: number(words[10])?,
    })
}

/// The seven numbers and the profile.
fn eight(words: &[&str]) -> io::Result<Numbers> {
    Ok(Numbers {
        rate: number(words[0])?,
        schedule: number(words[1])?,
        class: number(words[2])?,
        height: number(words[3])?,
        packets_per_frame: number(words[4])?,
        maxudp: number(words[5])?,
        tro: tro(words[6])?,
        profile: number(words[7])?,
    })
}

fn limits(words: &[&str]) -> io::Result<()> {
    say(&match set_up(EDITION_1, &eight(words)?) {
        Err(number) => format!("refused {}\n", number),
        Ok(limits) => format!(
            "F {} TRO {} C_MAX {} VRX_FULL {}\n",
            limits.frame, limits.tro, limits.c_max, limits.vrx_full
        ),
    })
}

/// The numbers that the C call fills, by the names that they have there.
fn wait(words: &[&str], first: &str, arrival: &str) -> io::Result<()> {
    let answer = next_read(&Wait {
        numbers: eight(words)?,
        first: number(first)?,
        arrival: number(arrival)?,
    });
    say(&match answer.map(three_numbers) {
        Err(number) => format!("refused {}\n", number),
        Ok([left, numerator, denominator]) => format!(
            "left {} numerator {} denominator {}\n",
            left, numerator, denominator
        ),
    })
}

/// "all ones is default", as in a record file.
fn tro(word: &str) -> io::Result<Option<u64>> {
    match word {
        "default" | "4294967295" => Ok(None),
        _ => Ok(Some(number(word)?)),
    }
}

/// The doubles with their bits, so that they can be compared exactly.
fn figures(fpt: &str, margin: &str, vl: &str) -> io::Result<()> {
    match graph(number(fpt)?, number(margin)?, number(vl)?) {
        Err(number) => say(&format!("refused {}\n", number)),
        Ok(graph) => {
            let values = [graph.first_packet_time, graph.margin, graph.latency];
            let lines = values.map(|value| format!("{:016x} {}\n", value.to_bits(), value));
            say(&lines.concat())
        }
    }
}

fn gen(seed: &str, count: &str, directory: &str) -> io::Result<()> {
    generate(number(seed)?, number(count)?, Path::new(directory))
}

fn gen_captures(seed: &str, count: &str, directory: &str) -> io::Result<()> {
    traffic::generate(number(seed)?, number(count)?, Path::new(directory))
}

fn expect(directory: &Path) -> io::Result<()> {
    for entry in std::fs::read_dir(directory)? {
        let path = entry?.path();
        if path
            .extension()
            .map_or(false, |extension| extension == "rec")
        {
            let text = expected_output(&std::fs::read(&path)?);
            std::fs::write(path.with_extension("out"), text)?;
        }
    }
    Ok(())
}

/// The fixed inputs have the numbers after the generated ones, so that a
/// generated input has one number whatever stands before it.
fn all_cases(seed: &str, count: &str) -> io::Result<()> {
    let (seed, count) = (number(seed)?, number::<u64>(count)?);
    let mut out = io::BufWriter::with_capacity(1 << 20, io::stdout().lock());
    for (index, cases) in (count..).zip(fixed()) {
        say_cases(&mut out, index, &cases)?;
    }
    for index in 0..count {
        say_cases(&mut out, index, &cases::cases(seed, index))?;
    }
    out.flush()
}

fn cases_of(seed: &str, index: &str) -> io::Result<()> {
    let index = number(index)?;
    let cases = cases::cases(number(seed)?, index);
    say_cases(&mut io::stdout().lock(), index, &cases)
}

fn say_cases(out: &mut impl Write, index: u64, cases: &[Case]) -> io::Result<()> {
    cases
        .iter()
        .try_for_each(|case| out.write_all(&case.bytes(index)))
}

fn program(
    seed: &str,
    count: &str,
    directory: &str,
    keep: &str,
    command: &[&str],
) -> io::Result<()> {
    let inputs = inputs(number(seed)?, number(count)?, Path::new(directory))?;
    tell(run_all(&inputs, command, Path::new(keep), OF_FILES)?)
}

fn captures(
    seed: &str,
    count: &str,
    directories: &str,
    keep: &str,
    command: &[&str],
) -> io::Result<()> {
    let directories: Vec<&Path> = directories.split(':').map(Path::new).collect();
    let inputs = capture_inputs(number(seed)?, number(count)?, &directories)?;
    tell(run_all(&inputs, command, Path::new(keep), OF_CAPTURES)?)
}

fn tell(told: Told) -> io::Result<()> {
    say(&told.text)?;
    exit(i32::from(!told.same));
}
