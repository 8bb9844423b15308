//! What `osi run`, `osi frames`, `osi decode`, `osi storm`, `osi datagrams`, `osi inactive` and `osi relay` do, as a plain program: a yardstick for
//! their speed.
//! Nothing is proved of it.

mod address;
mod clnp;
mod connection;
mod decode;
mod entity;
mod esis;
mod flow;
mod journal;
mod lans;
mod neighbours;
mod network;
mod reassembly;
mod relay;
mod script;
mod storm;
mod subset;
mod tpdu;
mod ud;
mod world;

use journal::{Journal, Mode};
use script::{Command, Fault};
use std::io::{self, BufRead, BufReader, Read, Write};
use std::process::ExitCode;
use world::World;

const MOST_OCTETS: usize = 16_777_216;
const MOST_LINES: usize = 100_000;
const MOST_IN_LINE: usize = 40_000;

/// How the reading of a script ends.
enum End {
    Done,
    Refused(usize, Fault),
    TooMuch,
}

fn main() -> ExitCode {
    let words: Vec<String> = std::env::args().skip(1).collect();
    let words: Vec<&str> = words.iter().map(String::as_str).collect();
    let answer = match words[..] {
        ["run"] => run(Command::Run, Mode::Transcript),
        ["frames"] => run(Command::Run, Mode::Capture),
        ["decode"] => decode::run(),
        ["datagrams"] => run(Command::Datagrams, Mode::Transcript),
        ["inactive"] => run(Command::Inactive, Mode::Transcript),
        ["relay"] => run(Command::Relay, Mode::Transcript),
        ["storm", seed, count] => match (number(seed, 999_999_999), number(count, 20_000)) {
            (Some(seed), Some(count)) => storm::run(seed, count),
            _ => return usage(),
        },
        // The generated script itself, which may be longer here.
        ["script", seed, count] => match (number(seed, 999_999_999), number(count, 99_985)) {
            (Some(seed), Some(count)) => storm::write_script(seed, count),
            _ => return usage(),
        },
        _ => return usage(),
    };
    match answer {
        Ok(status) => ExitCode::from(status),
        Err(_) => ExitCode::from(4),
    }
}

fn usage() -> ExitCode {
    println!("usage: osi run | frames | decode | storm SEED COUNT | datagrams | inactive | relay");
    ExitCode::from(2)
}

/// A number in decimal without leading zeros.
fn number(text: &str, most: u32) -> Option<u32> {
    let number: u32 = text.parse().ok()?;
    (number <= most && number.to_string() == text).then_some(number)
}

/// Runs the script of the standard input; the answer is the exit status, and an error is one of writing.
fn run(command: Command, mode: Mode) -> io::Result<u8> {
    let mut journal = Journal::new(mode)?;
    let mut world = World::new(command);
    let mut input = BufReader::with_capacity(1 << 16, io::stdin().lock());
    let end = match run_lines(&mut input, &mut world, &mut journal) {
        Ok(end) => end,
        Err(Failure::Read) => {
            journal.out.flush()?;
            return Ok(3);
        }
        Err(Failure::Write(error)) => return Err(error),
    };
    let status = close(end, &world, &mut journal)?;
    journal.out.flush()?;
    Ok(status)
}

/// The closing lines of a transcript, and the status.
fn close(end: End, world: &World, journal: &mut Journal) -> io::Result<u8> {
    let told = journal.mode == Mode::Transcript;
    match end {
        End::Done => {
            if told {
                if let Some(count) = world.strays() {
                    writeln!(journal.out, "strays {count}")?;
                }
                writeln!(journal.out, "done")?;
            }
            Ok(0)
        }
        End::Refused(line, fault) => {
            if told {
                writeln!(journal.out, "refused {line} {} {}", fault.column, fault.cause)?;
            }
            Ok(1)
        }
        End::TooMuch => {
            if told {
                writeln!(journal.out, "toomuch")?;
            }
            Ok(7)
        }
    }
}

enum Failure {
    Read,
    Write(io::Error),
}

impl From<io::Error> for Failure {
    fn from(error: io::Error) -> Failure {
        Failure::Write(error)
    }
}

fn run_lines(input: &mut BufReader<impl Read>, world: &mut World, journal: &mut Journal) -> Result<End, Failure> {
    let mut line = Vec::new();
    let mut octets = 0;
    let mut lines = 0;
    loop {
        // (who writes the script may wait for what came of the lines before)
        if input.buffer().is_empty() {
            journal.out.flush()?;
        }
        line.clear();
        let room = MOST_OCTETS - octets;
        let count = input.by_ref().take(room as u64 + 1).read_until(b'\n', &mut line).map_err(|_| Failure::Read)?;
        if count == 0 {
            return Ok(End::Done);
        }
        if lines == MOST_LINES {
            return Ok(End::TooMuch);
        }
        let is_whole = line.last() == Some(&b'\n');
        if is_whole {
            line.pop();
        }
        if line.len().min(room) > MOST_IN_LINE {
            return Ok(End::Refused(lines + 1, Fault { cause: "long", column: MOST_IN_LINE + 1 }));
        }
        if count > room {
            return Ok(End::TooMuch);
        }
        if is_whole && line.last() == Some(&b'\r') {
            line.pop();
        }
        match world.run_line(&line, journal) {
            Ok(()) if journal.is_full => return Ok(End::TooMuch),
            Ok(()) => {}
            Err(fault) => return Ok(End::Refused(lines + 1, fault)),
        }
        journal.check()?;
        octets += count;
        lines += 1;
    }
}
