//! Generated scripts.

use crate::journal::{Journal, Mode};
use crate::script::Command;
use crate::world::World;
use std::io::{self, Write};

const SET_UP: [&str; 15] = [
    "lan x 2 1497",
    "lan y 3 264",
    "es a 490a00",
    "es b 490b00",
    "is r 490900",
    "port a x 02000000000a",
    "port b y 02000000000b",
    "port r x 020000000901",
    "port r y 020000000902",
    "route a - r x",
    "route b - r y",
    "route r 490a a x",
    "route r 490b b y",
    "tsap b bb",
    "start",
];

/// The generator PCG XSH RR 64/32.
struct Pcg {
    state: u64,
    increment: u64,
}

impl Pcg {
    fn new(seed: u64, stream: u64) -> Pcg {
        let increment = stream << 1 | 1;
        let mut pcg = Pcg { state: seed.wrapping_add(increment), increment };
        pcg.step();
        pcg
    }

    fn step(&mut self) {
        self.state = self.state.wrapping_mul(6_364_136_223_846_793_005).wrapping_add(self.increment);
    }

    fn next(&mut self) -> u32 {
        let state = self.state;
        self.step();
        ((((state >> 18) ^ state) >> 27) as u32).rotate_right((state >> 59) as u32)
    }
}

/// The line of a word, after so many frames and ends.
fn line_of(word: u32, frames: u32, ends: u32) -> String {
    let v = word / 16;
    let back = |count: u32, back: u32| if count > back { count - back } else { 1 };
    let end = back(ends, v % 4);
    let octet = v % 256;
    match word % 16 {
        0 => format!("connect a aa b bb {} 128 exp sum -", if v % 2 == 0 { "normal" } else { "extended" }),
        1 => format!("accept {end} extended 128 exp sum -"),
        2..=4 => format!("data {end} {}", format!("{octet:02x}").repeat((1 + v / 256 % 300) as usize)),
        5 => format!("expedite {end} {octet:02x}"),
        6..=12 => format!("deliver {} {}", back(frames, v % 8), ["a", "b", "r"][(v / 8 % 3) as usize]),
        13 | 14 => "tick".to_string(),
        _ => match v % 16 {
            0 => format!("disconnect {end} -"),
            1 => format!("refuse {end} -"),
            _ => format!("window {end} {}", v % 256),
        },
    }
}

/// Runs a generated script, and hands on each of its lines; the answer is what was told.
fn generate(seed: u32, count: u32, mut each: impl FnMut(&str) -> io::Result<()>) -> io::Result<Journal> {
    let mut journal = Journal::new(Mode::Counts)?;
    let mut world = World::new(Command::Run);
    let mut pcg = Pcg::new(u64::from(seed), 1);
    for line in SET_UP {
        each(line)?;
        let _ = world.run_line(line.as_bytes(), &mut journal);
    }
    for _ in 0..count {
        let line = line_of(pcg.next(), journal.counts.frames, journal.counts.ends);
        each(&line)?;
        let _ = world.run_line(line.as_bytes(), &mut journal);
        if journal.is_full {
            break;
        }
    }
    Ok(journal)
}

/// Writes the summary of a generated script; the answer is the status.
pub fn run(seed: u32, count: u32) -> io::Result<u8> {
    let journal = generate(seed, count, |_| Ok(()))?;
    if journal.is_full {
        println!("toomuch");
        return Ok(7);
    }
    let counts = &journal.counts;
    writeln!(
        io::stdout(),
        "storm {seed} {count} ticks {} frames {} ends {} got {} urgent {} gone {}\ndone",
        counts.ticks, counts.frames, counts.ends, counts.got, counts.urgent, counts.gone
    )?;
    Ok(0)
}

/// Writes a generated script itself.
pub fn write_script(seed: u32, count: u32) -> io::Result<u8> {
    let mut out = io::BufWriter::new(io::stdout().lock());
    generate(seed, count, |line| writeln!(out, "{line}"))?;
    out.flush()?;
    Ok(0)
}
