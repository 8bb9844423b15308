//! What a run tells: its transcript, or the capture of its frames, or counts alone.

use crate::address::{Nsap, Port, Snpa, push_hex};
use std::io::{self, Write};

const MOST_EVENTS: u32 = 4_194_304;
const WRITTEN_AT_ONCE: usize = 65_536;

#[derive(Clone, Copy, PartialEq, Eq)]
pub enum Mode {
    Transcript,
    Capture,
    Counts,
}

/// The octets that were not written yet; the standard output takes them in large pieces.
pub struct Output {
    pub octets: Vec<u8>,
}

impl Output {
    pub fn new() -> Output {
        Output { octets: Vec::new() }
    }

    /// Writes what there is, where it is much.
    pub fn check(&mut self) -> io::Result<()> {
        if self.octets.len() >= WRITTEN_AT_ONCE { self.flush() } else { Ok(()) }
    }
}

impl Write for Output {
    fn write(&mut self, octets: &[u8]) -> io::Result<usize> {
        self.octets.extend_from_slice(octets);
        Ok(octets.len())
    }

    fn flush(&mut self) -> io::Result<()> {
        let mut stdout = io::stdout().lock();
        stdout.write_all(&self.octets)?;
        stdout.flush()?;
        self.octets.clear();
        Ok(())
    }
}

/// What options of a connection say.
#[derive(Clone, Copy)]
pub struct Options {
    pub extended: bool,
    /// In octets.
    pub size: u16,
    pub preferred: bool,
    pub expedited: bool,
    pub sum: bool,
}

/// What a relay hears of a line.
pub enum Heard {
    Incoming { end: u32, system: u8, called: Vec<u8>, options: Options, octets: Vec<u8> },
    Confirm { end: u32, options: Options, octets: Vec<u8> },
    Gone { end: u32 },
    Unit { end: u32, is_expedited: bool, octets: Vec<u8> },
}

#[derive(Default)]
pub struct Counts {
    pub ticks: u32,
    pub frames: u32,
    pub ends: u32,
    pub got: u32,
    pub urgent: u32,
    pub gone: u32,
}

/// Appends a number in decimal.
pub fn push_number(number: impl Into<u64>, out: &mut Vec<u8>) {
    let mut left = number.into();
    let mut digits = [0; 20];
    let mut start = digits.len();
    loop {
        start -= 1;
        digits[start] = b'0' + (left % 10) as u8;
        left /= 10;
        if left == 0 {
            break;
        }
    }
    out.extend_from_slice(&digits[start..]);
}

pub struct Journal {
    pub mode: Mode,
    pub out: Output,
    pub is_full: bool,
    pub counts: Counts,
    /// Where there are relays, what they hear.
    pub heard: Option<Vec<Heard>>,
    /// Whether a line or a call was refused.
    pub is_refused: bool,
    events: u32,
    systems: Vec<Vec<u8>>,
    lans: Vec<Vec<u8>>,
}

impl Journal {
    pub fn new(mode: Mode) -> io::Result<Journal> {
        let mut out = Output::new();
        if mode == Mode::Capture {
            out.write_all(&[0xa1, 0xb2, 0xc3, 0xd4, 0, 2, 0, 4, 0, 0, 0, 0, 0, 0, 0, 0, 0, 0, 0xff, 0xff, 0, 0, 0, 1])?;
        }
        Ok(Journal {
            mode,
            out,
            is_full: false,
            counts: Counts::default(),
            heard: None,
            is_refused: false,
            events: 0,
            systems: Vec::new(),
            lans: Vec::new(),
        })
    }

    pub fn name_system(&mut self, name: &[u8]) {
        self.systems.push(name.to_vec());
    }

    pub fn name_lan(&mut self, name: &[u8]) {
        self.lans.push(name.to_vec());
    }

    /// Writes what there is, where it is much.
    pub fn check(&mut self) -> io::Result<()> {
        self.out.check()
    }

    /// Counts an event; whether it has room.
    fn count(&mut self) -> bool {
        if self.events == MOST_EVENTS {
            self.is_full = true;
            return false;
        }
        self.events += 1;
        true
    }

    /// Begins the line of an event; whether it is written.
    fn begin(&mut self, word: &str) -> bool {
        if !self.count() || self.mode != Mode::Transcript {
            return false;
        }
        self.out.octets.extend_from_slice(word.as_bytes());
        true
    }

    fn word(&mut self, word: &str) {
        self.out.octets.push(b' ');
        self.out.octets.extend_from_slice(word.as_bytes());
    }

    fn number(&mut self, number: impl Into<u64>) {
        self.out.octets.push(b' ');
        push_number(number, &mut self.out.octets);
    }

    fn system(&mut self, system: u8) {
        self.out.octets.push(b' ');
        self.out.octets.extend_from_slice(&self.systems[usize::from(system)]);
    }

    fn octets(&mut self, octets: &[u8]) {
        self.out.octets.push(b' ');
        if octets.is_empty() {
            self.out.octets.push(b'-');
        } else {
            push_hex(octets, &mut self.out.octets);
        }
    }

    fn options(&mut self, options: &Options) {
        self.word(if options.extended { "extended" } else { "normal" });
        if options.preferred {
            self.word(&format!("p{}", options.size / 128));
        } else {
            self.number(options.size);
        }
        self.word(if options.expedited { "exp" } else { "noexp" });
        self.word(if options.sum { "sum" } else { "nosum" });
    }

    fn end(&mut self) {
        self.out.octets.push(b'\n');
    }

    pub fn tick(&mut self, now: u32) {
        if self.begin("tick") {
            self.number(now);
            self.end();
        }
        if !self.is_full {
            self.counts.ticks = now;
        }
    }

    /// A frame that was sent at a tick; in a capture it is written whole.
    pub fn frame(&mut self, tick: u32, number: u32, system: u8, from: &Snpa, to: &Port, pdu: &[u8]) {
        let length = pdu.len() + 17;
        if self.begin("frame") {
            self.number(number);
            self.out.octets.push(b' ');
            self.out.octets.extend_from_slice(&self.lans[usize::from(to.lan)]);
            self.system(system);
            self.octets(&to.snpa);
            self.number(length as u32);
            self.end();
        }
        if self.is_full {
            return;
        }
        self.counts.frames += 1;
        if self.mode == Mode::Capture {
            for number in [tick / 2, tick % 2 * 500_000, length as u32, length as u32] {
                self.out.octets.extend_from_slice(&number.to_be_bytes());
            }
            self.out.octets.extend_from_slice(&to.snpa);
            self.out.octets.extend_from_slice(from);
            self.out.octets.extend_from_slice(&(pdu.len() as u16 + 3).to_be_bytes());
            self.out.octets.extend_from_slice(&[0xfe, 0xfe, 0x03]);
            self.out.octets.extend_from_slice(pdu);
        }
    }

    /// A line of a word and a system.
    pub fn of_system(&mut self, word: &str, system: u8) {
        if self.begin(word) {
            self.system(system);
            self.end();
        }
    }

    /// A line of a word, a system and a word.
    pub fn of_system_word(&mut self, word: &str, system: u8, what: &str) {
        if self.begin(word) {
            self.system(system);
            self.word(what);
            self.end();
        }
    }

    /// A line of two words and a system.
    pub fn of_system_word_first(&mut self, word: &str, what: &str, system: u8) {
        if self.begin(word) {
            self.word(what);
            self.system(system);
            self.end();
        }
    }

    /// The answer to a delivery.
    pub fn delivery(&mut self, answer: &str, number: u32, system: u8) {
        if self.begin(answer) {
            self.number(number);
            self.system(system);
            self.end();
        }
    }

    /// A raw unit that is taken or shown.
    pub fn raw(&mut self, word: &str, system: u8, address: &Nsap, octets: &[u8]) {
        if self.begin(word) {
            self.system(system);
            self.octets(address.octets());
            self.octets(octets);
            self.end();
        }
    }

    /// A datagram that is taken or shown: addresses, selectors and octets.
    pub fn datagram(&mut self, word: &str, system: u8, fields: [&[u8]; 4]) {
        if self.begin(word) {
            self.system(system);
            for field in fields {
                self.octets(field);
            }
            self.end();
        }
    }

    pub fn reason(&mut self, word: &str, system: u8, reason: u8, place: u8) {
        if self.begin(word) {
            self.system(system);
            self.octets(&[reason]);
            self.number(place);
            self.end();
        }
    }

    pub fn hello(&mut self, system: u8, kind: &str, snpa: &Snpa) {
        if self.begin("hello") {
            self.system(system);
            self.word(kind);
            self.octets(snpa);
            self.end();
        }
    }

    pub fn redirect(&mut self, system: u8, address: &Nsap, snpa: &Snpa) {
        if self.begin("redirect") {
            self.system(system);
            self.octets(address.octets());
            self.octets(snpa);
            self.end();
        }
    }

    /// Two ends that a relay joins.
    pub fn joined(&mut self, inbound: u32, outbound: u32) {
        if self.begin("joined") {
            self.number(inbound);
            self.number(outbound);
            self.end();
        }
    }

    fn hear(&mut self, event: impl FnOnce() -> Heard) {
        if let Some(heard) = &mut self.heard {
            heard.push(event());
        }
    }

    /// A word and a count.
    pub fn counted(&mut self, word: &str, count: u32) {
        if self.begin(word) {
            self.number(count);
            self.end();
        }
    }

    pub fn no(&mut self, cause: &str) {
        self.is_refused = true;
        if self.begin("no") {
            self.word(cause);
            self.end();
        }
    }

    pub fn no_state(&mut self, state: &str) {
        self.is_refused = true;
        if self.begin("no") {
            self.word("wrongstate");
            self.word(state);
            self.end();
        }
    }

    /// A TPDU or a UD with a fault.
    pub fn bad(&mut self, word: &str, system: u8, cause: &str, place: usize) {
        if self.begin(word) {
            self.system(system);
            self.word(cause);
            self.number(place as u32);
            self.end();
        }
    }

    pub fn connect(&mut self, end: u32, system: u8, reference: u16, users: [(&Nsap, &[u8]); 2], octets: &[u8]) {
        if self.begin("connect") {
            self.number(end);
            self.system(system);
            self.number(reference);
            for (address, selector) in users {
                self.octets(address.octets());
                self.octets(selector);
            }
            self.octets(octets);
            self.end();
        }
        if !self.is_full {
            self.counts.ends += 1;
        }
    }

    #[allow(clippy::too_many_arguments)]
    pub fn incoming(
        &mut self,
        end: u32,
        system: u8,
        reference: u16,
        partner: u16,
        calling: (&Nsap, &[u8]),
        called: (&Nsap, &[u8]),
        options: &Options,
        octets: &[u8],
    ) {
        self.hear(|| Heard::Incoming { end, system, called: called.1.to_vec(), options: *options, octets: octets.to_vec() });
        if self.begin("incoming") {
            self.number(end);
            self.system(system);
            self.number(reference);
            self.octets(calling.0.octets());
            self.number(partner);
            self.octets(calling.1);
            self.octets(called.0.octets());
            self.octets(called.1);
            self.options(options);
            self.octets(octets);
            self.end();
        }
        if !self.is_full {
            self.counts.ends += 1;
        }
    }

    /// A connect response or confirm.
    pub fn agreed(&mut self, word: &str, end: u32, options: &Options, octets: &[u8]) {
        if word == "confirm" {
            self.hear(|| Heard::Confirm { end, options: *options, octets: octets.to_vec() });
        }
        if self.begin(word) {
            self.number(end);
            self.options(options);
            self.octets(octets);
            self.end();
        }
    }

    /// A line of a word, an end and octets.
    pub fn of_end(&mut self, word: &str, end: u32, octets: &[u8]) {
        if self.begin(word) {
            self.number(end);
            self.octets(octets);
            self.end();
        }
    }

    pub fn got(&mut self, end: u32, octets: &[u8]) {
        self.hear(|| Heard::Unit { end, is_expedited: false, octets: octets.to_vec() });
        self.of_end("got", end, octets);
        if !self.is_full {
            self.counts.got += 1;
        }
    }

    pub fn urgent(&mut self, end: u32, octets: &[u8]) {
        self.hear(|| Heard::Unit { end, is_expedited: true, octets: octets.to_vec() });
        self.of_end("urgent", end, octets);
        if !self.is_full {
            self.counts.urgent += 1;
        }
    }

    pub fn gone(&mut self, end: u32, cause: &str, octets: &[u8]) {
        self.hear(|| Heard::Gone { end });
        if self.begin("gone") {
            self.number(end);
            self.word(cause);
            self.octets(octets);
            self.end();
        }
        if !self.is_full {
            self.counts.gone += 1;
        }
    }

    pub fn window(&mut self, end: u32, credit: u16) {
        if self.begin("window") {
            self.number(end);
            self.number(credit);
            self.end();
        }
    }

    pub fn held(&mut self, end: u32, kind: &str, number: u64) {
        if self.begin("held") {
            self.number(end);
            self.word(kind);
            self.number(number);
            self.end();
        }
    }
}
