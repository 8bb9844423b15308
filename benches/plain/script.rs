//! The lines of a script, and what its set-up declares.

use crate::address::{Hop, Nsap, Port, Snpa, is_group, read_hex};
use crate::journal::{Journal, Options};
use crate::relay::Row;

pub type Cause = &'static str;

/// A command that runs scripts. Each has lines of its own.
#[derive(Clone, Copy, PartialEq, Eq)]
pub enum Command {
    Run,
    Datagrams,
    Inactive,
    Relay,
}

/// The first fault of a line, at a column from 1.
pub struct Fault {
    pub cause: Cause,
    pub column: usize,
}

/// A line after the set-up.
pub enum Line {
    Nothing,
    Start,
    Connect { system: u8, selector: Vec<u8>, to: u8, called: Vec<u8>, options: Options, octets: Vec<u8> },
    Accept { end: u32, options: Options, octets: Vec<u8> },
    Refuse { end: u32, octets: Vec<u8> },
    Disconnect { end: u32, octets: Vec<u8> },
    Data { end: u32, octets: Vec<u8> },
    Expedite { end: u32, octets: Vec<u8> },
    Window { end: u32, credit: u16 },
    Unit { system: u8, to: u8, wish: Wish, octets: Vec<u8> },
    Send { system: u8, selector: Vec<u8>, to: u8, called: Vec<u8>, octets: Vec<u8> },
    Tick,
    Settle,
    Deliver { frame: u32, system: u8 },
    Inject { lan: u8, system: u8, octets: Vec<u8> },
    Restart { system: u8 },
}

/// What is asked for a unit; `path` is the number of a source route from 1, or 0.
#[derive(Clone, Copy, Default)]
pub struct Wish {
    pub cut: bool,
    pub report: bool,
    pub record: bool,
    pub path: usize,
}

pub struct Lan {
    pub bound: u32,
    pub room: usize,
}

pub struct SystemSetup {
    pub is_end: bool,
    pub title: Nsap,
    pub ports: Vec<Port>,
    pub routes: Vec<(Vec<u8>, Hop)>,
    pub selectors: Vec<Vec<u8>>,
}

#[derive(Clone)]
pub struct Path {
    pub is_complete: bool,
    pub titles: Vec<Nsap>,
}

/// The settings in the order of `KEYS`.
pub struct Settings {
    set: [Option<u32>; 9],
}

/// Each key with its least, greatest and usual value.
const KEYS: [(&str, u32, u32, u32); 9] = [
    ("life", 1, 255, 32),
    ("t1", 1, 255, 8),
    ("n", 2, 16, 4),
    ("w", 1, 255, 20),
    ("i", 1, 255, 60),
    ("refs", 1, 64, 64),
    ("credit", 0, 15, 8),
    ("ct", 0, 255, 0),
    ("hold", 1, 255, 20),
];

impl Settings {
    pub fn get(&self, key: &str) -> u32 {
        let at = KEYS.iter().position(|row| row.0 == key).unwrap();
        self.set[at].unwrap_or(KEYS[at].3)
    }
}

/// What was declared so far.
pub struct Setup {
    pub command: Command,
    pub settings: Settings,
    pub lans: Vec<Lan>,
    pub systems: Vec<SystemSetup>,
    pub paths: Vec<Path>,
    pub relays: Vec<Row>,
    version: u32,
    /// Whether a line declared something.
    is_begun: bool,
    is_started: bool,
    lan_names: Vec<Vec<u8>>,
    system_names: Vec<Vec<u8>>,
    path_names: Vec<Vec<u8>>,
}

/// Whether a word is one of the set-up, and how many fields follow it.
fn form_of(word: &[u8]) -> Option<(bool, usize)> {
    Some(match word {
        b"version" => (true, 1),
        b"set" => (true, 2),
        b"lan" => (true, 3),
        b"es" | b"is" => (true, 2),
        b"port" => (true, 3),
        b"route" => (true, 4),
        b"path" => (true, 3),
        b"tsap" => (true, 2),
        b"relay" => (true, 4),
        b"start" => (true, 0),
        b"connect" => (false, 9),
        b"accept" => (false, 6),
        b"refuse" | b"disconnect" | b"data" | b"expedite" | b"window" => (false, 2),
        b"unit" | b"send" => (false, 5),
        b"tick" | b"settle" => (false, 0),
        b"deliver" => (false, 2),
        b"inject" => (false, 3),
        b"restart" => (false, 1),
        _ => return None,
    })
}

impl Setup {
    pub fn new(command: Command) -> Setup {
        Setup {
            command,
            settings: Settings { set: [None; 9] },
            lans: Vec::new(),
            systems: Vec::new(),
            paths: Vec::new(),
            version: if matches!(command, Command::Inactive | Command::Relay) { 2 } else { 1 },
            relays: Vec::new(),
            is_begun: false,
            is_started: false,
            lan_names: Vec::new(),
            system_names: Vec::new(),
            path_names: Vec::new(),
        }
    }

    /// What a line says; one of the set-up is taken up.
    pub fn read_line(&mut self, line: &[u8], journal: &mut Journal) -> Result<Line, Fault> {
        let mut blanks = 0;
        for (at, octet) in line.iter().enumerate() {
            if !(0x20..=0x7e).contains(octet) {
                return Err(Fault { cause: "ascii", column: at + 1 });
            }
            blanks += usize::from(*octet == b' ');
        }
        if line.is_empty() || line[0] == b'#' {
            return Ok(Line::Nothing);
        }
        let mut fields = Fields { line, blanks, column: 1, next: 0 };
        let word = fields.next();
        let form = form_of(word).filter(|_| self.has(word));
        let (is_set_up, count) = form.ok_or(Fault { cause: "word", column: 1 })?;
        if is_set_up == self.is_started || word == b"version" && self.is_begun {
            return Err(Fault { cause: "order", column: 1 });
        }
        if blanks < count {
            return Err(Fault { cause: "fields", column: line.len() + 1 });
        }
        if blanks > count {
            for _ in 0..=count {
                fields.next();
            }
            return Err(Fault { cause: "fields", column: fields.column });
        }
        if is_set_up { self.declare(word, fields, journal) } else { self.read_event(word, fields) }
    }

    /// Whether a script of this command and version has lines of a word.
    fn has(&self, word: &[u8]) -> bool {
        match word {
            b"version" | b"inject" => self.command == Command::Run,
            b"unit" => matches!(self.command, Command::Run | Command::Relay),
            b"relay" => self.command == Command::Relay,
            b"is" | b"route" | b"path" => self.command != Command::Inactive,
            b"connect" | b"accept" | b"refuse" | b"disconnect" | b"data" | b"expedite" | b"window" => {
                self.command != Command::Datagrams
            }
            b"restart" => self.version == 2 && self.command != Command::Relay,
            b"send" => self.command == Command::Datagrams,
            _ => true,
        }
    }

    fn read_event(&self, word: &[u8], mut fields: Fields<'_>) -> Result<Line, Fault> {
        Ok(match word {
            b"connect" => Line::Connect {
                system: fields.read(|field| self.end_system(field))?,
                selector: fields.read(selector)?,
                to: fields.read(|field| self.end_system(field))?,
                called: fields.read(selector)?,
                options: fields.options(self.version)?,
                octets: fields.read(octets)?,
            },
            b"accept" => Line::Accept {
                end: fields.read(any_number)?,
                options: fields.options(self.version)?,
                octets: fields.read(octets)?,
            },
            b"refuse" => Line::Refuse { end: fields.read(any_number)?, octets: fields.read(octets)? },
            b"disconnect" => Line::Disconnect { end: fields.read(any_number)?, octets: fields.read(octets)? },
            b"data" => Line::Data { end: fields.read(any_number)?, octets: fields.read(octets)? },
            b"expedite" => Line::Expedite { end: fields.read(any_number)?, octets: fields.read(octets)? },
            b"window" => Line::Window {
                end: fields.read(any_number)?,
                credit: fields.read(|field| number(field, 0, 255))? as u16,
            },
            b"unit" => {
                let system = fields.read(|field| self.end_system(field))?;
                let to = fields.read(|field| self.end_system(field))?;
                let mut wish = fields.read(flags)?;
                wish.path = fields.read(|field| self.path(field))?;
                Line::Unit { system, to, wish, octets: fields.read(octets)? }
            }
            b"send" => Line::Send {
                system: fields.read(|field| self.end_system(field))?,
                selector: fields.read(selector)?,
                to: fields.read(|field| self.end_system(field))?,
                called: fields.read(selector)?,
                octets: fields.read(octets)?,
            },
            b"tick" => Line::Tick,
            b"settle" => Line::Settle,
            b"deliver" => {
                Line::Deliver { frame: fields.read(any_number)?, system: fields.read(|field| self.system(field))? }
            }
            b"restart" => Line::Restart { system: fields.read(|field| self.end_system(field))? },
            _ => Line::Inject {
                lan: fields.read(|field| self.lan(field))?,
                system: fields.read(|field| self.system(field))?,
                octets: fields.read(octets)?,
            },
        })
    }

    fn declare(&mut self, word: &[u8], mut fields: Fields<'_>, journal: &mut Journal) -> Result<Line, Fault> {
        match word {
            b"version" => self.version = fields.read(|field| number(field, 1, 2))?,
            b"set" => {
                let key = fields.read(|field| self.key(field))?;
                let value = fields.read(|field| self.value(key, field))?;
                self.settings.set[key] = Some(value);
            }
            b"lan" => {
                let name = fields.read(|field| new_name(field, &self.lan_names))?;
                let bound = fields.read(|field| number(field, 1, 16))?;
                let room = fields.read(|field| number(field, 264, 1497))? as usize;
                many(self.lans.len(), 16)?;
                journal.name_lan(&name);
                self.lan_names.push(name);
                self.lans.push(Lan { bound, room });
            }
            b"es" | b"is" => {
                let name = fields.read(|field| new_name(field, &self.system_names))?;
                let title = fields.read(|field| self.new_title(field))?;
                many(self.systems.len(), 16)?;
                journal.name_system(&name);
                self.system_names.push(name);
                self.systems.push(SystemSetup {
                    is_end: word == b"es",
                    title,
                    ports: Vec::new(),
                    routes: Vec::new(),
                    selectors: Vec::new(),
                });
            }
            b"port" => {
                let system = fields.read(|field| self.system(field))?;
                let lan = fields.read(|field| self.new_port_lan(system, field))?;
                let snpa = fields.read(|field| self.new_snpa(field))?;
                let system = &mut self.systems[usize::from(system)];
                many(system.ports.len(), if system.is_end { 1 } else { 8 })?;
                system.ports.push(Port { lan, snpa });
            }
            b"route" => {
                let system = fields.read(|field| self.system(field))?;
                let prefix = fields.read(|field| self.new_prefix(system, field))?;
                let next = fields.read(|field| self.system(field))?;
                let hop = fields.read(|field| self.hop(system, next, field))?;
                let system = &mut self.systems[usize::from(system)];
                many(system.routes.len(), 256)?;
                system.routes.push((prefix, hop));
            }
            b"path" => {
                let name = fields.read(|field| new_name(field, &self.path_names))?;
                let is_complete = fields.read(|field| choice(field, b"complete", b"partial"))?;
                let titles = fields.read(|field| self.hops(field))?;
                many(self.paths.len(), 16)?;
                self.paths.push(Path { is_complete, titles });
                self.path_names.push(name);
            }
            b"tsap" => {
                let system = fields.read(|field| self.end_system(field))?;
                let selector = fields.read(|field| self.new_selector(system, field))?;
                self.systems[usize::from(system)].selectors.push(selector);
            }
            b"relay" => {
                let system = fields.read(|field| self.end_system(field))?;
                let taken = fields.read(|field| self.new_selector(system, field))?;
                let to = fields.read(|field| self.other_end_system(system, field))?;
                let called = fields.read(selector)?;
                self.systems[usize::from(system)].selectors.push(taken.clone());
                self.relays.push(Row { system, selector: taken, to, called });
            }
            _ => {
                let life = self.settings.get("life");
                if self.lans.iter().any(|lan| life < lan.bound) {
                    return Err(Fault { cause: "life", column: 1 });
                }
                self.is_started = true;
                return Ok(Line::Start);
            }
        }
        self.is_begun = true;
        Ok(Line::Nothing)
    }

    fn system(&self, field: &[u8]) -> Result<u8, Cause> {
        Ok(number_of(field, &self.system_names)? as u8)
    }

    fn end_system(&self, field: &[u8]) -> Result<u8, Cause> {
        let system = self.system(field)?;
        if self.systems[usize::from(system)].is_end { Ok(system) } else { Err("unknown") }
    }

    /// An end system that is not that one.
    fn other_end_system(&self, system: u8, field: &[u8]) -> Result<u8, Cause> {
        let other = self.end_system(field)?;
        if other == system { Err("unknown") } else { Ok(other) }
    }

    fn lan(&self, field: &[u8]) -> Result<u8, Cause> {
        Ok(number_of(field, &self.lan_names)? as u8)
    }

    fn path(&self, field: &[u8]) -> Result<usize, Cause> {
        if field == b"-" { Ok(0) } else { Ok(number_of(field, &self.path_names)? + 1) }
    }

    fn key(&self, field: &[u8]) -> Result<usize, Cause> {
        let key = KEYS.iter().position(|row| row.0.as_bytes() == field).ok_or("syntax")?;
        if self.settings.set[key].is_some() { Err("repeat") } else { Ok(key) }
    }

    fn value(&self, key: usize, field: &[u8]) -> Result<u32, Cause> {
        let value = number(field, KEYS[key].1, KEYS[key].2)?;
        let after = |name| if KEYS[key].0 == name { value } else { self.settings.get(name) };
        if after("w") < after("i") { Ok(value) } else { Err("range") }
    }

    fn new_title(&self, field: &[u8]) -> Result<Nsap, Cause> {
        let octets = digits(field, 0, 20)?;
        let title = Nsap::of(&octets).filter(|title| octets.len() > 1 && title.selector() == 0).ok_or("range")?;
        if self.systems.iter().any(|system| system.title == title) { Err("repeat") } else { Ok(title) }
    }

    fn new_snpa(&self, field: &[u8]) -> Result<Snpa, Cause> {
        let snpa: Snpa = digits(field, 6, 6)?.try_into().unwrap();
        if is_group(&snpa) {
            return Err("range");
        }
        let stands = self.systems.iter().any(|system| system.ports.iter().any(|port| port.snpa == snpa));
        if stands { Err("repeat") } else { Ok(snpa) }
    }

    fn new_prefix(&self, system: u8, field: &[u8]) -> Result<Vec<u8>, Cause> {
        let prefix = if field == b"-" { Vec::new() } else { digits(field, 0, 20)? };
        let routes = &self.systems[usize::from(system)].routes;
        if routes.iter().any(|route| route.0 == prefix) { Err("repeat") } else { Ok(prefix) }
    }

    fn new_selector(&self, system: u8, field: &[u8]) -> Result<Vec<u8>, Cause> {
        let selector = selector(field)?;
        if self.systems[usize::from(system)].selectors.contains(&selector) { Err("repeat") } else { Ok(selector) }
    }

    fn port_of(&self, system: u8, lan: u8) -> Option<Port> {
        self.systems[usize::from(system)].ports.iter().copied().find(|port| port.lan == lan)
    }

    fn new_port_lan(&self, system: u8, field: &[u8]) -> Result<u8, Cause> {
        let lan = self.lan(field)?;
        if self.port_of(system, lan).is_some() { Err("repeat") } else { Ok(lan) }
    }

    fn hop(&self, system: u8, next: u8, field: &[u8]) -> Result<Hop, Cause> {
        let lan = self.lan(field)?;
        let (Some(_), Some(port)) = (self.port_of(system, lan), self.port_of(next, lan)) else {
            return Err("unknown");
        };
        let next = &self.systems[usize::from(next)];
        Ok(Hop { port, title: (!next.is_end).then_some(next.title) })
    }

    fn hops(&self, field: &[u8]) -> Result<Vec<Nsap>, Cause> {
        let names: Vec<&[u8]> = field.split(|octet| *octet == b',').collect();
        if !names.iter().all(|name| is_name(name)) {
            return Err("syntax");
        }
        if names.len() > 4 {
            return Err("range");
        }
        names
            .into_iter()
            .map(|name| {
                let system = &self.systems[usize::from(self.system(name)?)];
                if system.is_end { Err("unknown") } else { Ok(system.title) }
            })
            .collect()
    }
}

/// The fields of a line, which are read one after another.
struct Fields<'a> {
    line: &'a [u8],
    /// The blanks behind what was read.
    blanks: usize,
    /// The column of the last field that was read.
    column: usize,
    next: usize,
}

impl<'a> Fields<'a> {
    fn next(&mut self) -> &'a [u8] {
        let rest = &self.line[self.next..];
        self.column = self.next + 1;
        if self.blanks == 0 {
            return rest;
        }
        let length = rest.iter().position(|octet| *octet == b' ').unwrap_or(rest.len());
        self.blanks -= 1;
        self.next += length + 1;
        &rest[..length]
    }

    fn read<T>(&mut self, read: impl FnOnce(&[u8]) -> Result<T, Cause>) -> Result<T, Fault> {
        read(self.next()).map_err(|cause| Fault { cause, column: self.column })
    }

    fn options(&mut self, version: u32) -> Result<Options, Fault> {
        let extended = self.read(|field| choice(field, b"extended", b"normal"))?;
        let (size, preferred) = self.read(|field| size(field, version))?;
        Ok(Options {
            extended,
            size,
            preferred,
            expedited: self.read(|field| choice(field, b"exp", b"noexp"))?,
            sum: self.read(|field| choice(field, b"sum", b"nosum"))?,
        })
    }
}

/// The number of a name that was declared.
fn number_of(field: &[u8], names: &[Vec<u8>]) -> Result<usize, Cause> {
    match names.iter().position(|name| name == field) {
        Some(number) => Ok(number),
        None if is_name(field) => Err("unknown"),
        None => Err("syntax"),
    }
}

fn many(count: usize, limit: usize) -> Result<(), Fault> {
    if count < limit { Ok(()) } else { Err(Fault { cause: "many", column: 1 }) }
}

fn is_name(field: &[u8]) -> bool {
    (1..=8).contains(&field.len())
        && field[0].is_ascii_lowercase()
        && field.iter().all(|octet| octet.is_ascii_alphanumeric())
        && field != b"frame"
}

fn new_name(field: &[u8], names: &[Vec<u8>]) -> Result<Vec<u8>, Cause> {
    if !is_name(field) {
        return Err("syntax");
    }
    if names.iter().any(|name| name == field) { Err("repeat") } else { Ok(field.to_vec()) }
}

fn number(field: &[u8], least: u32, most: u32) -> Result<u32, Cause> {
    let is_number = (1..=9).contains(&field.len())
        && field.iter().all(|octet| octet.is_ascii_digit())
        && (field.len() == 1 || field[0] != b'0');
    if !is_number {
        return Err("syntax");
    }
    let number = field.iter().fold(0, |number, digit| 10 * number + u32::from(digit - b'0'));
    if (least..=most).contains(&number) { Ok(number) } else { Err("range") }
}

fn any_number(field: &[u8]) -> Result<u32, Cause> {
    number(field, 0, 999_999_999)
}

fn digits(field: &[u8], least: usize, most: usize) -> Result<Vec<u8>, Cause> {
    let octets = read_hex(field).filter(|octets| !octets.is_empty()).ok_or("syntax")?;
    if (least..=most).contains(&octets.len()) { Ok(octets) } else { Err("range") }
}

fn octets(field: &[u8]) -> Result<Vec<u8>, Cause> {
    if field == b"-" {
        return Ok(Vec::new());
    }
    read_hex(field).filter(|octets| !octets.is_empty()).ok_or("syntax")
}

fn selector(field: &[u8]) -> Result<Vec<u8>, Cause> {
    let octets = octets(field)?;
    if (1..=32).contains(&octets.len()) { Ok(octets) } else { Err("range") }
}

fn choice(field: &[u8], yes: &[u8], no: &[u8]) -> Result<bool, Cause> {
    if field == yes {
        Ok(true)
    } else if field == no {
        Ok(false)
    } else {
        Err("syntax")
    }
}

/// A size in octets, and whether it is a preferred one.
fn size(field: &[u8], version: u32) -> Result<(u16, bool), Cause> {
    if let (2, [b'p', digits @ ..]) = (version, field) {
        return Ok((128 * number(digits, 1, 128)? as u16, true));
    }
    match number(field, 0, 9_999) {
        Ok(size @ (128 | 256 | 512 | 1024 | 2048 | 4096 | 8192)) => Ok((size as u16, false)),
        _ => Err("syntax"),
    }
}

fn flags(field: &[u8]) -> Result<Wish, Cause> {
    match field {
        b"-" | b"s" | b"e" | b"r" | b"se" | b"sr" | b"er" | b"ser" => Ok(Wish {
            cut: field.contains(&b's'),
            report: field.contains(&b'e'),
            record: field.contains(&b'r'),
            path: 0,
        }),
        _ => Err("syntax"),
    }
}
