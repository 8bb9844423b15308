//! A system of the network: what it sends, and what it does with a frame.

use crate::address::{ALL_ENDS, ALL_INTERMEDIATES, Hop, Nsap, Port, Snpa, is_group};
use crate::clnp::{self, Fault, Kind, Pdu, Segment};
use crate::esis::{self, Hello};
use crate::journal::Journal;
use crate::neighbours::Known;
use crate::reassembly::{Expired, Joined, Store};
use crate::script::{Path, Setup, Wish};

const TRANSPORT: u8 = 1;
const RAW: u8 = 2;
const MOST_OCTETS: usize = 16_384;

pub struct Unit {
    pub from: Nsap,
    pub to: Nsap,
    pub octets: Vec<u8>,
}

/// A frame that a system sends from its port on a LAN.
pub struct Frame {
    pub to: Port,
    pub pdu: Vec<u8>,
}

/// A frame that came: its sender, its destination, and what it carries.
struct Came<'a> {
    now: u32,
    from: Snpa,
    to: Port,
    pdu: &'a [u8],
}

impl Came<'_> {
    fn sender(&self) -> Port {
        Port { lan: self.to.lan, snpa: self.from }
    }

    fn wants_report(&self, pdu: &Pdu<'_>) -> bool {
        pdu.wants_report && !is_group(&self.to.snpa)
    }
}

/// What comes of a frame: a unit that came up, and frames to send. Notes are told at once.
#[derive(Default)]
pub struct Handled {
    pub unit: Option<Unit>,
    pub frames: Vec<Frame>,
}

/// Where a PDU goes next, by its source route.
enum Aim {
    Destination,
    Entry { title: Nsap, is_complete: bool },
    Nowhere,
}

pub struct System {
    number: u8,
    pub is_end: bool,
    pub title: Nsap,
    ports: Vec<Port>,
    routes: Vec<(Vec<u8>, Hop)>,
    paths: Vec<Path>,
    bounds: Vec<u32>,
    rooms: Vec<usize>,
    life: u8,
    hello_ticks: u32,
    hold: u16,
    next_id: u16,
    /// When an identifier of the lower and of the upper half was given last.
    given: [Option<u32>; 2],
    store: Store,
    neighbours: Known,
    redirects: Known,
}

impl System {
    pub fn new(number: usize, setup: &Setup) -> System {
        let own = &setup.systems[number];
        System {
            number: number as u8,
            is_end: own.is_end,
            title: own.title,
            ports: own.ports.clone(),
            routes: own.routes.clone(),
            paths: setup.paths.clone(),
            bounds: setup.lans.iter().map(|lan| lan.bound).collect(),
            rooms: setup.lans.iter().map(|lan| lan.room).collect(),
            life: setup.settings.get("life") as u8,
            hello_ticks: setup.settings.get("ct"),
            hold: setup.settings.get("hold") as u16,
            next_id: 0,
            given: [None, None],
            store: Store::new(),
            neighbours: Known::new(),
            redirects: Known::new(),
        }
    }

    /// The SNPA of the port on a LAN.
    pub fn snpa_on(&self, lan: u8) -> Option<Snpa> {
        self.ports.iter().find(|port| port.lan == lan).map(|port| port.snpa)
    }

    fn room(&self, lan: u8) -> usize {
        self.rooms[usize::from(lan)]
    }

    fn is_own(&self, address: &Nsap) -> bool {
        address.same_system(&self.title)
    }

    /// The hop to an address, but for all end systems.
    fn found_hop(&self, now: u32, address: &Nsap) -> Option<Hop> {
        if self.ports.is_empty() || self.is_own(address) {
            return None;
        }
        if !self.is_end {
            return self.neighbours.find(now, address).or_else(|| self.route(address));
        }
        self.redirects
            .find(now, address)
            .or_else(|| self.neighbours.find(now, address))
            .or_else(|| self.route(address))
            .or_else(|| self.neighbours.router(now))
    }

    fn hop(&self, now: u32, address: &Nsap) -> Option<Hop> {
        if self.is_own(address) {
            return None;
        }
        self.found_hop(now, address).or_else(|| {
            let port = self.ports.first().filter(|_| self.is_end)?;
            Some(Hop { port: Port { lan: port.lan, snpa: ALL_ENDS }, title: None })
        })
    }

    /// The hop of the longest prefix.
    fn route(&self, address: &Nsap) -> Option<Hop> {
        let covering = self.routes.iter().filter(|(prefix, _)| address.octets().starts_with(prefix));
        covering.max_by_key(|(prefix, _)| prefix.len()).map(|(_, hop)| *hop)
    }

    /// The frames of a unit, or why it is not sent.
    pub fn send(&mut self, now: u32, unit: &Unit, wish: &Wish) -> Result<Vec<Frame>, &'static str> {
        if unit.octets.len() > MOST_OCTETS {
            return Err("toolong");
        }
        let path = wish.path.checked_sub(1).map(|at| &self.paths[at]);
        let hop = match path {
            _ if self.is_own(&unit.to) => None,
            Some(path) => self.found_hop(now, &path.titles[0]),
            None => self.hop(now, &unit.to),
        };
        let hop = hop.ok_or("noroute")?;
        let half = usize::from(self.next_id >= 32_768);
        if wish.cut && self.next_id % 32_768 == 0 {
            if self.given[half].is_some_and(|last| now <= last + u32::from(self.life)) {
                return Err("idsspent");
            }
        }
        let options = first_options(path, wish.record);
        let header = clnp::header_length(&unit.to, &unit.from, wish.cut, &options);
        let total = (header + unit.octets.len()) as u16;
        let pdu = Pdu {
            kind: Kind::Dt,
            destination: unit.to,
            source: unit.from,
            lifetime: self.life,
            has_checksum: true,
            wants_report: wish.report,
            segment: wish.cut.then_some(Segment { id: self.next_id, offset: 0, total, more: false }),
            options: &options,
            header: &[],
            body: &unit.octets,
        };
        let mut frames = Vec::new();
        if !clnp::write_cut(pdu, self.room(hop.port.lan), |pdu| frames.push(Frame { to: hop.port, pdu })) {
            return Err("toolong");
        }
        if wish.cut {
            self.given[half] = Some(now);
            self.next_id = self.next_id.wrapping_add(1);
        }
        Ok(frames)
    }

    /// What comes of a frame.
    pub fn receive(&mut self, now: u32, from: Snpa, to: Port, pdu: &[u8], journal: &mut Journal) -> Handled {
        let came = Came { now, from, to, pdu };
        match pdu[0] {
            0x81 => match clnp::read(pdu) {
                Ok(pdu) => self.carry_out(&came, &pdu, journal),
                Err(fault) => self.refuse(&came, fault, journal),
            },
            0x82 => {
                self.hear(&came, journal);
                Handled::default()
            }
            _ => {
                journal.of_system("alien", self.number);
                Handled::default()
            }
        }
    }

    /// A PDU with a fault is discarded.
    fn refuse(&self, came: &Came<'_>, fault: Fault, journal: &mut Journal) -> Handled {
        journal.reason("discard", self.number, fault.reason, fault.place);
        if !fault.is_reportable || is_group(&came.to.snpa) {
            return Handled::default();
        }
        let header = &came.pdu[..usize::from(came.pdu[1])];
        let source = clnp::address_at(header, 10 + usize::from(header[9]));
        let report = source.and_then(|source| self.report(came.now, source, header, fault.reason, fault.place));
        Handled { unit: None, frames: report.into_iter().collect() }
    }

    fn discard(&self, came: &Came<'_>, pdu: &Pdu<'_>, reason: u8, place: u8, journal: &mut Journal) -> Handled {
        journal.reason("discard", self.number, reason, place);
        let report = if came.wants_report(pdu) { self.report(came.now, pdu.source, pdu.header, reason, place) } else { None };
        Handled { unit: None, frames: report.into_iter().collect() }
    }

    /// The report about a discarded PDU to its source.
    fn report(&self, now: u32, source: Nsap, header: &[u8], reason: u8, place: u8) -> Option<Frame> {
        let hop = self.hop(now, &source)?;
        let pdu = clnp::write(&Pdu {
            kind: Kind::Er,
            destination: source,
            source: self.title,
            lifetime: self.life,
            has_checksum: true,
            wants_report: false,
            segment: None,
            options: &[clnp::REASON, 2, reason, place],
            header: &[],
            body: header,
        });
        (pdu.len() <= self.room(hop.port.lan)).then_some(Frame { to: hop.port, pdu })
    }

    fn carry_out(&mut self, came: &Came<'_>, pdu: &Pdu<'_>, journal: &mut Journal) -> Handled {
        let bound = self.bounds[usize::from(came.to.lan)];
        let lifetime = u32::from(pdu.lifetime);
        if self.is_own(&pdu.destination) {
            if lifetime < bound {
                return self.discard(came, pdu, 0xa0, 4, journal);
            }
            return self.take(came, pdu, lifetime - bound, journal);
        }
        if self.is_end {
            return self.discard(came, pdu, 0x80, 0, journal);
        }
        if lifetime <= bound {
            return self.discard(came, pdu, 0xa0, 4, journal);
        }
        self.pass(came, pdu, bound as u8, journal)
    }

    /// A PDU for this system.
    fn take(&mut self, came: &Came<'_>, pdu: &Pdu<'_>, left: u32, journal: &mut Journal) -> Handled {
        if pdu.kind == Kind::Er {
            if let Some([reason, place]) = clnp::option(pdu.options, clnp::REASON) {
                journal.reason("report", self.number, *reason, *place);
            }
            return Handled::default();
        }
        if !self.is_end || ![TRANSPORT, RAW].contains(&pdu.destination.selector()) {
            return self.discard(came, pdu, 0x81, 0, journal);
        }
        let octets = match &pdu.segment {
            None => Some(pdu.body.to_vec()),
            Some(part) => match self.store.take(came.now, pdu, part, left, came.wants_report(pdu)) {
                Joined::Held => None,
                Joined::Whole(octets) => Some(octets),
                Joined::Full => return self.discard(came, pdu, 0x03, 0, journal),
                Joined::Interference => return self.discard(came, pdu, 0xc0, 0, journal),
            },
        };
        let unit = octets.map(|octets| Unit { from: pdu.source, to: pdu.destination, octets });
        let mut frames = Vec::new();
        if is_group(&came.to.snpa) {
            frames.push(Frame { to: came.sender(), pdu: esis::write(&self.esh()) });
        }
        Handled { unit, frames }
    }

    /// A PDU goes onward.
    fn pass(&self, came: &Came<'_>, pdu: &Pdu<'_>, bound: u8, journal: &mut Journal) -> Handled {
        let hop = match self.aim(pdu) {
            Aim::Nowhere => return self.discard(came, pdu, 0x93, 0, journal),
            Aim::Destination => match self.hop(came.now, &pdu.destination) {
                None => return self.discard(came, pdu, 0x80, 0, journal),
                Some(hop) => hop,
            },
            Aim::Entry { title, is_complete } => match self.found_hop(came.now, &title) {
                None => return self.discard(came, pdu, 0x92, 0, journal),
                Some(hop) if is_complete && hop.title != Some(title) => {
                    return self.discard(came, pdu, 0x93, 0, journal);
                }
                Some(hop) => hop,
            },
        };
        let options = self.onward_options(pdu.options);
        let onward = Pdu { lifetime: pdu.lifetime - bound, options: &options, header: &[], ..*pdu };
        let mut frames = Vec::new();
        if !clnp::write_cut(onward, self.room(hop.port.lan), |pdu| frames.push(Frame { to: hop.port, pdu })) {
            return self.discard(came, pdu, 0x05, 0, journal);
        }
        if hop.port.lan == came.to.lan && hop.port.snpa != came.from {
            let rd = Hello::Rd { hold: self.hold, address: pdu.destination, snpa: hop.port.snpa, title: hop.title };
            frames.push(Frame { to: came.sender(), pdu: esis::write(&rd) });
        }
        Handled { unit: None, frames }
    }

    fn aim(&self, pdu: &Pdu<'_>) -> Aim {
        let Some(value) = clnp::option(pdu.options, clnp::SOURCE_ROUTE) else {
            return Aim::Destination;
        };
        let is_complete = value[0] == 1;
        match clnp::next_title(value) {
            None => Aim::Destination,
            Some(title) if title == self.title => {
                let mut behind = value.to_vec();
                clnp::advance(&mut behind);
                match clnp::next_title(&behind) {
                    None => Aim::Destination,
                    Some(title) => Aim::Entry { title, is_complete },
                }
            }
            Some(_) if is_complete => Aim::Nowhere,
            Some(title) => Aim::Entry { title, is_complete },
        }
    }

    /// Options as they go onward: the own title is passed in a source route, and recorded.
    fn onward_options(&self, options: &[u8]) -> Vec<u8> {
        let mut options = options.to_vec();
        let mut at = 0;
        while at < options.len() {
            let end = at + 2 + usize::from(options[at + 1]);
            let code = options[at];
            let value = &mut options[at + 2..end];
            if code == clnp::SOURCE_ROUTE && clnp::next_title(value) == Some(self.title) {
                clnp::advance(value);
            } else if code == clnp::RECORDING {
                clnp::record(value, &self.title);
            }
            at = end;
        }
        options
    }

    fn hear(&mut self, came: &Came<'_>, journal: &mut Journal) {
        let hello = match esis::read(came.pdu) {
            Ok(hello) => hello,
            Err(cause) => return journal.of_system_word("badhello", self.number, cause),
        };
        let (now, port) = (came.now, came.sender());
        let (is_heard, kind) = match hello {
            Hello::Esh { hold, addresses } => (self.neighbours.hear(now, &addresses, hold, port, None), "esh"),
            Hello::Ish { hold, title } => (self.neighbours.hear(now, &[title], hold, port, Some(title)), "ish"),
            Hello::Rd { hold, address, snpa, title } if self.is_end => {
                let port = Port { lan: came.to.lan, snpa };
                if self.redirects.hear(now, &[address], hold, port, title) {
                    return journal.redirect(self.number, &address, &snpa);
                }
                (false, "rd")
            }
            Hello::Rd { .. } => (true, "rd"),
        };
        if is_heard {
            journal.hello(self.number, kind, &came.from);
        } else {
            journal.of_system("hellofull", self.number);
        }
    }

    fn esh(&self) -> Hello {
        let addresses = vec![self.title.with_selector(TRANSPORT), self.title.with_selector(RAW)];
        Hello::Esh { hold: self.hold, addresses }
    }

    /// A tick: what is over is given up, and hellos go out where they are due.
    pub fn tick(&mut self, now: u32, journal: &mut Journal) -> Vec<Frame> {
        self.neighbours.tick(now);
        self.redirects.tick(now);
        let expired = self.store.expire(now);
        for _ in &expired {
            journal.reason("discard", self.number, 0xa1, 0);
        }
        let wanted = expired.iter().filter(|unit| unit.wants_report);
        let mut frames: Vec<Frame> = wanted.filter_map(|unit| self.report_expired(now, unit)).collect();
        if self.hello_ticks > 0 && now % self.hello_ticks == 0 {
            let (hello, snpa) = if self.is_end {
                (self.esh(), ALL_INTERMEDIATES)
            } else {
                (Hello::Ish { hold: self.hold, title: self.title }, ALL_ENDS)
            };
            let pdu = esis::write(&hello);
            frames.extend(self.ports.iter().map(|port| Frame { to: Port { lan: port.lan, snpa }, pdu: pdu.clone() }));
        }
        frames
    }

    fn report_expired(&self, now: u32, unit: &Expired) -> Option<Frame> {
        self.report(now, unit.source, &unit.header, 0xa1, 0)
    }
}

/// The options of a unit: its source route, and a recording with nothing in it.
fn first_options(path: Option<&Path>, records: bool) -> Vec<u8> {
    let mut options = Vec::new();
    if let Some(path) = path {
        let length: usize = path.titles.iter().map(|title| 1 + title.octets().len()).sum();
        options.extend_from_slice(&[clnp::SOURCE_ROUTE, 2 + length as u8, u8::from(path.is_complete), 3]);
        for title in &path.titles {
            options.push(title.octets().len() as u8);
            options.extend_from_slice(title.octets());
        }
    }
    if records {
        options.extend_from_slice(&[clnp::RECORDING, 63, 0, 3]);
        options.resize(options.len() + 61, 0);
    }
    options
}
