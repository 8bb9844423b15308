//! The network of a script with its transport entities, and what its lines do.

use crate::address::{Nsap, Port};
use crate::connection::Call;
use crate::entity::{Entity, Request};
use crate::journal::Journal;
use crate::lans::Lans;
use crate::network::{Frame, Handled, System, Unit};
use crate::relay::{MOST_WAITING, Phase, Reaction, Relay};
use crate::script::{Command, Fault, Line, Setup, Wish};
use crate::subset::Subset;
use crate::ud::{self, Ud};
use std::collections::VecDeque;

const MOST_AFLOAT: usize = 40_000;
const MOST_DELIVERIES: u32 = 65_536;
const MOST_TURNS: u32 = 64;
const LONGEST_DATAGRAM: usize = 16_000;
const TRANSPORT: u8 = 1;
const RAW: u8 = 2;

/// A unit of transport may be cut.
const TRANSPORT_WISH: Wish = Wish { cut: true, report: false, record: false, path: 0 };

pub struct World {
    setup: Setup,
    network: Option<Network>,
}

/// An end that was made: its system and its reference there.
#[derive(Clone, Copy)]
pub struct EndAt {
    pub system: u8,
    pub reference: u16,
}

struct Network {
    lans: Lans,
    systems: Vec<System>,
    /// In place of what the systems do, where their network is the inactive subset.
    subset: Option<Subset>,
    /// Where connections are made, the entities of the end systems.
    entities: Vec<Option<Entity>>,
    ends: Vec<EndAt>,
    /// Where datagrams are sent, the selectors of the users of each system.
    users: Option<Vec<Vec<Vec<u8>>>>,
    relay: Option<Relay>,
    life: u32,
    /// The units that may still arrive, with the ticks at which they were taken.
    afloat: VecDeque<(u32, Unit)>,
    is_injected: bool,
    strays: u32,
}

impl World {
    pub fn new(command: Command) -> World {
        World { setup: Setup::new(command), network: None }
    }

    /// How many units came up that none sent, where something was injected.
    pub fn strays(&self) -> Option<u32> {
        self.network.as_ref().filter(|network| network.is_injected).map(|network| network.strays)
    }

    pub fn run_line(&mut self, line: &[u8], journal: &mut Journal) -> Result<(), Fault> {
        match self.setup.read_line(line, journal)? {
            Line::Nothing => {}
            Line::Start => {
                let mut network = Network::new(&self.setup);
                network.start(journal);
                self.network = Some(network);
            }
            line => {
                if let Some(network) = &mut self.network {
                    network.run_line(line, journal);
                }
            }
        }
        Ok(())
    }
}

impl Network {
    fn new(setup: &Setup) -> Network {
        let has_datagrams = setup.command == Command::Datagrams;
        Network {
            lans: Lans::new(&setup.lans, &setup.systems),
            systems: (0..setup.systems.len()).map(|number| System::new(number, setup)).collect(),
            subset: (setup.command == Command::Inactive).then(|| Subset::new(setup)),
            entities: setup
                .systems
                .iter()
                .enumerate()
                .map(|(number, system)| {
                    let is_there = system.is_end && !has_datagrams;
                    is_there.then(|| Entity::new(number as u8, system, &setup.settings))
                })
                .collect(),
            ends: Vec::new(),
            users: has_datagrams.then(|| setup.systems.iter().map(|system| system.selectors.clone()).collect()),
            relay: (setup.command == Command::Relay)
                .then(|| Relay::new(setup.relays.clone(), setup.settings.get("credit") as u16)),
            life: setup.settings.get("life"),
            afloat: VecDeque::new(),
            is_injected: false,
            strays: 0,
        }
    }

    fn start(&mut self, journal: &mut Journal) {
        if self.relay.is_some() {
            journal.heard = Some(Vec::new());
        }
        journal.tick(0);
        self.tick_systems(journal);
    }

    /// Where there are relays, a pump follows; and a `settle` line has turns.
    fn run_line(&mut self, line: Line, journal: &mut Journal) {
        let Some(relay) = &self.relay else {
            return self.do_line(line, journal);
        };
        match line {
            Line::Settle => self.settle_in_turns(journal),
            line if is_relayed(relay, &line) => {
                journal.no("relayed");
                self.pump(journal);
            }
            line => {
                self.do_line(line, journal);
                self.pump(journal);
            }
        }
    }

    fn settle_in_turns(&mut self, journal: &mut Journal) {
        for _ in 0..MOST_TURNS {
            let is_settled = self.settle(journal);
            if !self.pump(journal) || !is_settled {
                return;
            }
        }
    }

    /// What the relays do about the events of a line, and for each open pair; whether one of their calls was done.
    fn pump(&mut self, journal: &mut Journal) -> bool {
        let Some(mut relay) = self.relay.take() else {
            return false;
        };
        let heard = journal.heard.as_mut().map(std::mem::take).unwrap_or_default();
        let mut is_done = false;
        for event in heard {
            match relay.hear(event) {
                Reaction::Nothing => {}
                Reaction::Begin { inbound, row, options, octets } => {
                    let row = relay.rows[row].clone();
                    let to = self.systems[usize::from(row.to)].title.with_selector(TRANSPORT);
                    let request = Request { selector: row.selector, to, called: row.called, options, octets };
                    journal.is_refused = false;
                    self.connect(row.system, request, journal);
                    if journal.is_refused {
                        is_done |= self.ask(inbound, Call::Refuse(Vec::new()), journal);
                    } else {
                        let outbound = self.ends.len() as u32;
                        journal.joined(inbound, outbound);
                        relay.join(inbound, outbound);
                        is_done = true;
                    }
                }
                Reaction::Ask(end, call) => {
                    let accepts = matches!(call, Call::Accept(..));
                    if self.ask(end, call, journal) {
                        is_done = true;
                        if accepts {
                            relay.accepted(end);
                        }
                    }
                }
            }
        }
        for at in relay.open_places() {
            for way in 0..2 {
                is_done |= self.serve(&mut relay, at, way, journal);
            }
        }
        self.relay = Some(relay);
        is_done
    }

    /// Calls an end; whether that was done.
    fn ask(&mut self, end: u32, call: Call, journal: &mut Journal) -> bool {
        journal.is_refused = false;
        self.call(end, call, journal);
        !journal.is_refused
    }

    /// One way of a pair, where it is open.
    fn serve(&mut self, relay: &mut Relay, at: usize, way: usize, journal: &mut Journal) -> bool {
        if relay.pairs[at].phase != Phase::Open {
            return false;
        }
        let mut is_done = false;
        let (near, far) = (relay.pairs[at].ways[way].near, relay.pairs[at].ways[way].far);
        while let Some(unit) = relay.pairs[at].ways[way].waiting.front().cloned() {
            let call = if unit.is_expedited { Call::Expedite(unit.octets) } else { Call::Data(unit.octets) };
            if !self.ask(far, call, journal) {
                break;
            }
            is_done = true;
            relay.pairs[at].ways[way].waiting.pop_front();
        }
        let left = relay.pairs[at].ways[way].waiting.len();
        let is_lowered = relay.pairs[at].ways[way].is_lowered;
        if left > MOST_WAITING {
            let (inbound, outbound) = (relay.pairs[at].inbound, relay.pairs[at].outbound);
            let first = self.ask(inbound, Call::Disconnect(Vec::new()), journal);
            let second = self.ask(outbound, Call::Disconnect(Vec::new()), journal);
            if first || second {
                relay.close(at);
                is_done = true;
            }
        } else if (left > 0) != is_lowered {
            let credit = if left > 0 { 0 } else { relay.credit };
            if self.ask(near, Call::Window(credit), journal) {
                relay.pairs[at].ways[way].is_lowered = !is_lowered;
                is_done = true;
            }
        }
        is_done
    }

    fn do_line(&mut self, line: Line, journal: &mut Journal) {
        match line {
            Line::Nothing | Line::Start => {}
            Line::Connect { system, selector, to, called, options, octets } => {
                let to = self.systems[usize::from(to)].title.with_selector(TRANSPORT);
                self.connect(system, Request { selector, to, called, options, octets }, journal);
            }
            Line::Accept { end, options, octets } => self.call(end, Call::Accept(options, octets), journal),
            Line::Refuse { end, octets } => self.call(end, Call::Refuse(octets), journal),
            Line::Disconnect { end, octets } => self.call(end, Call::Disconnect(octets), journal),
            Line::Data { end, octets } => self.call(end, Call::Data(octets), journal),
            Line::Expedite { end, octets } => self.call(end, Call::Expedite(octets), journal),
            Line::Window { end, credit } => self.call(end, Call::Window(credit), journal),
            Line::Unit { system, to, wish, octets } => self.raw_unit(system, to, &wish, octets, journal),
            Line::Send { system, selector, to, called, octets } => {
                self.send_datagram(system, to, &Ud { from: &selector, to: &called, octets: &octets }, journal);
            }
            Line::Tick => self.tick(journal),
            Line::Settle => {
                self.settle(journal);
            }
            Line::Deliver { frame, system } => self.deliver(frame, system, journal),
            Line::Restart { system } => self.restart(system, journal),
            Line::Inject { lan, system, octets } => self.inject(lan, system, &octets, journal),
        }
    }

    fn raw_unit(&mut self, system: u8, to: u8, wish: &Wish, octets: Vec<u8>, journal: &mut Journal) {
        if octets.is_empty() {
            return journal.no("emptyunit");
        }
        let from = self.systems[usize::from(system)].title.with_selector(RAW);
        let to = self.systems[usize::from(to)].title.with_selector(RAW);
        let unit = Unit { from, to, octets };
        match self.offer(system, &unit, wish) {
            Ok(frames) => {
                journal.raw("sent", system, &to, &unit.octets);
                self.afloat.push_back((self.lans.now, unit));
                self.send_frames(system, frames, journal);
            }
            Err(cause) => journal.no(cause),
        }
    }

    fn send_datagram(&mut self, system: u8, to: u8, datagram: &Ud<'_>, journal: &mut Journal) {
        if datagram.octets.len() > LONGEST_DATAGRAM {
            return journal.no("toolong");
        }
        let from = self.systems[usize::from(system)].title.with_selector(TRANSPORT);
        let to = self.systems[usize::from(to)].title.with_selector(TRANSPORT);
        let unit = Unit { from, to, octets: ud::write(datagram) };
        match self.offer(system, &unit, &TRANSPORT_WISH) {
            Ok(frames) => {
                journal.datagram("send", system, [datagram.from, to.octets(), datagram.to, datagram.octets]);
                self.afloat.push_back((self.lans.now, unit));
                self.send_frames(system, frames, journal);
            }
            Err(cause) => journal.no(cause),
        }
    }

    /// The frames of a unit of a system, or why it is not taken.
    fn offer(&mut self, system: u8, unit: &Unit, wish: &Wish) -> Result<Vec<Frame>, &'static str> {
        if let Some(subset) = &self.subset {
            let frame = subset.send(unit)?;
            return if self.lans.is_full() { Err("full") } else { Ok(vec![frame]) };
        }
        if self.afloat.len() >= MOST_AFLOAT {
            return Err("full");
        }
        self.systems[usize::from(system)].send(self.lans.now, unit, wish)
    }

    fn send_frames(&mut self, system: u8, frames: Vec<Frame>, journal: &mut Journal) {
        for frame in frames {
            let Some(from) = self.systems[usize::from(system)].snpa_on(frame.to.lan) else {
                continue;
            };
            match self.lans.send(system, from, frame.to, frame.pdu) {
                Some(number) => {
                    if let Some(sent) = self.lans.frame(number) {
                        journal.frame(sent.tick, number, system, &sent.from, &sent.to, &sent.pdu);
                    }
                }
                None => journal.of_system_word_first("drop", "frame", system),
            }
        }
    }

    fn deliver(&mut self, number: u32, system: u8, journal: &mut Journal) {
        let answer = self.lans.deliver(number, system);
        journal.delivery(answer, number, system);
        if answer != "deliver" {
            return;
        }
        let now = self.lans.now;
        if let Some(sent) = self.lans.frame(number) {
            let handled = match &self.subset {
                Some(subset) => {
                    let from = Port { lan: sent.to.lan, snpa: sent.from };
                    subset.receive(system, from, sent.to, &sent.pdu, journal)
                }
                None => self.systems[usize::from(system)].receive(now, sent.from, sent.to, &sent.pdu, journal),
            };
            self.handle(system, handled, journal);
        }
    }

    fn inject(&mut self, lan: u8, system: u8, octets: &[u8], journal: &mut Journal) {
        if !self.lans.has_port(system, lan) {
            return journal.of_system_word_first("inject", "notthere", system);
        }
        journal.of_system("inject", system);
        self.is_injected = true;
        let Some((to, from, pdu)) = read_frame(octets) else {
            return journal.of_system("alien", system);
        };
        let now = self.lans.now;
        let handled = self.systems[usize::from(system)].receive(now, from, Port { lan, snpa: to }, pdu, journal);
        self.handle(system, handled, journal);
    }

    /// A unit that came up is shown or handed to transport, after the frames that a system sends.
    fn handle(&mut self, system: u8, handled: Handled, journal: &mut Journal) {
        if let Some(unit) = &handled.unit {
            if self.is_injected && !self.is_afloat(unit) {
                self.strays += 1;
            }
            if unit.to.selector() == RAW {
                journal.raw("unit", system, &unit.from, &unit.octets);
            }
        }
        self.send_frames(system, handled.frames, journal);
        if let Some(unit) = handled.unit.filter(|unit| unit.to.selector() == TRANSPORT) {
            if let Some(users) = &self.users {
                return show_datagram(system, &users[usize::from(system)], &unit, journal);
            }
            let mut tpdus = Vec::new();
            if let Some(entity) = &mut self.entities[usize::from(system)] {
                entity.receive(self.lans.now, unit.from, &unit.octets, &mut self.ends, journal, &mut tpdus);
            }
            self.send_tpdus(system, tpdus, journal);
        }
    }

    fn is_afloat(&self, unit: &Unit) -> bool {
        self.afloat
            .iter()
            .any(|(_, other)| other.from == unit.from && other.to == unit.to && other.octets == unit.octets)
    }

    /// Whether no delivery was left.
    fn settle(&mut self, journal: &mut Journal) -> bool {
        for count in 0..MOST_DELIVERIES {
            let Some((number, system)) = self.lans.next_pair() else {
                journal.counted("settled", count);
                return true;
            };
            self.deliver(number, system, journal);
        }
        let is_settled = self.lans.next_pair().is_none();
        journal.counted(if is_settled { "settled" } else { "stopped" }, MOST_DELIVERIES);
        is_settled
    }

    fn tick(&mut self, journal: &mut Journal) {
        self.lans.tick();
        let now = self.lans.now;
        journal.tick(now);
        self.tick_systems(journal);
        while self.afloat.front().is_some_and(|(taken, _)| taken + self.life < now) {
            self.afloat.pop_front();
        }
        for system in 0..self.entities.len() {
            self.tick_ends(system as u8, journal);
        }
    }

    fn tick_systems(&mut self, journal: &mut Journal) {
        if self.subset.is_some() {
            return;
        }
        for system in 0..self.systems.len() {
            let frames = self.systems[system].tick(self.lans.now, journal);
            self.send_frames(system as u8, frames, journal);
        }
    }

    fn tick_ends(&mut self, system: u8, journal: &mut Journal) {
        let references = self.entities[usize::from(system)].as_ref().map_or(Vec::new(), Entity::used);
        for reference in references {
            let mut tpdus = Vec::new();
            if let Some(entity) = &mut self.entities[usize::from(system)] {
                entity.tick(self.lans.now, reference, journal, &mut tpdus);
            }
            self.send_tpdus(system, tpdus, journal);
        }
    }

    fn connect(&mut self, system: u8, request: Request, journal: &mut Journal) {
        let mut tpdus = Vec::new();
        if let Some(entity) = &mut self.entities[usize::from(system)] {
            match entity.connect(self.lans.now, request, &mut self.ends, journal, &mut tpdus) {
                Ok(()) => self.send_tpdus(system, tpdus, journal),
                Err(cause) => journal.no(cause),
            }
        }
    }

    fn restart(&mut self, system: u8, journal: &mut Journal) {
        journal.of_system("restart", system);
        if let Some(entity) = &mut self.entities[usize::from(system)] {
            entity.restart(self.lans.now);
        }
    }

    fn call(&mut self, number: u32, call: Call, journal: &mut Journal) {
        let Some(end) = (number as usize).checked_sub(1).and_then(|at| self.ends.get(at).copied()) else {
            return journal.no("nosuchend");
        };
        let mut tpdus = Vec::new();
        if let Some(entity) = &mut self.entities[usize::from(end.system)] {
            entity.call(self.lans.now, number, end.reference, call, journal, &mut tpdus);
        }
        self.send_tpdus(end.system, tpdus, journal);
    }

    fn send_tpdus(&mut self, system: u8, tpdus: Vec<(Nsap, Vec<u8>)>, journal: &mut Journal) {
        let from = self.systems[usize::from(system)].title.with_selector(TRANSPORT);
        for (to, octets) in tpdus {
            let unit = Unit { from, to, octets };
            match self.offer(system, &unit, &TRANSPORT_WISH) {
                Ok(frames) => {
                    self.afloat.push_back((self.lans.now, unit));
                    self.send_frames(system, frames, journal);
                }
                Err(cause) => journal.of_system_word("drop", system, cause),
            }
        }
    }
}

/// Whether a line is a user's about an end of a relay, or a request at a system with a relay.
fn is_relayed(relay: &Relay, line: &Line) -> bool {
    match line {
        Line::Connect { system, .. } => relay.is_at(*system),
        Line::Accept { end, .. }
        | Line::Refuse { end, .. }
        | Line::Disconnect { end, .. }
        | Line::Data { end, .. }
        | Line::Expedite { end, .. }
        | Line::Window { end, .. } => relay.owns(*end),
        _ => false,
    }
}

/// A datagram that came is shown to the user that it is for.
fn show_datagram(system: u8, users: &[Vec<u8>], unit: &Unit, journal: &mut Journal) {
    match ud::read(&unit.octets) {
        Err((cause, place)) => journal.bad("badud", system, cause, place),
        Ok(ud) if !users.iter().any(|user| user == ud.to) => journal.of_system("nouser", system),
        Ok(ud) => journal.datagram("datagram", system, [unit.from.octets(), ud.from, ud.to, ud.octets]),
    }
}

/// The destination, the source and the PDU of a whole 802.3 frame.
fn read_frame(octets: &[u8]) -> Option<([u8; 6], [u8; 6], &[u8])> {
    let to = octets.get(..6)?.try_into().ok()?;
    let from = octets.get(6..12)?.try_into().ok()?;
    let length = usize::from(u16::from_be_bytes(octets.get(12..14)?.try_into().ok()?));
    if octets.get(14..17)? != [0xfe, 0xfe, 0x03] || !(4..=1500).contains(&length) {
        return None;
    }
    Some((to, from, octets.get(17..14 + length)?))
}
