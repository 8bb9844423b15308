//! The ends of a system, and which of them a TPDU is for.

use crate::address::Nsap;
use crate::connection::{Call, Connection, Refused, Timers};
use crate::flow::Tpdus;
use crate::journal::{Journal, Options};
use crate::script::{Settings, SystemSetup};
use crate::tpdu::{self, Proposal, Tpdu};
use crate::world::EndAt;
use std::collections::BTreeMap;

const TRANSPORT: u8 = 1;
const MOST_OCTETS: usize = 32;

/// A connect request.
pub struct Request {
    pub selector: Vec<u8>,
    pub to: Nsap,
    pub called: Vec<u8>,
    pub options: Options,
    pub octets: Vec<u8>,
}

pub struct Entity {
    system: u8,
    own: Nsap,
    timers: Timers,
    selectors: Vec<Vec<u8>>,
    /// How many references there are, from 1 on.
    references: u16,
    /// The ends that stand, frozen ones too, by reference.
    ends: BTreeMap<u16, Connection>,
    /// When it began again last.
    restarted: Option<u32>,
}

impl Entity {
    pub fn new(system: u8, setup: &SystemSetup, settings: &Settings) -> Entity {
        Entity {
            system,
            own: setup.title.with_selector(TRANSPORT),
            timers: Timers::of(settings),
            selectors: setup.selectors.clone(),
            references: settings.get("refs") as u16,
            ends: BTreeMap::new(),
            restarted: None,
        }
    }

    /// It begins again, without its ends.
    pub fn restart(&mut self, now: u32) {
        self.ends.clear();
        self.restarted = Some(now);
    }

    /// Whether it takes no TPDU and makes no end, as it began again a short while ago.
    fn is_silent(&self, now: u32) -> bool {
        self.restarted.is_some_and(|when| now <= when + self.timers.frozen())
    }

    /// The references at which ends stand.
    pub fn used(&self) -> Vec<u16> {
        self.ends.keys().copied().collect()
    }

    /// The least reference that is free.
    fn free_reference(&self, now: u32) -> Option<u16> {
        (1..=self.references).find(|reference| self.ends.get(reference).is_none_or(|end| end.is_over(now)))
    }

    pub fn connect(
        &mut self,
        now: u32,
        request: Request,
        ends: &mut Vec<EndAt>,
        journal: &mut Journal,
        tpdus: &mut Tpdus,
    ) -> Result<(), &'static str> {
        if self.is_silent(now) {
            return Err("silent");
        }
        if request.octets.len() > MOST_OCTETS {
            return Err("toolong");
        }
        let reference = self.free_reference(now).ok_or("refsspent")?;
        ends.push(EndAt { system: self.system, reference });
        let number = ends.len() as u32;
        let Request { selector, to, called, options, octets } = request;
        journal.connect(number, self.system, reference, [(&self.own, &selector), (&to, &called)], &octets);
        let end = Connection::connect(now, number, reference, to, (selector, called), options, octets, self.timers, tpdus);
        self.ends.insert(reference, end);
        Ok(())
    }

    /// A user calls the end of a number that was made at a reference.
    pub fn call(&mut self, now: u32, number: u32, reference: u16, call: Call, journal: &mut Journal, tpdus: &mut Tpdus) {
        match self.ends.get_mut(&reference) {
            Some(end) if end.number == number && !end.is_over(now) => match end.call(now, call, journal, tpdus) {
                Ok(()) => {}
                Err(Refused::State(state)) => journal.no_state(state),
                Err(Refused::Cause(cause)) => journal.no(cause),
            },
            _ => journal.no_state("ended"),
        }
    }

    /// A unit came from an address.
    pub fn receive(
        &mut self,
        now: u32,
        from: Nsap,
        octets: &[u8],
        ends: &mut Vec<EndAt>,
        journal: &mut Journal,
        tpdus: &mut Tpdus,
    ) {
        if self.is_silent(now) {
            return journal.of_system("silent", self.system);
        }
        let mut rest = octets;
        while !rest.is_empty() {
            let extended = match *rest {
                [_, _, high, low, ..] => {
                    self.ends.get(&u16::from_be_bytes([high, low])).is_some_and(Connection::is_extended)
                }
                _ => false,
            };
            let (tpdu, has_sum, behind) = match tpdu::read(rest, extended) {
                Ok(found) => found,
                Err((cause, place)) => return journal.bad("badtpdu", self.system, cause, place),
            };
            match &tpdu {
                Tpdu::Cr(cr) => self.request(now, from, cr, ends, journal, tpdus),
                _ => self.take(now, &from, &tpdu, has_sum, journal, tpdus),
            }
            rest = behind;
        }
    }

    /// A CR came.
    fn request(
        &mut self,
        now: u32,
        from: Nsap,
        cr: &Proposal<'_>,
        ends: &mut Vec<EndAt>,
        journal: &mut Journal,
        tpdus: &mut Tpdus,
    ) {
        let is_called = |end: &&Connection| end.is_called_by(&from, cr.source);
        let reason = if self.ends.values().filter(is_called).any(|end| !end.is_frozen()) {
            return;
        } else if self.ends.values().any(|end| is_called(&end)) {
            131
        } else if !self.selectors.iter().any(|selector| selector == cr.called) {
            3
        } else if let Some(reference) = self.free_reference(now) {
            ends.push(EndAt { system: self.system, reference });
            let number = ends.len() as u32;
            let end = Connection::incoming(now, number, reference, from, cr, self.timers);
            let (calling, called) = ((&from, cr.calling), (&self.own, cr.called));
            journal.incoming(number, self.system, reference, cr.source, calling, called, end.proposed(), cr.octets);
            self.ends.insert(reference, end);
            return;
        } else {
            129
        };
        send_refusal(from, cr.source, reason, tpdus);
    }

    /// A TPDU with a destination came.
    fn take(
        &mut self,
        now: u32,
        from: &Nsap,
        tpdu: &Tpdu<'_>,
        has_sum: bool,
        journal: &mut Journal,
        tpdus: &mut Tpdus,
    ) {
        let end = tpdu.destination().and_then(|reference| self.ends.get_mut(&reference));
        if let Some(end) = end.filter(|end| end.matches(from, tpdu)) {
            if end.wants_sum(tpdu) && !has_sum {
                journal.bad("badtpdu", self.system, "checksum", 0);
            } else {
                end.receive(now, tpdu, journal, tpdus);
            }
            return;
        }
        journal.of_system_word("unknown", self.system, tpdu.word());
        match *tpdu {
            Tpdu::Cc(_, Proposal { source, .. }) => send_refusal(*from, source, 132, tpdus),
            Tpdu::Dr { destination, source, .. } if source != 0 => {
                let dc = Tpdu::Dc { destination: source, source: destination };
                tpdus.push((*from, tpdu::write(&dc, false, true)));
            }
            _ => {}
        }
    }

    /// The end of a reference ticks; it is forgotten where its reference is free.
    pub fn tick(&mut self, now: u32, reference: u16, journal: &mut Journal, tpdus: &mut Tpdus) {
        if let Some(end) = self.ends.get_mut(&reference) {
            end.tick(now, journal, tpdus);
            if end.is_over(now) {
                self.ends.remove(&reference);
            }
        }
    }
}

/// A DR without an end.
fn send_refusal(to: Nsap, reference: u16, reason: u8, tpdus: &mut Tpdus) {
    let dr = Tpdu::Dr { destination: reference, source: 0, reason, octets: &[] };
    tpdus.push((to, tpdu::write(&dr, false, true)));
}
