//! The units of which a system holds segments.

use crate::address::Nsap;
use crate::clnp::{Pdu, Segment};

const MOST_UNITS: usize = 32;
const MOST_OCTETS: usize = 262_144;

pub enum Joined {
    Held,
    Whole(Vec<u8>),
    Full,
    Interference,
}

/// A unit that was given up, by the segment that came first.
pub struct Expired {
    pub source: Nsap,
    pub wants_report: bool,
    pub header: Vec<u8>,
}

struct Unit {
    source: Nsap,
    destination: Nsap,
    id: u16,
    total: u16,
    octets: Vec<u8>,
    filled: Vec<bool>,
    count: usize,
    deadline: u32,
    wants_report: bool,
    header: Vec<u8>,
}

impl Unit {
    fn is_of(&self, pdu: &Pdu<'_>, part: &Segment) -> bool {
        self.source == pdu.source && self.destination == pdu.destination && self.id == part.id
    }

    /// Whether a segment differs from what is held.
    fn clashes(&self, pdu: &Pdu<'_>, part: &Segment) -> bool {
        let at = usize::from(part.offset);
        self.total != part.total
            || self.header.len() != pdu.header.len()
            || (0..pdu.body.len()).any(|i| self.filled[at + i] && self.octets[at + i] != pdu.body[i])
    }

    /// How many octets a segment brings.
    fn fresh(&self, pdu: &Pdu<'_>, part: &Segment) -> usize {
        let at = usize::from(part.offset);
        self.filled[at..at + pdu.body.len()].iter().filter(|filled| !**filled).count()
    }

    fn write(&mut self, pdu: &Pdu<'_>, part: &Segment) {
        let at = usize::from(part.offset);
        self.octets[at..at + pdu.body.len()].copy_from_slice(pdu.body);
        self.filled[at..at + pdu.body.len()].fill(true);
    }
}

pub struct Store {
    units: Vec<Unit>,
    octets: usize,
}

impl Store {
    pub fn new() -> Store {
        Store { units: Vec::new(), octets: 0 }
    }

    /// Takes a segment of which `left` ticks of its lifetime are left.
    pub fn take(&mut self, now: u32, pdu: &Pdu<'_>, part: &Segment, left: u32, wants_report: bool) -> Joined {
        let deadline = now + left;
        let found = self.units.iter().position(|unit| unit.is_of(pdu, part));
        let place = match found {
            Some(place) => place,
            None => {
                let places = usize::from(part.total) - pdu.header.len();
                self.units.push(Unit {
                    source: pdu.source,
                    destination: pdu.destination,
                    id: part.id,
                    total: part.total,
                    octets: vec![0; places],
                    filled: vec![false; places],
                    count: 0,
                    deadline,
                    wants_report,
                    header: pdu.header.to_vec(),
                });
                self.units.len() - 1
            }
        };
        let unit = &mut self.units[place];
        if unit.clashes(pdu, part) {
            self.withdraw(place);
            return Joined::Interference;
        }
        let fresh = unit.fresh(pdu, part);
        if unit.count + fresh == unit.octets.len() {
            unit.write(pdu, part);
            return Joined::Whole(self.withdraw(place).octets);
        }
        if self.octets + fresh > MOST_OCTETS || self.units.len() > MOST_UNITS {
            if found.is_none() {
                self.withdraw(place);
            }
            return Joined::Full;
        }
        let unit = &mut self.units[place];
        unit.write(pdu, part);
        unit.count += fresh;
        unit.deadline = unit.deadline.max(deadline);
        self.octets += fresh;
        Joined::Held
    }

    fn withdraw(&mut self, place: usize) -> Unit {
        let unit = self.units.remove(place);
        self.octets -= unit.count;
        unit
    }

    /// Gives up the units whose time has passed, the earliest first.
    pub fn expire(&mut self, now: u32) -> Vec<Expired> {
        let mut expired = Vec::new();
        while let Some(place) = self.first_due(now) {
            let unit = self.withdraw(place);
            expired.push(Expired { source: unit.source, wants_report: unit.wants_report, header: unit.header });
        }
        expired
    }

    fn first_due(&self, now: u32) -> Option<usize> {
        let due = self.units.iter().enumerate().filter(|(_, unit)| unit.deadline < now);
        due.min_by_key(|(_, unit)| unit.deadline).map(|(place, _)| place)
    }
}
