//! Relays: a connection that comes to a row is asked for once more, and what one side shows is submitted at the other.

use crate::connection::Call;
use crate::journal::{Heard, Options};
use std::collections::{HashMap, HashSet, VecDeque};

/// So many units may wait for an end.
pub const MOST_WAITING: usize = 300;

/// A relay line.
#[derive(Clone)]
pub struct Row {
    pub system: u8,
    pub selector: Vec<u8>,
    pub to: u8,
    pub called: Vec<u8>,
}

#[derive(Clone, Copy, PartialEq, Eq)]
pub enum Phase {
    Begun,
    Open,
    Closed,
}

/// One way of a pair: the end that shows units, the one at which they are submitted, and what waits.
pub struct Way {
    pub near: u32,
    pub far: u32,
    pub waiting: VecDeque<Unit>,
    pub is_lowered: bool,
}

#[derive(Clone)]
pub struct Unit {
    pub is_expedited: bool,
    pub octets: Vec<u8>,
}

pub struct Pair {
    pub inbound: u32,
    pub outbound: u32,
    pub phase: Phase,
    pub is_accepted: bool,
    pub ways: [Way; 2],
}

pub struct Relay {
    pub rows: Vec<Row>,
    pub credit: u16,
    claims: HashSet<u32>,
    pub pairs: Vec<Pair>,
    /// The pair of an end, and whether it is the inbound one.
    by_end: HashMap<u32, (usize, bool)>,
}

/// What is to be done about an event.
pub enum Reaction {
    Nothing,
    Begin { inbound: u32, row: usize, options: Options, octets: Vec<u8> },
    Ask(u32, Call),
}

impl Relay {
    pub fn new(rows: Vec<Row>, credit: u16) -> Relay {
        Relay { rows, credit, claims: HashSet::new(), pairs: Vec::new(), by_end: HashMap::new() }
    }

    pub fn is_at(&self, system: u8) -> bool {
        self.rows.iter().any(|row| row.system == system)
    }

    pub fn owns(&self, end: u32) -> bool {
        self.claims.contains(&end) || self.by_end.contains_key(&end)
    }

    pub fn join(&mut self, inbound: u32, outbound: u32) {
        let way = |near, far| Way { near, far, waiting: VecDeque::new(), is_lowered: false };
        self.by_end.insert(inbound, (self.pairs.len(), true));
        self.by_end.insert(outbound, (self.pairs.len(), false));
        self.pairs.push(Pair {
            inbound,
            outbound,
            phase: Phase::Begun,
            is_accepted: false,
            ways: [way(inbound, outbound), way(outbound, inbound)],
        });
    }

    /// Notes an event of a line; what is to be done about it.
    pub fn hear(&mut self, event: Heard) -> Reaction {
        match event {
            Heard::Incoming { end, system, called, options, octets } => {
                match self.rows.iter().position(|row| row.system == system && row.selector == called) {
                    Some(row) => {
                        self.claims.insert(end);
                        Reaction::Begin { inbound: end, row, options, octets }
                    }
                    None => Reaction::Nothing,
                }
            }
            Heard::Confirm { end, options, octets } => match self.by_end.get(&end) {
                Some(&(at, false)) if self.pairs[at].phase != Phase::Closed => {
                    self.pairs[at].phase = Phase::Open;
                    Reaction::Ask(self.pairs[at].inbound, Call::Accept(options, octets))
                }
                _ => Reaction::Nothing,
            },
            Heard::Gone { end } => self.part(end),
            Heard::Unit { end, is_expedited, octets } => {
                if let Some(&(at, is_inbound)) = self.by_end.get(&end) {
                    let pair = &mut self.pairs[at];
                    if pair.phase == Phase::Open {
                        pair.ways[usize::from(!is_inbound)].waiting.push_back(Unit { is_expedited, octets });
                    }
                }
                Reaction::Nothing
            }
        }
    }

    fn part(&mut self, end: u32) -> Reaction {
        let Some(&(at, is_inbound)) = self.by_end.get(&end) else {
            return Reaction::Nothing;
        };
        if self.pairs[at].phase == Phase::Closed {
            return Reaction::Nothing;
        }
        self.close(at);
        let pair = &self.pairs[at];
        if is_inbound {
            Reaction::Ask(pair.outbound, Call::Disconnect(Vec::new()))
        } else if pair.is_accepted {
            Reaction::Ask(pair.inbound, Call::Disconnect(Vec::new()))
        } else {
            Reaction::Ask(pair.inbound, Call::Refuse(Vec::new()))
        }
    }

    pub fn close(&mut self, at: usize) {
        let pair = &mut self.pairs[at];
        pair.phase = Phase::Closed;
        for way in &mut pair.ways {
            way.waiting.clear();
        }
    }

    pub fn accepted(&mut self, end: u32) {
        if let Some(&(at, true)) = self.by_end.get(&end) {
            self.pairs[at].is_accepted = true;
        }
    }

    pub fn open_places(&self) -> Vec<usize> {
        (0..self.pairs.len()).filter(|at| self.pairs[*at].phase == Phase::Open).collect()
    }
}
