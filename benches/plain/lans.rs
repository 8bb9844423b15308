//! The LANs: frames by number, each for as long as it is not late.

use crate::address::{ALL_ENDS, ALL_INTERMEDIATES, Port, Snpa};
use crate::script::{Lan, SystemSetup};
use std::collections::VecDeque;

const MOST_LIVE: usize = 16_384;

/// A frame that was sent. Systems are bits: those that may take it, and those of them that did not yet.
pub struct Sent {
    pub tick: u32,
    pub from: Snpa,
    pub to: Port,
    pub pdu: Vec<u8>,
    receivers: u16,
    waiting: u16,
}

/// A port on a LAN, with its system.
struct Station {
    system: u8,
    is_end: bool,
    snpa: Snpa,
}

pub struct Lans {
    bounds: Vec<u32>,
    stations: Vec<Vec<Station>>,
    pub now: u32,
    /// How many frames were forgotten; the others stand in `frames` by number.
    gone: u32,
    frames: VecDeque<Option<Sent>>,
    /// The frames of each LAN that are not late.
    live: Vec<VecDeque<u32>>,
    live_count: usize,
    /// No frame of a lower number waits for a system.
    first_waiting: u32,
}

impl Lans {
    pub fn new(lans: &[Lan], systems: &[SystemSetup]) -> Lans {
        let mut stations: Vec<Vec<Station>> = lans.iter().map(|_| Vec::new()).collect();
        for (number, system) in systems.iter().enumerate() {
            for port in &system.ports {
                stations[usize::from(port.lan)].push(Station {
                    system: number as u8,
                    is_end: system.is_end,
                    snpa: port.snpa,
                });
            }
        }
        Lans {
            bounds: lans.iter().map(|lan| lan.bound).collect(),
            stations,
            now: 0,
            gone: 0,
            frames: VecDeque::new(),
            live: lans.iter().map(|_| VecDeque::new()).collect(),
            live_count: 0,
            first_waiting: 1,
        }
    }

    fn count(&self) -> u32 {
        self.gone + self.frames.len() as u32
    }

    /// The frame of a number, where it is not late.
    pub fn frame(&self, number: u32) -> Option<&Sent> {
        self.frames.get(number.checked_sub(self.gone + 1)? as usize)?.as_ref()
    }

    /// Whether a system has a port on a LAN.
    pub fn has_port(&self, system: u8, lan: u8) -> bool {
        self.stations[usize::from(lan)].iter().any(|station| station.system == system)
    }

    /// Whether there is no room for a frame.
    pub fn is_full(&self) -> bool {
        self.live_count == MOST_LIVE
    }

    /// Sends a frame; the answer is its number, or None where there is no room.
    pub fn send(&mut self, system: u8, from: Snpa, to: Port, pdu: Vec<u8>) -> Option<u32> {
        if self.is_full() {
            return None;
        }
        let mut receivers = 0;
        for station in &self.stations[usize::from(to.lan)] {
            let group = if station.is_end { ALL_ENDS } else { ALL_INTERMEDIATES };
            if station.system != system && (station.snpa == to.snpa || group == to.snpa) {
                receivers |= 1 << station.system;
            }
        }
        self.frames.push_back(Some(Sent { tick: self.now, from, to, pdu, receivers, waiting: receivers }));
        self.live_count += 1;
        let number = self.count();
        self.live[usize::from(to.lan)].push_back(number);
        Some(number)
    }

    /// The answer to a delivery; a frame that is delivered is marked.
    pub fn deliver(&mut self, number: u32, system: u8) -> &'static str {
        if number == 0 || number > self.count() {
            return "nosuch";
        }
        let Some(to) = self.frame(number).map(|sent| sent.to) else {
            return "late";
        };
        if !self.has_port(system, to.lan) {
            return "notthere";
        }
        let at = (number - self.gone - 1) as usize;
        let Some(sent) = &mut self.frames[at] else {
            return "late";
        };
        if sent.receivers & 1 << system == 0 {
            return "notours";
        }
        sent.waiting &= !(1 << system);
        "deliver"
    }

    /// The least pair of frame and system that a delivery would take and that none took.
    pub fn next_pair(&mut self) -> Option<(u32, u8)> {
        while self.first_waiting <= self.count() {
            match self.frame(self.first_waiting) {
                Some(sent) if sent.waiting != 0 => {
                    return Some((self.first_waiting, sent.waiting.trailing_zeros() as u8));
                }
                _ => self.first_waiting += 1,
            }
        }
        None
    }

    /// One tick passes; the frames that are late are forgotten.
    pub fn tick(&mut self) {
        self.now += 1;
        for (lan, live) in self.live.iter_mut().enumerate() {
            while let Some(number) = live.front() {
                let slot = &mut self.frames[(number - self.gone - 1) as usize];
                if slot.as_ref().is_some_and(|sent| sent.tick + self.bounds[lan] >= self.now) {
                    break;
                }
                *slot = None;
                self.live_count -= 1;
                live.pop_front();
            }
        }
        while let Some(None) = self.frames.front() {
            self.frames.pop_front();
            self.gone += 1;
        }
    }
}
