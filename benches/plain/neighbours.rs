//! What hellos and redirects told, for their holding time.

use crate::address::{Hop, Nsap, Port};
use std::collections::HashMap;

const MOST_ROWS: usize = 256;

struct Heard {
    until: u32,
    hop: Hop,
}

/// Addresses with the hop that was told last.
pub struct Known {
    rows: HashMap<Nsap, Heard>,
}

impl Known {
    pub fn new() -> Known {
        Known { rows: HashMap::new() }
    }

    pub fn find(&self, now: u32, address: &Nsap) -> Option<Hop> {
        let heard = self.rows.get(address)?;
        (now < heard.until).then_some(heard.hop)
    }

    /// The hop to the known intermediate system of least title.
    pub fn router(&self, now: u32) -> Option<Hop> {
        self.rows
            .iter()
            .filter(|(address, heard)| now < heard.until && heard.hop.title == Some(**address))
            .min_by(|one, other| one.0.octets().cmp(other.0.octets()))
            .map(|(_, heard)| heard.hop)
    }

    /// Hears of addresses; false where there is no room for them, and then nothing changes.
    pub fn hear(&mut self, now: u32, names: &[Nsap], hold: u16, port: Port, title: Option<Nsap>) -> bool {
        let mut new = Vec::new();
        for name in names {
            if !self.rows.contains_key(name) && !new.contains(name) {
                new.push(*name);
            }
        }
        if self.rows.len() + new.len() > MOST_ROWS {
            return false;
        }
        let until = now + 2 * u32::from(hold);
        for name in names {
            self.rows.insert(*name, Heard { until, hop: Hop { port, title } });
        }
        true
    }

    pub fn tick(&mut self, now: u32) {
        self.rows.retain(|_, heard| now < heard.until);
    }
}
