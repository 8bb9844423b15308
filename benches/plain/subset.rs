//! The network by the inactive subset (X.233): a PDU is the octet 00 and the unit, from one port of a LAN to another.

use crate::address::{Nsap, Port};
use crate::journal::Journal;
use crate::network::{Frame, Handled, Unit};
use crate::script::Setup;

const TRANSPORT: u8 = 1;
const INACTIVE: u8 = 0;

/// The port of an end system, with its address and the room of its LAN.
struct Station {
    address: Nsap,
    port: Port,
    room: usize,
}

pub struct Subset {
    stations: Vec<Station>,
}

impl Subset {
    pub fn new(setup: &Setup) -> Subset {
        let mut stations = Vec::new();
        for system in &setup.systems {
            for port in &system.ports {
                let room = setup.lans[usize::from(port.lan)].room;
                stations.push(Station { address: system.title.with_selector(TRANSPORT), port: *port, room });
            }
        }
        Subset { stations }
    }

    fn with_address(&self, address: &Nsap) -> Option<&Station> {
        self.stations.iter().find(|station| station.address == *address)
    }

    fn with_port(&self, port: &Port) -> Option<&Station> {
        self.stations.iter().find(|station| station.port == *port)
    }

    /// The frame of a unit, or why it is not sent.
    pub fn send(&self, unit: &Unit) -> Result<Frame, &'static str> {
        let (Some(from), Some(to)) = (self.with_address(&unit.from), self.with_address(&unit.to)) else {
            return Err("noroute");
        };
        if from.port.lan != to.port.lan || from.port == to.port {
            return Err("noroute");
        }
        if unit.octets.len() + 1 > to.room {
            return Err("toolong");
        }
        let mut pdu = Vec::with_capacity(1 + unit.octets.len());
        pdu.push(INACTIVE);
        pdu.extend_from_slice(&unit.octets);
        Ok(Frame { to: to.port, pdu })
    }

    /// What comes of a frame.
    pub fn receive(&self, system: u8, from: Port, to: Port, pdu: &[u8], journal: &mut Journal) -> Handled {
        match (pdu, self.with_port(&from), self.with_port(&to)) {
            ([INACTIVE, octets @ ..], Some(from), Some(to)) => {
                let unit = Unit { from: from.address, to: to.address, octets: octets.to_vec() };
                Handled { unit: Some(unit), frames: Vec::new() }
            }
            _ => {
                journal.of_system("alien", system);
                Handled::default()
            }
        }
    }
}
