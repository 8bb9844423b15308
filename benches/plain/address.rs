//! Addresses, ports, octets in hexadecimal, and the checksum of headers.

/// An address of 1 to 20 octets; the last one is the selector.
#[derive(Clone, Copy, PartialEq, Eq, Hash)]
pub struct Nsap {
    length: u8,
    octets: [u8; 20],
}

impl Nsap {
    pub fn of(octets: &[u8]) -> Option<Nsap> {
        if octets.is_empty() || octets.len() > 20 {
            return None;
        }
        let mut nsap = Nsap { length: octets.len() as u8, octets: [0; 20] };
        nsap.octets[..octets.len()].copy_from_slice(octets);
        Some(nsap)
    }

    pub fn octets(&self) -> &[u8] {
        &self.octets[..usize::from(self.length)]
    }

    pub fn selector(&self) -> u8 {
        self.octets[usize::from(self.length) - 1]
    }

    pub fn with_selector(mut self, selector: u8) -> Nsap {
        self.octets[usize::from(self.length) - 1] = selector;
        self
    }

    /// Whether both are equal but for the selector.
    pub fn same_system(&self, other: &Nsap) -> bool {
        let own = usize::from(self.length) - 1;
        let others = usize::from(other.length) - 1;
        self.octets[..own] == other.octets[..others]
    }
}

pub type Snpa = [u8; 6];

pub const ALL_ENDS: Snpa = [0x09, 0x00, 0x2b, 0x00, 0x00, 0x04];
pub const ALL_INTERMEDIATES: Snpa = [0x09, 0x00, 0x2b, 0x00, 0x00, 0x05];

pub fn is_group(snpa: &Snpa) -> bool {
    snpa[0] % 2 == 1
}

#[derive(Clone, Copy, PartialEq, Eq)]
pub struct Port {
    pub lan: u8,
    pub snpa: Snpa,
}

/// Where a PDU goes next; the title is that of an intermediate system that is known by it.
#[derive(Clone, Copy)]
pub struct Hop {
    pub port: Port,
    pub title: Option<Nsap>,
}

/// The octets that pairs of hexadecimal digits stand for.
pub fn read_hex(text: &[u8]) -> Option<Vec<u8>> {
    if text.len() % 2 != 0 {
        return None;
    }
    let mut octets = Vec::with_capacity(text.len() / 2);
    for pair in text.chunks_exact(2) {
        octets.push(digit(pair[0])? << 4 | digit(pair[1])?);
    }
    Some(octets)
}

fn digit(octet: u8) -> Option<u8> {
    match octet {
        b'0'..=b'9' => Some(octet - b'0'),
        b'a'..=b'f' => Some(octet - b'a' + 10),
        b'A'..=b'F' => Some(octet - b'A' + 10),
        _ => None,
    }
}

pub fn push_hex(octets: &[u8], out: &mut Vec<u8>) {
    const DIGITS: &[u8; 16] = b"0123456789abcdef";
    let start = out.len();
    out.resize(start + 2 * octets.len(), 0);
    for (pair, octet) in out[start..].chunks_exact_mut(2).zip(octets) {
        pair[0] = DIGITS[usize::from(octet >> 4)];
        pair[1] = DIGITS[usize::from(octet & 15)];
    }
}

fn sums(octets: &[u8]) -> (u64, u64) {
    let (mut first, mut second) = (0, 0);
    for octet in octets {
        first += u64::from(*octet);
        second += first;
    }
    (first % 255, second % 255)
}

pub fn checksum_holds(octets: &[u8]) -> bool {
    sums(octets) == (0, 0)
}

/// Writes the checksum at a position.
pub fn seal(octets: &mut [u8], at: usize) {
    octets[at] = 0;
    octets[at + 1] = 0;
    let (first, second) = sums(octets);
    let behind = (octets.len() - at - 1) as u64;
    let used = |value: u64| if value % 255 == 0 { 255 } else { (value % 255) as u8 };
    octets[at] = used(behind * first + 255 - second);
    octets[at + 1] = used((behind + 1) * (255 - first) + second);
}
