//! Hellos and redirects (ISO 9542).

use crate::address::{Nsap, Snpa, seal};
use crate::clnp::{address_at, checksum_of, number_at};

pub enum Hello {
    Esh { hold: u16, addresses: Vec<Nsap> },
    Ish { hold: u16, title: Nsap },
    Rd { hold: u16, address: Nsap, snpa: Snpa, title: Option<Nsap> },
}

/// The hello at the front of octets, or the word of its first fault.
pub fn read(octets: &[u8]) -> Result<Hello, &'static str> {
    if octets.len() < 10 {
        return Err("short");
    }
    let length = usize::from(octets[1]);
    if !(10..=254).contains(&length) || length > octets.len() {
        return Err("length");
    }
    let pdu = &octets[..length];
    if pdu[0] != 0x82 || pdu[2] != 1 {
        return Err("version");
    }
    checksum_of(pdu).ok_or("checksum")?;
    let hold = number_at(pdu, 5);
    let (hello, at) = match pdu[4] & 0x1f {
        0x02 => read_esh(pdu, hold).ok_or("address")?,
        0x04 => read_ish(pdu, hold).ok_or("address")?,
        0x06 => read_rd(pdu, hold).ok_or("address")?,
        _ => return Err("kind"),
    };
    check_options(&pdu[at..])?;
    Ok(hello)
}

fn read_esh(pdu: &[u8], hold: u16) -> Option<(Hello, usize)> {
    let mut at = 10;
    let mut addresses = Vec::new();
    for _ in 0..pdu[9] {
        let address = address_at(pdu, at)?;
        at += 1 + address.octets().len();
        addresses.push(address);
    }
    Some((Hello::Esh { hold, addresses }, at))
}

fn read_ish(pdu: &[u8], hold: u16) -> Option<(Hello, usize)> {
    let title = address_at(pdu, 9)?;
    Some((Hello::Ish { hold, title }, 10 + title.octets().len()))
}

fn read_rd(pdu: &[u8], hold: u16) -> Option<(Hello, usize)> {
    let address = address_at(pdu, 9)?;
    let mut at = 10 + address.octets().len();
    if *pdu.get(at)? != 6 {
        return None;
    }
    let snpa = pdu.get(at + 1..at + 7)?.try_into().ok()?;
    at += 7;
    if *pdu.get(at)? == 0 {
        return Some((Hello::Rd { hold, address, snpa, title: None }, at + 1));
    }
    let title = address_at(pdu, at)?;
    Some((Hello::Rd { hold, address, snpa, title: Some(title) }, at + 1 + title.octets().len()))
}

fn check_options(mut octets: &[u8]) -> Result<(), &'static str> {
    while !octets.is_empty() {
        let length = usize::from(*octets.get(1).ok_or("option")?);
        octets = octets.get(2 + length..).ok_or("option")?;
    }
    Ok(())
}

pub fn write(hello: &Hello) -> Vec<u8> {
    let (kind, hold) = match hello {
        Hello::Esh { hold, .. } => (0x02, *hold),
        Hello::Ish { hold, .. } => (0x04, *hold),
        Hello::Rd { hold, .. } => (0x06, *hold),
    };
    let mut out = vec![0x82, 0, 1, 0, kind];
    out.extend_from_slice(&hold.to_be_bytes());
    out.extend_from_slice(&[0, 0]);
    match hello {
        Hello::Esh { addresses, .. } => {
            out.push(addresses.len() as u8);
            for address in addresses {
                push_field(address.octets(), &mut out);
            }
        }
        Hello::Ish { title, .. } => push_field(title.octets(), &mut out),
        Hello::Rd { address, snpa, title, .. } => {
            push_field(address.octets(), &mut out);
            push_field(snpa, &mut out);
            push_field(title.as_ref().map_or(&[], |title| title.octets()), &mut out);
        }
    }
    out[1] = out.len() as u8;
    seal(&mut out, 7);
    out
}

fn push_field(octets: &[u8], out: &mut Vec<u8>) {
    out.push(octets.len() as u8);
    out.extend_from_slice(octets);
}
