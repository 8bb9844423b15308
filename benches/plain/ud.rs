//! UDs, the TPDUs of the connectionless transport protocol (X.234).

use crate::address::{checksum_holds, seal};
use crate::tpdu::{parameter, push_parameter};

const CODE: u8 = 0x40;

/// A UD with what is lent of its octets.
pub struct Ud<'a> {
    pub from: &'a [u8],
    pub to: &'a [u8],
    pub octets: &'a [u8],
}

/// The UD that octets are, or its first fault and the place.
pub fn read(octets: &[u8]) -> Result<Ud<'_>, (&'static str, usize)> {
    let [indicator, code, ..] = *octets else {
        return Err(("short", 0));
    };
    let length = usize::from(indicator);
    if length == 0 || length == 255 || length >= octets.len() {
        return Err(("length", 1));
    }
    if code != CODE {
        return Err(("code", 2));
    }
    let (mut from, mut to, mut sum_place) = (None, None, None);
    let mut place = 3;
    while place <= length + 1 {
        let (code, value, count) = parameter(&octets[place - 1..=length]).ok_or(("param", place))?;
        match (code, value.len()) {
            (0xc1, 1..=32) => from = Some(value),
            (0xc2, 1..=32) => to = Some(value),
            (0xc3, 2) => sum_place = Some(place + 2),
            (0xc1..=0xc3, _) => return Err(("param", place)),
            _ => return Err(("unknown", place)),
        }
        place += count;
    }
    let (Some(from), Some(to)) = (from, to) else {
        return Err(("missing", 0));
    };
    match sum_place {
        Some(place) if !checksum_holds(octets) => Err(("checksum", place)),
        _ => Ok(Ud { from, to, octets: &octets[length + 1..] }),
    }
}

/// The octets of a UD.
pub fn write(ud: &Ud<'_>) -> Vec<u8> {
    let mut out = vec![0, CODE];
    push_parameter(0xc1, ud.from, &mut out);
    push_parameter(0xc2, ud.to, &mut out);
    let at = out.len() + 2;
    out.extend_from_slice(&[0xc3, 2, 0, 0]);
    out[0] = out.len() as u8 - 1;
    out.extend_from_slice(ud.octets);
    seal(&mut out, at);
    out
}
