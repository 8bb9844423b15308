//! TPDUs of class 4 (X.224).

use crate::address::{checksum_holds, seal};
use crate::clnp::number_at;

/// A TPDU with what is lent of its octets.
pub enum Tpdu<'a> {
    Cr(Proposal<'a>),
    Cc(u16, Proposal<'a>),
    Dr { destination: u16, source: u16, reason: u8, octets: &'a [u8] },
    Dc { destination: u16, source: u16 },
    Dt { destination: u16, last: bool, number: u32, octets: &'a [u8] },
    Ed { destination: u16, number: u32, octets: &'a [u8] },
    Ak { destination: u16, number: u32, credit: u16, subsequence: u16 },
    Ea { destination: u16, number: u32 },
    Er { destination: u16 },
}

/// What a CR and a CC say.
pub struct Proposal<'a> {
    pub credit: u8,
    pub source: u16,
    pub extended: bool,
    pub calling: &'a [u8],
    pub called: &'a [u8],
    /// In octets.
    pub size: Option<u16>,
    /// In units of 128 octets.
    pub preferred: Option<u32>,
    pub extra: u8,
    pub octets: &'a [u8],
}

impl Tpdu<'_> {
    pub fn word(&self) -> &'static str {
        match self {
            Tpdu::Cr(_) => "cr",
            Tpdu::Cc(..) => "cc",
            Tpdu::Dr { .. } => "dr",
            Tpdu::Dc { .. } => "dc",
            Tpdu::Dt { .. } => "dt",
            Tpdu::Ed { .. } => "ed",
            Tpdu::Ak { .. } => "ak",
            Tpdu::Ea { .. } => "ea",
            Tpdu::Er { .. } => "er",
        }
    }

    /// The destination reference; a CR has none.
    pub fn destination(&self) -> Option<u16> {
        match *self {
            Tpdu::Cr(_) => None,
            Tpdu::Cc(destination, _)
            | Tpdu::Dr { destination, .. }
            | Tpdu::Dc { destination, .. }
            | Tpdu::Dt { destination, .. }
            | Tpdu::Ed { destination, .. }
            | Tpdu::Ak { destination, .. }
            | Tpdu::Ea { destination, .. }
            | Tpdu::Er { destination } => Some(destination),
        }
    }
}

/// The numbers of a quarter of the wire numbers.
pub fn block(extended: bool) -> u32 {
    if extended { 0x2000_0000 } else { 32 }
}

/// How far a wire number lies ahead of another.
pub fn distance(extended: bool, from: u32, wire: u32) -> u32 {
    wire.wrapping_sub(from) % (4 * block(extended))
}

#[derive(Clone, Copy, PartialEq, Eq)]
pub enum Kind {
    Cr,
    Cc,
    Dr,
    Dc,
    Dt,
    Ed,
    Ak,
    Ea,
    Er,
}

impl Kind {
    pub fn word(self) -> &'static str {
        match self {
            Kind::Cr => "cr",
            Kind::Cc => "cc",
            Kind::Dr => "dr",
            Kind::Dc => "dc",
            Kind::Dt => "dt",
            Kind::Ed => "ed",
            Kind::Ak => "ak",
            Kind::Ea => "ea",
            Kind::Er => "er",
        }
    }

    /// Whether a TPDU of this kind knows parameters of this code.
    pub fn knows(self, code: u8) -> bool {
        match (self, code) {
            (_, 0xc3) => true,
            (Kind::Cr | Kind::Cc, 0xc0 | 0xc1 | 0xc2 | 0xc4 | 0xc6 | 0xc7 | 0xf0 | 0x85) => true,
            (Kind::Dr, 0xe0) | (Kind::Er, 0xc1) | (Kind::Ak, 0x8a | 0x8c) => true,
            _ => false,
        }
    }
}

/// The parts of a TPDU that has no fault.
pub struct Parts<'a> {
    pub kind: Kind,
    pub code: u8,
    pub extended: bool,
    pub fixed: &'a [u8],
    pub parameters: &'a [u8],
    pub body: &'a [u8],
    pub has_sum: bool,
    pub rest: &'a [u8],
}

fn kind_of(code: u8) -> Option<Kind> {
    Some(match code {
        0xe0..=0xef => Kind::Cr,
        0xd0..=0xdf => Kind::Cc,
        0x80 => Kind::Dr,
        0xc0 => Kind::Dc,
        0xf0 => Kind::Dt,
        0x10 => Kind::Ed,
        0x60..=0x6f => Kind::Ak,
        0x20 => Kind::Ea,
        0x70 => Kind::Er,
        _ => return None,
    })
}

/// The octets of the fixed part after the code.
fn fixed_length(kind: Kind, extended: bool) -> usize {
    match kind {
        Kind::Cr | Kind::Cc | Kind::Dr => 5,
        Kind::Dc => 4,
        Kind::Er => 3,
        Kind::Dt | Kind::Ed | Kind::Ak | Kind::Ea if !extended => 3,
        Kind::Dt | Kind::Ed | Kind::Ea => 6,
        Kind::Ak => 8,
    }
}

/// Whether a parameter is known, and its value has the form that it asks for.
fn check_parameter(kind: Kind, code: u8, value: &[u8]) -> Result<(), &'static str> {
    let is_connect = kind == Kind::Cr || kind == Kind::Cc;
    let suits = match (kind, code) {
        (_, 0xc3) => value.len() == 2,
        (Kind::Cr | Kind::Cc, 0xc1 | 0xc2) => value.len() <= 32,
        (Kind::Cr | Kind::Cc, 0xc0) => size_of(value).is_some(),
        (Kind::Cr | Kind::Cc, 0xf0) => preferred_of(value).is_some(),
        (Kind::Cr | Kind::Cc, 0xc4 | 0xc6) => value.len() == 1,
        (Kind::Cr | Kind::Cc, 0x85) => value.len() == 2,
        (Kind::Dr, 0xe0) | (Kind::Er, 0xc1) => true,
        (Kind::Ak, 0x8a) => value.len() == 2,
        (Kind::Ak, 0x8c) => value.len() == 8,
        _ if is_connect => true,
        _ => return Err("unknown"),
    };
    if suits { Ok(()) } else { Err("param") }
}

fn size_of(value: &[u8]) -> Option<u16> {
    match value {
        [code @ 7..=13] => Some(1 << code),
        _ => None,
    }
}

fn preferred_of(value: &[u8]) -> Option<u32> {
    if !(1..=4).contains(&value.len()) {
        return None;
    }
    let number = value.iter().fold(0, |number, octet| 256 * number + u32::from(*octet));
    (number > 0).then_some(number)
}

/// The code, the value and the length of the parameter at the front.
pub fn parameter(octets: &[u8]) -> Option<(u8, &[u8], usize)> {
    let length = usize::from(*octets.get(1)?);
    Some((octets[0], octets.get(2..2 + length)?, 2 + length))
}

/// The last value of a parameter.
fn value_of(mut octets: &[u8], code: u8) -> Option<&[u8]> {
    let mut found = None;
    while let Some((other, value, length)) = parameter(octets) {
        if other == code {
            found = Some(value);
        }
        octets = &octets[length..];
    }
    found
}

/// The first TPDU of octets, whether it has a checksum, and the octets behind it; or its first fault and the place.
pub fn read(octets: &[u8], extended: bool) -> Result<(Tpdu<'_>, bool, &[u8]), (&'static str, usize)> {
    let parts = parts(octets, extended)?;
    Ok((tpdu_of(&parts), parts.has_sum, parts.rest))
}

/// The parts of the first TPDU of octets; or its first fault and the place.
pub fn parts(octets: &[u8], extended: bool) -> Result<Parts<'_>, (&'static str, usize)> {
    let [indicator, code, ..] = *octets else {
        return Err(("short", 0));
    };
    let length = usize::from(indicator);
    if length == 0 || length == 255 || length >= octets.len() {
        return Err(("length", 1));
    }
    let kind = kind_of(code).ok_or(("code", 2))?;
    let extended = extended && kind != Kind::Cr;
    let (header, behind) = octets.split_at(length + 1);
    let takes_rest = matches!(kind, Kind::Cr | Kind::Cc | Kind::Dr | Kind::Dt | Kind::Ed);
    let (all, body, rest) = if takes_rest { (octets, behind, &octets[..0]) } else { (header, &octets[..0], behind) };
    let fields = &header[2..];
    let fixed_length = fixed_length(kind, extended);
    if fields.len() < fixed_length {
        return Err(("fixed", 1));
    }
    if (kind == Kind::Cr || kind == Kind::Cc) && fields[4] / 16 != 4 {
        return Err(("class", 7));
    }
    let (fixed, parameters) = fields.split_at(fixed_length);
    let sum_place = check_parameters(kind, parameters, 3 + fixed_length)?;
    match sum_place {
        Some(place) if !checksum_holds(all) => return Err(("checksum", place)),
        None if kind == Kind::Cr => return Err(("checksum", 0)),
        _ => {}
    }
    let suits = match kind {
        Kind::Cr | Kind::Cc => body.len() <= 32,
        Kind::Dr => body.len() <= 64,
        Kind::Ed => (1..=16).contains(&body.len()),
        _ => true,
    };
    if !suits {
        return Err(("body", length + 2));
    }
    Ok(Parts { kind, code, extended, fixed, parameters, body, has_sum: sum_place.is_some(), rest })
}

/// The place of the value of the last checksum.
fn check_parameters(kind: Kind, mut octets: &[u8], first: usize) -> Result<Option<usize>, (&'static str, usize)> {
    let mut place = first;
    let mut sum_place = None;
    while !octets.is_empty() {
        let (code, value, length) = parameter(octets).ok_or(("param", place))?;
        check_parameter(kind, code, value).map_err(|cause| (cause, place))?;
        if code == 0xc3 {
            sum_place = Some(place + 2);
        }
        place += length;
        octets = &octets[length..];
    }
    Ok(sum_place)
}

fn tpdu_of<'a>(parts: &Parts<'a>) -> Tpdu<'a> {
    let Parts { kind, code, extended, fixed, parameters, body: octets, .. } = *parts;
    let destination = number_at(fixed, 0);
    match kind {
        Kind::Cr => Tpdu::Cr(proposal_of(code, fixed, parameters, octets)),
        Kind::Cc => Tpdu::Cc(destination, proposal_of(code, fixed, parameters, octets)),
        Kind::Dr => Tpdu::Dr { destination, source: number_at(fixed, 2), reason: fixed[4], octets },
        Kind::Dc => Tpdu::Dc { destination, source: number_at(fixed, 2) },
        Kind::Dt => {
            let (last, number) = numbered(fixed, extended);
            Tpdu::Dt { destination, last, number, octets }
        }
        Kind::Ed => Tpdu::Ed { destination, number: numbered(fixed, extended).1, octets },
        Kind::Ak => Tpdu::Ak {
            destination,
            number: numbered(fixed, extended).1,
            credit: if extended { number_at(fixed, 6) } else { u16::from(code % 16) },
            subsequence: value_of(parameters, 0x8a).map_or(0, |value| number_at(value, 0)),
        },
        Kind::Ea => Tpdu::Ea { destination, number: numbered(fixed, extended).1 },
        Kind::Er => Tpdu::Er { destination },
    }
}

fn proposal_of<'a>(code: u8, fixed: &[u8], parameters: &'a [u8], octets: &'a [u8]) -> Proposal<'a> {
    Proposal {
        credit: code % 16,
        source: number_at(fixed, 2),
        extended: fixed[4] / 2 % 2 == 1,
        calling: value_of(parameters, 0xc1).unwrap_or(&[]),
        called: value_of(parameters, 0xc2).unwrap_or(&[]),
        size: value_of(parameters, 0xc0).and_then(size_of),
        preferred: value_of(parameters, 0xf0).and_then(preferred_of),
        extra: value_of(parameters, 0xc6).map_or(1, |value| value[0]),
        octets,
    }
}

/// The top bit and the number behind the destination reference.
pub fn numbered(fixed: &[u8], extended: bool) -> (bool, u32) {
    if extended {
        let number = u32::from_be_bytes([fixed[2], fixed[3], fixed[4], fixed[5]]);
        (number >> 31 == 1, number & 0x7fff_ffff)
    } else {
        (fixed[2] & 0x80 != 0, u32::from(fixed[2] & 0x7f))
    }
}

/// The octets of a TPDU; a CR has a checksum always.
pub fn write(tpdu: &Tpdu<'_>, extended: bool, sum: bool) -> Vec<u8> {
    let mut out = vec![0, code_of(tpdu, extended)];
    out.extend_from_slice(&tpdu.destination().unwrap_or(0).to_be_bytes());
    let mut body: &[u8] = &[];
    match tpdu {
        Tpdu::Cr(proposal) | Tpdu::Cc(_, proposal) => {
            out.extend_from_slice(&proposal.source.to_be_bytes());
            out.push(if proposal.extended { 0x42 } else { 0x40 });
            push_parameter(0xc1, proposal.calling, &mut out);
            push_parameter(0xc2, proposal.called, &mut out);
            if let Some(size) = proposal.size {
                push_parameter(0xc0, &[size.trailing_zeros() as u8], &mut out);
            }
            if let Some(preferred) = proposal.preferred {
                push_parameter(0xf0, &[preferred as u8], &mut out);
            }
            push_parameter(0xc6, &[proposal.extra], &mut out);
            body = proposal.octets;
        }
        Tpdu::Dr { source, reason, octets, .. } => {
            out.extend_from_slice(&source.to_be_bytes());
            out.push(*reason);
            body = octets;
        }
        Tpdu::Dc { source, .. } => out.extend_from_slice(&source.to_be_bytes()),
        Tpdu::Dt { last, number, octets, .. } => {
            push_numbered(*last, *number, extended, &mut out);
            body = octets;
        }
        Tpdu::Ed { number, octets, .. } => {
            push_numbered(true, *number, extended, &mut out);
            body = octets;
        }
        Tpdu::Ak { number, credit, subsequence, .. } => {
            push_numbered(false, *number, extended, &mut out);
            if extended {
                out.extend_from_slice(&credit.to_be_bytes());
            }
            if *subsequence != 0 {
                push_parameter(0x8a, &subsequence.to_be_bytes(), &mut out);
            }
        }
        Tpdu::Ea { number, .. } => push_numbered(false, *number, extended, &mut out),
        Tpdu::Er { .. } => out.push(0),
    }
    let sum = sum || matches!(tpdu, Tpdu::Cr(_));
    let at = out.len() + 2;
    if sum {
        out.extend_from_slice(&[0xc3, 2, 0, 0]);
    }
    out[0] = out.len() as u8 - 1;
    out.extend_from_slice(body);
    if sum {
        seal(&mut out, at);
    }
    out
}

fn code_of(tpdu: &Tpdu<'_>, extended: bool) -> u8 {
    match tpdu {
        Tpdu::Cr(proposal) => 0xe0 + proposal.credit % 16,
        Tpdu::Cc(_, proposal) => 0xd0 + proposal.credit % 16,
        Tpdu::Dr { .. } => 0x80,
        Tpdu::Dc { .. } => 0xc0,
        Tpdu::Dt { .. } => 0xf0,
        Tpdu::Ed { .. } => 0x10,
        Tpdu::Ak { credit, .. } => 0x60 + if extended { 0 } else { (credit % 16) as u8 },
        Tpdu::Ea { .. } => 0x20,
        Tpdu::Er { .. } => 0x70,
    }
}

pub fn push_parameter(code: u8, value: &[u8], out: &mut Vec<u8>) {
    out.push(code);
    out.push(value.len() as u8);
    out.extend_from_slice(value);
}

fn push_numbered(top: bool, number: u32, extended: bool, out: &mut Vec<u8>) {
    if extended {
        out.extend_from_slice(&(number | u32::from(top) << 31).to_be_bytes());
    } else {
        out.push(number as u8 | u8::from(top) << 7);
    }
}
