//! PDUs of the connectionless network protocol (X.233).

use crate::address::{Nsap, checksum_holds, seal};

pub const SOURCE_ROUTE: u8 = 0xc8;
pub const RECORDING: u8 = 0xcb;
pub const REASON: u8 = 0xc1;
const ENDED: u8 = 255;

#[derive(Clone, Copy, PartialEq, Eq)]
pub enum Kind {
    Dt,
    Er,
}

#[derive(Clone, Copy)]
pub struct Segment {
    pub id: u16,
    pub offset: u16,
    pub total: u16,
    pub more: bool,
}

/// A PDU; its options stand as octets.
pub struct Pdu<'a> {
    pub kind: Kind,
    pub destination: Nsap,
    pub source: Nsap,
    pub lifetime: u8,
    pub has_checksum: bool,
    pub wants_report: bool,
    pub segment: Option<Segment>,
    pub options: &'a [u8],
    pub header: &'a [u8],
    pub body: &'a [u8],
}

pub struct Fault {
    pub reason: u8,
    pub place: u8,
    pub is_reportable: bool,
}

fn fault(reason: u8, place: usize) -> Fault {
    Fault { reason, place: place as u8, is_reportable: false }
}

/// Two octets as a number.
pub fn number_at(octets: &[u8], at: usize) -> u16 {
    u16::from_be_bytes([octets[at], octets[at + 1]])
}

/// The address behind its length at a position.
pub fn address_at(octets: &[u8], at: usize) -> Option<Nsap> {
    let length = usize::from(*octets.get(at)?);
    Nsap::of(octets.get(at + 1..at + 1 + length)?)
}

/// Whether the checksum in the eighth and ninth octet is used; None where it does not hold.
pub fn checksum_of(header: &[u8]) -> Option<bool> {
    match (header[7], header[8]) {
        (0, 0) => Some(false),
        (0, _) | (_, 0) => None,
        _ => checksum_holds(header).then_some(true),
    }
}

pub fn read(octets: &[u8]) -> Result<Pdu<'_>, Fault> {
    if octets.len() < 9 {
        return Err(fault(0x06, 0));
    }
    if octets[0] != 0x81 {
        return Err(fault(0x04, 1));
    }
    let length = usize::from(octets[1]);
    if !(13..=254).contains(&length) {
        return Err(fault(0x04, 2));
    }
    if length > octets.len() {
        return Err(fault(0x06, 2));
    }
    if octets[2] != 1 {
        return Err(fault(0xb1, 3));
    }
    let header = &octets[..length];
    let has_checksum = checksum_of(header).ok_or(fault(0x02, 8))?;
    let (is_segmented, more) = (header[4] & 0x80 != 0, header[4] & 0x40 != 0);
    let kind = match header[4] & 0x1f {
        0x1c if is_segmented || !more => Kind::Dt,
        0x01 if !is_segmented => Kind::Er,
        _ => return Err(fault(0x04, 5)),
    };
    let more = more && kind == Kind::Dt;
    let wants_report = header[4] & 0x20 != 0 && kind == Kind::Dt;
    let destination = address_at(header, 9).ok_or(fault(0x04, 10))?;
    let at = 10 + destination.octets().len();
    let source = address_at(header, at).ok_or(fault(0x04, at + 1))?;
    let start = at + 1 + source.octets().len();
    let late = |reason, place| Fault { reason, place: place as u8, is_reportable: wants_report };
    let segment = if is_segmented { Some(read_segment(header, start, more).map_err(|place| late(0x04, place))?) } else { None };
    let behind = if is_segmented { start + 6 } else { start };
    let options = &header[behind..];
    check_options(options, kind).map_err(|(reason, at)| late(reason, at.map_or(0, |at| behind + at + 1)))?;
    let whole = usize::from(number_at(header, 5));
    if whole < length {
        return Err(late(0x04, 6));
    }
    if whole > octets.len() {
        return Err(late(0x06, 6));
    }
    if more && (whole == length || (whole - length) % 8 != 0) {
        return Err(late(0x04, 6));
    }
    if let Some(part) = segment {
        let (end, total) = (usize::from(part.offset) + whole, usize::from(part.total));
        if if part.more { end >= total } else { end != total } {
            return Err(late(0x04, start + 5));
        }
    }
    let body = &octets[length..whole];
    Ok(Pdu { kind, destination, source, lifetime: header[3], has_checksum, wants_report, segment, options, header, body })
}

/// The segmentation part at a position, or the place of its fault.
fn read_segment(header: &[u8], at: usize, more: bool) -> Result<Segment, usize> {
    if at + 6 > header.len() {
        return Err(at + 1);
    }
    let offset = number_at(header, at + 2);
    if offset % 8 != 0 {
        return Err(at + 3);
    }
    Ok(Segment { id: number_at(header, at), offset, total: number_at(header, at + 4), more })
}

/// The first fault of options, with the position of its option.
fn check_options(octets: &[u8], kind: Kind) -> Result<(), (u8, Option<usize>)> {
    let mut at = 0;
    while at < octets.len() {
        let Some((code, value)) = option_at(octets, at) else {
            return Err((0x04, Some(at)));
        };
        if code != 0xcc && option(&octets[..at], code).is_some() {
            return Err((0x07, Some(at)));
        }
        let reason = match code {
            0xcc => None,
            0xc5 => Some(0xb2),
            SOURCE_ROUTE => (!is_source_route(value)).then_some(0x91),
            RECORDING => (!is_recording(value)).then_some(0x04),
            0xc3 => value.is_empty().then_some(0x04),
            0xcd => (value.len() != 1).then_some(0x04),
            REASON if kind == Kind::Er => (value.len() != 2).then_some(0x04),
            _ => Some(0xb0),
        };
        if let Some(reason) = reason {
            return Err((reason, Some(at)));
        }
        at += 2 + value.len();
    }
    if kind == Kind::Er && option(octets, REASON).is_none() {
        return Err((0x04, None));
    }
    Ok(())
}

fn option_at(octets: &[u8], at: usize) -> Option<(u8, &[u8])> {
    let length = usize::from(*octets.get(at + 1)?);
    Some((octets[at], octets.get(at + 2..at + 2 + length)?))
}

/// The value of an option.
pub fn option(octets: &[u8], code: u8) -> Option<&[u8]> {
    let mut at = 0;
    while let Some((found, value)) = option_at(octets, at) {
        if found == code {
            return Some(value);
        }
        at += 2 + value.len();
    }
    None
}

/// The place behind the entries from octet 3 up to a place; None where one has not its form or none ends there.
fn entries_to(value: &[u8], place: usize) -> Option<usize> {
    let mut at = 2;
    while at + 1 < place {
        at += 1 + address_at(value, at)?.octets().len();
    }
    (at + 1 == place).then_some(at)
}

fn is_source_route(value: &[u8]) -> bool {
    value.len() > 2
        && value[0] <= 1
        && entries_to(value, usize::from(value[1])).is_some()
        && entries_to(value, value.len() + 1).is_some()
        && value.len() <= 254
}

fn is_recording(value: &[u8]) -> bool {
    value.len() >= 2
        && value[0] <= 1
        && value.len() <= 254
        && (value[1] == ENDED || entries_to(value, usize::from(value[1])).is_some())
}

/// The title at the offset of a source route; None where the route has ended.
pub fn next_title(value: &[u8]) -> Option<Nsap> {
    address_at(value, usize::from(value[1]) - 1)
}

/// Moves the offset of a source route past its entry.
pub fn advance(value: &mut [u8]) {
    value[1] += 1 + value[usize::from(value[1]) - 1];
}

/// Records a title where it fits.
pub fn record(value: &mut [u8], title: &Nsap) {
    if value[1] == ENDED {
        return;
    }
    let at = usize::from(value[1]) - 1;
    let end = at + 1 + title.octets().len();
    if end > value.len() {
        value[1] = ENDED;
        return;
    }
    value[at] = title.octets().len() as u8;
    value[at + 1..end].copy_from_slice(title.octets());
    value[1] = (end + 1) as u8;
}

pub fn header_length(destination: &Nsap, source: &Nsap, is_segmented: bool, options: &[u8]) -> usize {
    11 + destination.octets().len() + source.octets().len() + if is_segmented { 6 } else { 0 } + options.len()
}

/// The octets of a PDU. Its header is written anew.
pub fn write(pdu: &Pdu<'_>) -> Vec<u8> {
    let header = header_length(&pdu.destination, &pdu.source, pdu.segment.is_some(), pdu.options);
    let mut out = Vec::with_capacity(header + pdu.body.len());
    let kind = match (pdu.kind, pdu.segment) {
        (Kind::Er, _) => 0x01,
        (Kind::Dt, None) => 0x1c,
        (Kind::Dt, Some(part)) => if part.more { 0xdc } else { 0x9c },
    };
    let report = if pdu.wants_report { 0x20 } else { 0 };
    out.extend_from_slice(&[0x81, header as u8, 1, pdu.lifetime, kind | report]);
    out.extend_from_slice(&((header + pdu.body.len()) as u16).to_be_bytes());
    out.extend_from_slice(&[0, 0]);
    for address in [&pdu.destination, &pdu.source] {
        out.push(address.octets().len() as u8);
        out.extend_from_slice(address.octets());
    }
    if let Some(part) = pdu.segment {
        for number in [part.id, part.offset, part.total] {
            out.extend_from_slice(&number.to_be_bytes());
        }
    }
    out.extend_from_slice(pdu.options);
    if pdu.has_checksum {
        seal(&mut out, 7);
    }
    out.extend_from_slice(pdu.body);
    out
}

/// Writes the pieces of a PDU for a room, and hands on their octets; false where it does not fit and may not be cut.
pub fn write_cut(mut pdu: Pdu<'_>, room: usize, mut each: impl FnMut(Vec<u8>)) -> bool {
    let header = header_length(&pdu.destination, &pdu.source, pdu.segment.is_some(), pdu.options);
    if header + pdu.body.len() <= room {
        each(write(&pdu));
        return true;
    }
    let Some(part) = pdu.segment else {
        return false;
    };
    let body = pdu.body;
    let step = (room - header) / 8 * 8;
    let mut at = 0;
    while room - header < body.len() - at {
        pdu.segment = Some(Segment { offset: part.offset + at as u16, more: true, ..part });
        pdu.body = &body[at..at + step];
        each(write(&pdu));
        at += step;
    }
    pdu.segment = Some(Segment { offset: part.offset + at as u16, ..part });
    pdu.body = &body[at..];
    each(write(&pdu));
    true
}
