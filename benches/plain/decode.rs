//! What `decode` shows of a capture (libpcap file format 2.4).

use crate::Failure;
use crate::address::{Nsap, push_hex};
use crate::clnp::{self, Kind, Pdu, number_at};
use crate::esis::{self, Hello};
use crate::journal::{Output, push_number};
use crate::tpdu;
use std::collections::VecDeque;
use std::io::{self, BufRead, ErrorKind, Read, Write};

const MOST_OCTETS: u64 = 16_777_216;
const MOST_CAPTURED: usize = 65_535;
const MOST_ENDS: usize = 1024;
const TRANSPORT: u8 = 1;

/// How the reading of a capture ends. An offset is that of the record that is at fault.
enum End {
    Done,
    Short(usize),
    Refused(usize, &'static str),
}

/// The ends that were named with extended formats, the latest last.
type Ends = VecDeque<(u16, Nsap)>;

/// Decodes the capture of the standard input; the answer is the exit status, and an error is one of writing.
pub fn run() -> io::Result<u8> {
    let mut out = Output::new();
    let mut input = io::stdin().lock().take(MOST_OCTETS);
    let status = match show_capture(&mut input, &mut out).and_then(|end| close(end, input, &mut out)) {
        Ok(status) => status,
        Err(Failure::Read) => 3,
        Err(Failure::Write(error)) => return Err(error),
    };
    out.flush()?;
    Ok(status)
}

/// The closing line, and the status. Where octets are left behind the limit, they are too many.
fn close(end: End, input: io::Take<io::StdinLock<'_>>, out: &mut Output) -> Result<u8, Failure> {
    if let End::Refused(offset, cause) = end {
        writeln!(out, "refused {offset} {cause}")?;
        return Ok(6);
    }
    if input.limit() == 0 && !is_at_end(&mut input.into_inner())? {
        writeln!(out, "toomuch")?;
        return Ok(7);
    }
    if let End::Short(offset) = end {
        writeln!(out, "refused {offset} short")?;
        return Ok(6);
    }
    writeln!(out, "done")?;
    Ok(0)
}

fn is_at_end(input: &mut impl BufRead) -> Result<bool, Failure> {
    input.fill_buf().map(|octets| octets.is_empty()).map_err(|_| Failure::Read)
}

/// Fills the octets; false where the input ends before.
fn fill(input: &mut impl Read, octets: &mut [u8]) -> Result<bool, Failure> {
    match input.read_exact(octets) {
        Ok(()) => Ok(true),
        Err(error) if error.kind() == ErrorKind::UnexpectedEof => Ok(false),
        Err(_) => Err(Failure::Read),
    }
}

fn show_capture(input: &mut impl BufRead, out: &mut Output) -> Result<End, Failure> {
    let mut header = [0; 24];
    if !fill(input, &mut header)? {
        return Ok(End::Short(0));
    }
    let is_big = match read_header(&header) {
        Ok(is_big) => is_big,
        Err((offset, cause)) => return Ok(End::Refused(offset, cause)),
    };
    let mut ends = Ends::new();
    let mut frame = Vec::new();
    let mut at = header.len();
    let mut count = 0;
    while !is_at_end(input)? {
        let mut numbers = [0; 16];
        if !fill(input, &mut numbers)? {
            return Ok(End::Short(at));
        }
        let number = |at: usize| {
            let four = [numbers[at], numbers[at + 1], numbers[at + 2], numbers[at + 3]];
            if is_big { u32::from_be_bytes(four) } else { u32::from_le_bytes(four) }
        };
        let (captured, original) = (number(8) as usize, number(12) as usize);
        if captured > MOST_CAPTURED || captured > original {
            return Ok(End::Refused(at, "length"));
        }
        frame.resize(captured, 0);
        if !fill(input, &mut frame)? {
            return Ok(End::Short(at));
        }
        count += 1;
        for number in [count, number(0), number(4), captured as u32] {
            push_number(number, &mut out.octets);
            out.octets.push(b' ');
        }
        if captured < original {
            out.octets.extend_from_slice(b"cut\n");
        } else {
            show_frame(&frame, &mut ends, &mut out.octets);
        }
        out.check()?;
        at += 16 + captured;
    }
    Ok(End::Done)
}

/// Whether the numbers of the capture have their highest octet first; or where it is refused, and why.
fn read_header(header: &[u8; 24]) -> Result<bool, (usize, &'static str)> {
    let is_big = match header[..4] {
        [0xa1, 0xb2, 0xc3, 0xd4] | [0xa1, 0xb2, 0x3c, 0x4d] => true,
        [0xd4, 0xc3, 0xb2, 0xa1] | [0x4d, 0x3c, 0xb2, 0xa1] => false,
        _ => return Err((0, "magic")),
    };
    let (version, link): ([u8; 4], [u8; 4]) = if is_big { ([0, 2, 0, 4], [0, 0, 0, 1]) } else { ([2, 0, 4, 0], [1, 0, 0, 0]) };
    if header[4..8] != version {
        return Err((4, "version"));
    }
    if header[20..24] != link {
        return Err((20, "link"));
    }
    Ok(is_big)
}

fn show_frame(octets: &[u8], ends: &mut Ends, out: &mut Vec<u8>) {
    match pdu_in(octets) {
        Some(pdu) if pdu[0] == 0x81 => match clnp::read(pdu) {
            Err(fault) => {
                out.extend_from_slice(b"badclnp ");
                push_hex(&[fault.reason], out);
                push_field(fault.place, out);
                out.push(b'\n');
            }
            Ok(pdu) => show_pdu(&pdu, ends, out),
        },
        Some(pdu) if pdu[0] == 0x82 => match esis::read(pdu) {
            Err(cause) => {
                out.extend_from_slice(b"badesis ");
                out.extend_from_slice(cause.as_bytes());
                out.push(b'\n');
            }
            Ok(hello) => show_hello(&hello, pdu, out),
        },
        _ => out.extend_from_slice(b"alien\n"),
    }
}

/// The network PDU of a frame, at least an octet.
fn pdu_in(octets: &[u8]) -> Option<&[u8]> {
    if octets.len() < 17 || octets[14..17] != [0xfe, 0xfe, 3] {
        return None;
    }
    let length = usize::from(number_at(octets, 12));
    if !(4..=1500).contains(&length) {
        return None;
    }
    octets.get(17..14 + length)
}

fn show_pdu(pdu: &Pdu<'_>, ends: &mut Ends, out: &mut Vec<u8>) {
    out.extend_from_slice(if pdu.kind == Kind::Dt { b"dt " } else { b"er " });
    push_address(&pdu.destination, out);
    out.push(b' ');
    push_address(&pdu.source, out);
    push_field(pdu.lifetime, out);
    out.push(b' ');
    if pdu.kind == Kind::Er {
        let (reason, place) = match clnp::option(pdu.options, clnp::REASON) {
            Some([reason, place]) => (*reason, *place),
            _ => (0, 0),
        };
        push_hex(&[reason], out);
        push_field(place, out);
        push_field(pdu.body.len() as u64, out);
        out.push(b'\n');
        return;
    }
    push_flags(pdu, out);
    out.push(b' ');
    match pdu.segment {
        None => out.push(b'-'),
        Some(part) => {
            push_number(part.id, out);
            out.push(b'/');
            push_number(part.offset, out);
            out.push(b'/');
            push_number(part.total, out);
        }
    }
    out.push(b' ');
    push_parameters(pdu.options, |_| true, out);
    push_field(pdu.body.len() as u64, out);
    out.push(b'\n');
    let is_whole = pdu.segment.is_none_or(|part| part.offset == 0 && !part.more);
    if pdu.destination.selector() == TRANSPORT && is_whole {
        show_unit(pdu, ends, out);
    }
}

fn push_flags(pdu: &Pdu<'_>, out: &mut Vec<u8>) {
    let before = out.len();
    if let Some(part) = pdu.segment {
        out.push(b's');
        if part.more {
            out.push(b'm');
        }
    }
    if pdu.wants_report {
        out.push(b'e');
    }
    if out.len() == before {
        out.push(b'-');
    }
}

fn show_hello(hello: &Hello, octets: &[u8], out: &mut Vec<u8>) {
    let mut behind = 10;
    match hello {
        Hello::Esh { hold, addresses } => {
            out.extend_from_slice(b"esh");
            push_field(*hold, out);
            out.push(b' ');
            for (at, address) in addresses.iter().enumerate() {
                if at > 0 {
                    out.push(b',');
                }
                push_address(address, out);
                behind += 1 + address.octets().len();
            }
            if addresses.is_empty() {
                out.push(b'-');
            }
        }
        Hello::Ish { hold, title } => {
            out.extend_from_slice(b"ish");
            push_field(*hold, out);
            out.push(b' ');
            push_address(title, out);
            behind += title.octets().len();
        }
        Hello::Rd { hold, address, snpa, title } => {
            out.extend_from_slice(b"rd");
            push_field(*hold, out);
            out.push(b' ');
            push_address(address, out);
            out.push(b' ');
            push_hex(snpa, out);
            out.push(b' ');
            match title {
                Some(title) => push_address(title, out),
                None => out.push(b'-'),
            }
            behind += address.octets().len() + 8 + title.as_ref().map_or(0, |title| title.octets().len());
        }
    }
    out.push(b' ');
    push_parameters(&octets[behind..usize::from(octets[1])], |_| true, out);
    out.push(b'\n');
}

/// The lines of the TPDUs of a unit, up to the first fault.
fn show_unit(pdu: &Pdu<'_>, ends: &mut Ends, out: &mut Vec<u8>) {
    let mut left = pdu.body;
    while !left.is_empty() {
        let extended = left.len() >= 4 && {
            let reference = number_at(left, 2);
            ends.iter().any(|end| end.0 == reference && end.1 == pdu.destination)
        };
        let parts = match tpdu::parts(left, extended) {
            Ok(parts) => parts,
            Err((cause, place)) => {
                out.extend_from_slice(b" tpdu bad ");
                out.extend_from_slice(cause.as_bytes());
                push_field(place as u64, out);
                out.push(b'\n');
                return;
            }
        };
        show_tpdu(&parts, out);
        if parts.kind == tpdu::Kind::Cc && is_extended(&parts) {
            name((number_at(parts.fixed, 0), pdu.destination), ends);
            name((number_at(parts.fixed, 2), pdu.source), ends);
        }
        left = parts.rest;
    }
}

/// Whether a CR or a CC has extended formats.
fn is_extended(parts: &tpdu::Parts<'_>) -> bool {
    parts.fixed[4] / 2 % 2 == 1
}

fn name(end: (u16, Nsap), ends: &mut Ends) {
    if let Some(at) = ends.iter().position(|other| *other == end) {
        ends.remove(at);
    }
    ends.push_back(end);
    if ends.len() > MOST_ENDS {
        ends.pop_front();
    }
}

fn show_tpdu(parts: &tpdu::Parts<'_>, out: &mut Vec<u8>) {
    use tpdu::Kind;
    let fixed = parts.fixed;
    out.extend_from_slice(b" tpdu ");
    out.extend_from_slice(parts.kind.word().as_bytes());
    if matches!(parts.kind, Kind::Cr | Kind::Cc) {
        push_field(parts.code % 16, out);
    }
    if parts.kind != Kind::Cr {
        push_field(number_at(fixed, 0), out);
    }
    match parts.kind {
        Kind::Cr | Kind::Cc => {
            push_field(number_at(fixed, 2), out);
            push_field(is_extended(parts), out);
        }
        Kind::Dr => {
            push_field(number_at(fixed, 2), out);
            push_field(fixed[4], out);
        }
        Kind::Dc => push_field(number_at(fixed, 2), out),
        Kind::Dt | Kind::Ed => {
            let (last, number) = tpdu::numbered(fixed, parts.extended);
            push_field(last, out);
            push_field(number, out);
        }
        Kind::Ak => {
            push_field(tpdu::numbered(fixed, parts.extended).1, out);
            push_field(if parts.extended { number_at(fixed, 6) } else { u16::from(parts.code % 16) }, out);
        }
        Kind::Ea => push_field(tpdu::numbered(fixed, parts.extended).1, out),
        Kind::Er => push_field(fixed[2], out),
    }
    out.push(b' ');
    push_parameters(parts.parameters, |code| parts.kind.knows(code), out);
    push_field(parts.body.len() as u64, out);
    out.push(b'\n');
}

/// Parameters as `code=value` with commas, those whose code is wanted.
fn push_parameters(mut octets: &[u8], is_wanted: impl Fn(u8) -> bool, out: &mut Vec<u8>) {
    let before = out.len();
    while let Some((code, value, length)) = tpdu::parameter(octets) {
        if is_wanted(code) {
            if out.len() > before {
                out.push(b',');
            }
            push_hex(&[code], out);
            out.push(b'=');
            if value.is_empty() {
                out.push(b'-');
            } else {
                push_hex(value, out);
            }
        }
        octets = &octets[length..];
    }
    if out.len() == before {
        out.push(b'-');
    }
}

/// An address, its parts divided by dots.
fn push_address(address: &Nsap, out: &mut Vec<u8>) {
    let octets = address.octets();
    let divided = match octets[0] {
        0x49 if octets.len() >= 3 => 1,
        0x39 | 0x47 if octets.len() >= 5 => 3,
        _ => return push_hex(octets, out),
    };
    push_hex(&octets[..1], out);
    if divided == 3 {
        out.push(b'.');
        push_hex(&octets[1..3], out);
    }
    out.push(b'.');
    push_hex(&octets[divided..octets.len() - 1], out);
    out.push(b'.');
    push_hex(&octets[octets.len() - 1..], out);
}

/// A blank and a number.
fn push_field(number: impl Into<u64>, out: &mut Vec<u8>) {
    out.push(b' ');
    push_number(number, out);
}
