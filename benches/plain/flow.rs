//! The flow of an end: what it sends and what it receives (X.224, class 4).

use crate::address::Nsap;
use crate::journal::Journal;
use crate::tpdu::{self, Tpdu, block, distance};
use std::collections::VecDeque;

const MOST_UNITS: usize = 64;
const MOST_QUEUED: usize = 131_072;
const LONGEST_UNIT: usize = 16_384;
const LONGEST_EXPEDITED: usize = 16;

/// The TPDUs of a step, with their addresses.
pub type Tpdus = Vec<(Nsap, Vec<u8>)>;

/// When something was sent last, and how often.
#[derive(Clone, Copy)]
pub struct Tries {
    pub last: u32,
    pub count: u32,
}

impl Tries {
    pub fn once(now: u32) -> Tries {
        Tries { last: now, count: 1 }
    }

    pub fn again(self, now: u32) -> Tries {
        Tries { last: now, count: self.count + 1 }
    }

    pub fn is_due(self, t1: u32, now: u32) -> bool {
        self.last + t1 <= now
    }
}

/// The fixed terms of a connection.
pub struct Rules {
    /// The number of the end.
    pub end: u32,
    pub to: Nsap,
    pub partner: u16,
    pub extended: bool,
    pub sum: bool,
    /// The most octets of a unit in one DT.
    pub piece: usize,
    pub t1: u32,
    pub sendings: u32,
    /// The ticks for which a number is in use.
    pub limit: u32,
}

impl Rules {
    fn wire(&self, number: u64) -> u32 {
        (number % (4 * u64::from(block(self.extended)))) as u32
    }

    fn most_credit(&self) -> u16 {
        if self.extended { 255 } else { 15 }
    }

    fn send(&self, tpdu: &Tpdu<'_>, tpdus: &mut Tpdus) {
        tpdus.push((self.to, tpdu::write(tpdu, self.extended, self.sum)));
    }
}

/// The last sendings of the newest blocks of numbers.
#[derive(Clone, Copy, Default)]
struct Blocks {
    high: u64,
    first: u64,
    newest: u32,
    second: u32,
    third: u32,
}

impl Blocks {
    /// The number rule.
    fn may_send(&self, rules: &Rules, number: u64, now: u32) -> bool {
        let size = u64::from(block(rules.extended));
        number < self.first + size || self.first <= size || self.third + rules.limit < now
    }

    fn mark(&mut self, rules: &Rules, number: u64, now: u32) {
        let size = u64::from(block(rules.extended));
        self.high = self.high.max(number + 1);
        if number < self.first {
            self.second = now;
        } else if number < self.first + size {
            self.newest = now;
        } else {
            self.first += size;
            self.third = self.second;
            self.second = self.newest;
            self.newest = now;
        }
    }
}

/// A piece of a unit, which a DT carries.
struct Piece {
    is_last: bool,
    octets: Vec<u8>,
    tries: Tries,
}

pub struct Flow {
    pub rules: Rules,
    is_open: bool,
    base: u64,
    credit: u16,
    subsequence: u16,
    next: u64,
    blocks: Blocks,
    /// The pieces from `base` on; those below `next` are sent.
    pieces: VecDeque<Piece>,
    /// The lengths of the units that are not acknowledged whole.
    units: VecDeque<usize>,
    queued: usize,
    noted: Option<u64>,
    urgent_next: u64,
    urgent_blocks: Blocks,
    urgent_units: VecDeque<Vec<u8>>,
    urgent_tries: Option<Tries>,
    urgent_noted: Option<u64>,
    expected: u32,
    urgent_expected: u32,
    granted: u16,
    granted_subsequence: u16,
    /// The pieces from `expected` on that came.
    held: VecDeque<Option<(bool, Vec<u8>)>>,
    begun: Vec<u8>,
}

impl Flow {
    pub fn new(rules: Rules, credit: u16, granted: u16) -> Flow {
        Flow {
            rules,
            is_open: false,
            base: 0,
            credit,
            subsequence: 0,
            next: 0,
            blocks: Blocks::default(),
            pieces: VecDeque::new(),
            units: VecDeque::new(),
            queued: 0,
            noted: None,
            urgent_next: 0,
            urgent_blocks: Blocks::default(),
            urgent_units: VecDeque::new(),
            urgent_tries: None,
            urgent_noted: None,
            expected: 0,
            urgent_expected: 0,
            granted,
            granted_subsequence: 0,
            held: VecDeque::new(),
            begun: Vec::new(),
        }
    }

    pub fn open(&mut self, now: u32, journal: &mut Journal, tpdus: &mut Tpdus) {
        self.is_open = true;
        self.send_new(now, journal, tpdus);
    }

    /// Why a normal unit is refused.
    pub fn refusal(&self, length: usize) -> Option<&'static str> {
        if length == 0 {
            Some("emptyunit")
        } else if length > LONGEST_UNIT {
            Some("toolong")
        } else if self.units.len() >= MOST_UNITS || self.queued + length > MOST_QUEUED {
            Some("queuefull")
        } else {
            None
        }
    }

    /// Why an expedited unit is refused.
    pub fn urgent_refusal(&self, length: usize, is_agreed: bool) -> Option<&'static str> {
        if length == 0 {
            Some("emptyunit")
        } else if length > LONGEST_EXPEDITED {
            Some("toolong")
        } else if !is_agreed {
            Some("noexpedited")
        } else if self.urgent_units.len() >= MOST_UNITS {
            Some("queuefull")
        } else {
            None
        }
    }

    pub fn submit(&mut self, now: u32, unit: &[u8], journal: &mut Journal, tpdus: &mut Tpdus) {
        self.units.push_back(unit.len());
        self.queued += unit.len();
        for octets in unit.chunks(self.rules.piece) {
            self.pieces.push_back(Piece { is_last: false, octets: octets.to_vec(), tries: Tries { last: 0, count: 0 } });
        }
        if let Some(piece) = self.pieces.back_mut() {
            piece.is_last = true;
        }
        self.send_new(now, journal, tpdus);
    }

    pub fn submit_urgent(&mut self, now: u32, unit: Vec<u8>, journal: &mut Journal, tpdus: &mut Tpdus) {
        self.urgent_units.push_back(unit);
        self.send_new(now, journal, tpdus);
    }

    /// What may go now: an ED, then DTs.
    fn send_new(&mut self, now: u32, journal: &mut Journal, tpdus: &mut Tpdus) {
        if !self.is_open {
            return;
        }
        if self.urgent_tries.is_none() && !self.urgent_units.is_empty() {
            let number = self.urgent_next;
            if self.urgent_blocks.may_send(&self.rules, number, now) {
                self.urgent_next += 1;
                self.urgent_tries = Some(Tries::once(now));
                self.send_urgent(now, tpdus);
            } else if self.urgent_noted != Some(number) {
                journal.held(self.rules.end, "ed", number);
                self.urgent_noted = Some(number);
            }
        }
        if !self.urgent_units.is_empty() {
            return;
        }
        while self.next < self.base + u64::from(self.credit) && self.next - self.base < self.pieces.len() as u64 {
            let number = self.next;
            if !self.blocks.may_send(&self.rules, number, now) {
                if self.noted != Some(number) {
                    journal.held(self.rules.end, "dt", number);
                    self.noted = Some(number);
                }
                return;
            }
            let at = (number - self.base) as usize;
            self.pieces[at].tries = Tries::once(now);
            self.send_piece(at, now, tpdus);
            self.next += 1;
        }
    }

    /// Sends the DT of a piece.
    fn send_piece(&mut self, at: usize, now: u32, tpdus: &mut Tpdus) {
        let number = self.base + at as u64;
        let piece = &self.pieces[at];
        let dt = Tpdu::Dt {
            destination: self.rules.partner,
            last: piece.is_last,
            number: self.rules.wire(number),
            octets: &piece.octets,
        };
        self.rules.send(&dt, tpdus);
        self.blocks.mark(&self.rules, number, now);
    }

    /// Sends the ED that is outstanding.
    fn send_urgent(&mut self, now: u32, tpdus: &mut Tpdus) {
        let number = self.urgent_next - 1;
        if let Some(octets) = self.urgent_units.front() {
            let ed = Tpdu::Ed { destination: self.rules.partner, number: self.rules.wire(number), octets };
            self.rules.send(&ed, tpdus);
        }
        self.urgent_blocks.mark(&self.rules, number, now);
    }

    pub fn on_ak(&mut self, now: u32, wire: u32, credit: u16, subsequence: u16, journal: &mut Journal, tpdus: &mut Tpdus) {
        let ahead = distance(self.rules.extended, self.rules.wire(self.base), wire);
        let number = self.base + u64::from(ahead);
        let is_newer = ahead > 0 || (subsequence, credit) > (self.subsequence, self.credit);
        if number > self.blocks.high || !is_newer {
            return;
        }
        for _ in 0..ahead {
            let Some(piece) = self.pieces.pop_front() else {
                break;
            };
            if piece.is_last {
                self.queued -= self.units.pop_front().unwrap_or(0);
            }
        }
        self.base = number;
        self.credit = credit;
        self.subsequence = subsequence;
        self.next = self.next.min(number + u64::from(credit)).max(number);
        self.send_new(now, journal, tpdus);
    }

    pub fn on_ea(&mut self, now: u32, wire: u32, journal: &mut Journal, tpdus: &mut Tpdus) {
        if self.urgent_tries.is_some() && self.rules.wire(self.urgent_next - 1) == wire {
            self.urgent_units.pop_front();
            self.urgent_tries = None;
            self.send_new(now, journal, tpdus);
        }
    }

    /// A tick; false where a TPDU was sent as often as it may be.
    pub fn tick(&mut self, now: u32, journal: &mut Journal, tpdus: &mut Tpdus) -> bool {
        let (t1, most) = (self.rules.t1, self.rules.sendings);
        let is_spent = |tries: Tries| tries.is_due(t1, now) && tries.count >= most;
        let sent = (self.next - self.base) as usize;
        if self.pieces.iter().take(sent).any(|piece| is_spent(piece.tries)) || self.urgent_tries.is_some_and(is_spent) {
            return false;
        }
        for at in 0..sent {
            let tries = self.pieces[at].tries;
            if tries.is_due(t1, now) {
                self.pieces[at].tries = tries.again(now);
                self.send_piece(at, now, tpdus);
            }
        }
        if let Some(tries) = self.urgent_tries.filter(|tries| tries.is_due(t1, now)) {
            self.urgent_tries = Some(tries.again(now));
            self.send_urgent(now, tpdus);
        }
        self.send_new(now, journal, tpdus);
        true
    }

    pub fn acknowledge(&self, tpdus: &mut Tpdus) {
        let ak = Tpdu::Ak {
            destination: self.rules.partner,
            number: self.expected,
            credit: self.granted,
            subsequence: self.granted_subsequence,
        };
        self.rules.send(&ak, tpdus);
    }

    /// A DT came; false where its unit would be too large.
    pub fn on_dt(&mut self, wire: u32, is_last: bool, octets: &[u8], journal: &mut Journal, tpdus: &mut Tpdus) -> bool {
        let ahead = distance(self.rules.extended, self.expected, wire) as usize;
        let is_held = self.held.get(ahead).is_some_and(Option::is_some);
        if !is_held && ahead < usize::from(self.granted) {
            if self.held.len() <= ahead {
                self.held.resize_with(ahead + 1, || None);
            }
            self.held[ahead] = Some((is_last, octets.to_vec()));
            if !self.show(journal) {
                return false;
            }
        }
        self.acknowledge(tpdus);
        true
    }

    /// Shows what is complete in order; false where a unit would be too large.
    fn show(&mut self, journal: &mut Journal) -> bool {
        while let Some(Some((is_last, octets))) = self.held.front() {
            if self.begun.len() + octets.len() > LONGEST_UNIT {
                return false;
            }
            self.begun.extend_from_slice(octets);
            if *is_last {
                journal.got(self.rules.end, &self.begun);
                self.begun.clear();
            }
            self.held.pop_front();
            self.expected = (self.expected + 1) % (4 * block(self.rules.extended));
            self.granted_subsequence = 0;
        }
        true
    }

    pub fn on_ed(&mut self, wire: u32, octets: &[u8], journal: &mut Journal, tpdus: &mut Tpdus) {
        let turn = 4 * block(self.rules.extended);
        if wire == self.urgent_expected {
            journal.urgent(self.rules.end, octets);
            self.urgent_expected = (wire + 1) % turn;
        } else if (wire + 1) % turn != self.urgent_expected {
            return;
        }
        self.rules.send(&Tpdu::Ea { destination: self.rules.partner, number: wire }, tpdus);
    }

    /// The user grants a credit; whether it changed.
    pub fn grant(&mut self, credit: u16, journal: &mut Journal) -> bool {
        let before = self.granted;
        let credit = credit.min(self.rules.most_credit());
        if credit >= before {
            self.granted = credit;
        } else if self.granted_subsequence < u16::MAX {
            self.granted_subsequence += 1;
            self.granted = credit;
        }
        journal.window(self.rules.end, self.granted);
        self.granted != before
    }
}
