//! One end of a connection: its states, row by row (X.224, class 4).

use crate::address::Nsap;
use crate::flow::{Flow, Rules, Tpdus, Tries};
use crate::journal::{Journal, Options};
use crate::script::Settings;
use crate::tpdu::{Proposal, Tpdu};

const DEFAULT_SIZE: u16 = 128;
const LARGEST_SIZE: u16 = 8192;
const MOST_PREFERRED: u32 = 128;

/// What a user asks of an end.
pub enum Call {
    Accept(Options, Vec<u8>),
    Refuse(Vec<u8>),
    Data(Vec<u8>),
    Expedite(Vec<u8>),
    Window(u16),
    Disconnect(Vec<u8>),
}

/// Why a call is refused.
pub enum Refused {
    State(&'static str),
    Cause(&'static str),
}

#[derive(Clone, Copy)]
pub struct Timers {
    pub life: u32,
    pub t1: u32,
    pub sendings: u32,
    pub window: u32,
    pub inactive: u32,
    pub credit: u16,
}

impl Timers {
    pub fn of(settings: &Settings) -> Timers {
        Timers {
            life: settings.get("life"),
            t1: settings.get("t1"),
            sendings: settings.get("n"),
            window: settings.get("w"),
            inactive: settings.get("i"),
            credit: settings.get("credit") as u16,
        }
    }

    /// For how long a reference is frozen.
    pub fn frozen(&self) -> u32 {
        2 * self.life + self.inactive + self.sendings * self.t1
    }
}

#[derive(Clone, Copy)]
enum State {
    CrWait(Tries),
    WaitBeforeClose(Tries),
    UserWait { since: u32 },
    AkWait { first: u32, tries: Tries },
    Opened { took: u32, acked: u32 },
    Closing { reason: u8, from: u32, last: u32 },
    Frozen { at: u32 },
}

pub struct Connection {
    pub number: u32,
    own: u16,
    to: Nsap,
    is_called: bool,
    calling: Vec<u8>,
    called: Vec<u8>,
    proposed: Options,
    /// The size that counts where no preferred one is agreed.
    listed: u16,
    timers: Timers,
    partner: u16,
    credit: u16,
    agreed: Option<Options>,
    state: State,
    /// The octets of the CR, CC or DR that is sent again.
    octets: Vec<u8>,
    /// The octets of a user who disconnected before the answer came.
    parting: Vec<u8>,
    /// In AkWait and Opened.
    flow: Option<Flow>,
}

/// The greatest size of the seven that is no greater.
fn listed_of(options: &Options) -> u16 {
    (1 << options.size.ilog2()).min(LARGEST_SIZE)
}

fn preferred_of(options: &Options) -> Option<u32> {
    options.preferred.then_some(u32::from(options.size / 128))
}

fn extra_of(options: &Options) -> u8 {
    u8::from(options.expedited) + if options.sum { 0 } else { 2 }
}

fn options_of(proposal: &Proposal<'_>) -> Options {
    Options {
        extended: proposal.extended,
        size: match proposal.preferred {
            Some(number) => 128 * number.min(MOST_PREFERRED) as u16,
            None => proposal.size.unwrap_or(DEFAULT_SIZE),
        },
        preferred: proposal.preferred.is_some(),
        expedited: proposal.extra % 2 == 1,
        sum: proposal.extra / 2 % 2 == 0,
    }
}

impl Connection {
    /// An end that calls.
    #[allow(clippy::too_many_arguments)]
    pub fn connect(
        now: u32,
        number: u32,
        own: u16,
        to: Nsap,
        selectors: (Vec<u8>, Vec<u8>),
        options: Options,
        octets: Vec<u8>,
        timers: Timers,
        tpdus: &mut Tpdus,
    ) -> Connection {
        let connection = Connection {
            number,
            own,
            to,
            is_called: false,
            calling: selectors.0,
            called: selectors.1,
            proposed: options,
            listed: listed_of(&options),
            timers,
            partner: 0,
            credit: 0,
            agreed: None,
            state: State::CrWait(Tries::once(now)),
            octets,
            parting: Vec::new(),
            flow: None,
        };
        connection.send_cr(tpdus);
        connection
    }

    /// An end that a CR calls.
    pub fn incoming(now: u32, number: u32, own: u16, from: Nsap, cr: &Proposal<'_>, timers: Timers) -> Connection {
        Connection {
            number,
            own,
            to: from,
            is_called: true,
            calling: cr.calling.to_vec(),
            called: cr.called.to_vec(),
            proposed: options_of(cr),
            listed: cr.size.unwrap_or(DEFAULT_SIZE),
            timers,
            partner: cr.source,
            credit: u16::from(cr.credit),
            agreed: None,
            state: State::UserWait { since: now },
            octets: Vec::new(),
            parting: Vec::new(),
            flow: None,
        }
    }

    pub fn proposed(&self) -> &Options {
        &self.proposed
    }

    pub fn is_extended(&self) -> bool {
        self.agreed.is_some_and(|options| options.extended)
    }

    pub fn is_called_by(&self, from: &Nsap, reference: u16) -> bool {
        self.is_called && self.to == *from && self.partner == reference
    }

    pub fn is_frozen(&self) -> bool {
        matches!(self.state, State::Frozen { .. })
    }

    /// Whether its reference is free.
    pub fn is_over(&self, now: u32) -> bool {
        match self.state {
            State::Frozen { at } => now > at + self.timers.frozen(),
            _ => false,
        }
    }

    fn state_word(&self) -> &'static str {
        match self.state {
            State::CrWait(_) => "crwait",
            State::WaitBeforeClose(_) => "waitbeforeclose",
            State::UserWait { .. } => "userwait",
            State::AkWait { .. } => "akwait",
            State::Opened { .. } => "opened",
            State::Closing { .. } => "closing",
            State::Frozen { .. } => "frozen",
        }
    }

    /// Whether a TPDU with its reference as destination is for this end.
    pub fn matches(&self, from: &Nsap, tpdu: &Tpdu<'_>) -> bool {
        if self.to != *from {
            return false;
        }
        let is_partner = match *tpdu {
            Tpdu::Cc(_, Proposal { source, .. }) | Tpdu::Dr { source, .. } | Tpdu::Dc { source, .. } => {
                source == self.partner
            }
            _ => true,
        };
        match self.state {
            State::CrWait(_) | State::WaitBeforeClose(_) => matches!(tpdu, Tpdu::Cc(..) | Tpdu::Dr { .. }),
            State::UserWait { .. } | State::Frozen { .. } => false,
            State::AkWait { .. } => is_partner || matches!(tpdu, Tpdu::Dr { source: 0, .. }),
            State::Opened { .. } | State::Closing { .. } => is_partner,
        }
    }

    /// Whether a TPDU has to have a checksum.
    pub fn wants_sum(&self, tpdu: &Tpdu<'_>) -> bool {
        match (self.state, tpdu) {
            (State::CrWait(_) | State::WaitBeforeClose(_), Tpdu::Cc(_, cc)) => cc.extra / 2 % 2 == 0,
            (State::CrWait(_) | State::WaitBeforeClose(_), _) => false,
            _ => self.agreed.is_some_and(|options| options.sum),
        }
    }

    fn send(&self, tpdu: &Tpdu<'_>, tpdus: &mut Tpdus) {
        let (extended, sum) = self.agreed.map_or((false, true), |options| (options.extended, options.sum));
        tpdus.push((self.to, crate::tpdu::write(tpdu, extended, sum)));
    }

    fn proposal(&self, options: &Options, size: Option<u16>) -> Proposal<'_> {
        Proposal {
            credit: self.timers.credit as u8,
            source: self.own,
            extended: options.extended,
            calling: &self.calling,
            called: &self.called,
            size,
            preferred: preferred_of(options),
            extra: extra_of(options),
            octets: &self.octets,
        }
    }

    fn send_cr(&self, tpdus: &mut Tpdus) {
        self.send(&Tpdu::Cr(self.proposal(&self.proposed, Some(self.listed))), tpdus);
    }

    fn send_cc(&self, tpdus: &mut Tpdus) {
        if let Some(options) = &self.agreed {
            let size = (!options.preferred).then_some(options.size);
            self.send(&Tpdu::Cc(self.partner, self.proposal(options, size)), tpdus);
        }
    }

    fn send_dr(&self, source: u16, reason: u8, octets: &[u8], tpdus: &mut Tpdus) {
        self.send(&Tpdu::Dr { destination: self.partner, source, reason, octets }, tpdus);
    }

    /// A DC where the source of a DR is not 0.
    fn send_dc(&self, source: u16, tpdus: &mut Tpdus) {
        if source != 0 {
            self.send(&Tpdu::Dc { destination: source, source: self.own }, tpdus);
        }
    }

    fn freeze(&mut self, now: u32) {
        self.state = State::Frozen { at: now };
        self.flow = None;
    }

    /// A DR is sent; Closing.
    fn close(&mut self, now: u32, reason: u8, octets: Vec<u8>, from: u32, tpdus: &mut Tpdus) {
        self.send_dr(self.own, reason, &octets, tpdus);
        self.octets = octets;
        self.state = State::Closing { reason, from, last: now };
        self.flow = None;
    }

    /// Gone for a cause; Closing.
    fn fail(&mut self, now: u32, cause: &str, reason: u8, from: u32, journal: &mut Journal, tpdus: &mut Tpdus) {
        journal.gone(self.number, cause, &[]);
        self.close(now, reason, Vec::new(), from, tpdus);
    }

    fn new_flow(&self, options: &Options) -> Flow {
        let header = if options.extended { 8 } else { 5 } + if options.sum { 4 } else { 0 };
        let rules = Rules {
            end: self.number,
            to: self.to,
            partner: self.partner,
            extended: options.extended,
            sum: options.sum,
            piece: usize::from(options.size) - header,
            t1: self.timers.t1,
            sendings: self.timers.sendings,
            limit: 2 * self.timers.life + (self.timers.sendings - 1) * self.timers.t1,
        };
        Flow::new(rules, self.credit, self.timers.credit)
    }

    /// The first cause for which a call is refused.
    fn refusal(&self, call: &Call) -> Option<Refused> {
        let is_listed = match self.state {
            State::CrWait(_) => matches!(call, Call::Disconnect(_)),
            State::UserWait { .. } => matches!(call, Call::Accept(..) | Call::Refuse(_)),
            State::AkWait { .. } => matches!(call, Call::Data(_) | Call::Expedite(_) | Call::Disconnect(_)),
            State::Opened { .. } => !matches!(call, Call::Accept(..) | Call::Refuse(_)),
            _ => false,
        };
        if !is_listed {
            return Some(Refused::State(self.state_word()));
        }
        let too_long = |octets: &[u8], most| (octets.len() > most).then_some("toolong");
        let cause = match call {
            Call::Accept(_, octets) => too_long(octets, 32),
            Call::Refuse(octets) | Call::Disconnect(octets) => too_long(octets, 64),
            Call::Data(unit) => self.flow.as_ref().and_then(|flow| flow.refusal(unit.len())),
            Call::Expedite(unit) => {
                let is_agreed = self.agreed.is_some_and(|options| options.expedited);
                self.flow.as_ref().and_then(|flow| flow.urgent_refusal(unit.len(), is_agreed))
            }
            Call::Window(_) => None,
        };
        cause.map(Refused::Cause)
    }

    pub fn call(&mut self, now: u32, call: Call, journal: &mut Journal, tpdus: &mut Tpdus) -> Result<(), Refused> {
        if let Some(refused) = self.refusal(&call) {
            return Err(refused);
        }
        match call {
            Call::Accept(asked, octets) => self.accept(now, &asked, octets, journal, tpdus),
            Call::Refuse(octets) => {
                journal.of_end("refuse", self.number, &octets);
                self.send_dr(0, 128, &octets, tpdus);
                self.freeze(now);
            }
            Call::Disconnect(octets) => {
                journal.of_end("disconnect", self.number, &octets);
                match self.state {
                    State::CrWait(tries) => {
                        self.parting = octets;
                        self.state = State::WaitBeforeClose(tries);
                    }
                    State::AkWait { first, .. } => self.close(now, 128, octets, first, tpdus),
                    _ => self.close(now, 128, octets, now, tpdus),
                }
            }
            Call::Data(unit) => {
                journal.of_end("data", self.number, &unit);
                if let Some(flow) = &mut self.flow {
                    flow.submit(now, &unit, journal, tpdus);
                }
            }
            Call::Expedite(unit) => {
                journal.of_end("expedite", self.number, &unit);
                if let Some(flow) = &mut self.flow {
                    flow.submit_urgent(now, unit, journal, tpdus);
                }
            }
            Call::Window(credit) => {
                if let (Some(flow), State::Opened { acked, .. }) = (&mut self.flow, &mut self.state) {
                    if flow.grant(credit, journal) {
                        flow.acknowledge(tpdus);
                        *acked = now;
                    }
                }
            }
        }
        Ok(())
    }

    fn accept(&mut self, now: u32, asked: &Options, octets: Vec<u8>, journal: &mut Journal, tpdus: &mut Tpdus) {
        let preferred = self.proposed.preferred && asked.preferred;
        let options = Options {
            extended: self.proposed.extended && asked.extended,
            size: if preferred { self.proposed.size.min(asked.size) } else { self.listed.min(listed_of(asked)) },
            preferred,
            expedited: self.proposed.expedited && asked.expedited,
            sum: self.proposed.sum || asked.sum,
        };
        self.agreed = Some(options);
        self.octets = octets;
        journal.agreed("accept", self.number, &options, &self.octets);
        self.send_cc(tpdus);
        self.flow = Some(self.new_flow(&options));
        self.state = State::AkWait { first: now, tries: Tries::once(now) };
    }

    /// A matching TPDU that has its checksum came.
    pub fn receive(&mut self, now: u32, tpdu: &Tpdu<'_>, journal: &mut Journal, tpdus: &mut Tpdus) {
        match (self.state, tpdu) {
            (State::CrWait(_), Tpdu::Cc(_, cc)) => self.on_cc(now, cc, journal, tpdus),
            (State::WaitBeforeClose(_), Tpdu::Cc(_, cc)) => {
                self.partner = cc.source;
                let octets = std::mem::take(&mut self.parting);
                self.close(now, 128, octets, now, tpdus);
            }
            (State::WaitBeforeClose(_), Tpdu::Dr { source, .. }) => {
                self.send_dc(*source, tpdus);
                self.freeze(now);
            }
            (State::CrWait(_) | State::AkWait { .. } | State::Opened { .. }, Tpdu::Dr { source, reason, octets, .. }) => {
                journal.gone(self.number, &reason.to_string(), octets);
                self.send_dc(*source, tpdus);
                self.freeze(now);
            }
            (State::AkWait { first, .. }, Tpdu::Er { .. }) => self.fail(now, "protocol", 133, first, journal, tpdus),
            (State::AkWait { .. }, Tpdu::Ak { .. } | Tpdu::Dt { .. } | Tpdu::Ed { .. } | Tpdu::Ea { .. }) => {
                if let Some(flow) = &mut self.flow {
                    flow.open(now, journal, tpdus);
                }
                self.state = State::Opened { took: now, acked: now };
                self.receive_opened(now, tpdu, journal, tpdus);
            }
            (State::Opened { acked, .. }, _) => {
                self.state = State::Opened { took: now, acked };
                self.receive_opened(now, tpdu, journal, tpdus);
            }
            (State::Closing { .. }, Tpdu::Dc { .. } | Tpdu::Dr { .. }) => self.freeze(now),
            _ => {}
        }
    }

    fn on_cc(&mut self, now: u32, cc: &Proposal<'_>, journal: &mut Journal, tpdus: &mut Tpdus) {
        self.partner = cc.source;
        let options = options_of(cc);
        let proposed = &self.proposed;
        let is_within = (!options.extended || proposed.extended)
            && (!options.expedited || proposed.expedited)
            && (options.sum || !proposed.sum)
            && match cc.preferred {
                Some(number) => proposed.preferred && number <= u32::from(proposed.size / 128),
                None => options.size <= self.listed,
            };
        if !is_within {
            return self.fail(now, "protocol", 133, now, journal, tpdus);
        }
        self.credit = u16::from(cc.credit);
        self.agreed = Some(options);
        journal.agreed("confirm", self.number, &options, cc.octets);
        let mut flow = self.new_flow(&options);
        flow.open(now, journal, tpdus);
        flow.acknowledge(tpdus);
        self.flow = Some(flow);
        self.state = State::Opened { took: now, acked: now };
    }

    fn receive_opened(&mut self, now: u32, tpdu: &Tpdu<'_>, journal: &mut Journal, tpdus: &mut Tpdus) {
        let is_expedited = self.agreed.is_some_and(|options| options.expedited);
        let (Some(flow), State::Opened { acked, .. }) = (&mut self.flow, &mut self.state) else {
            return;
        };
        let goes_on = match *tpdu {
            Tpdu::Cc(..) => {
                flow.acknowledge(tpdus);
                *acked = now;
                true
            }
            Tpdu::Er { .. } => false,
            Tpdu::Dt { last, number, octets, .. } => {
                let fits = flow.on_dt(number, last, octets, journal, tpdus);
                *acked = now;
                fits
            }
            Tpdu::Ed { number, octets, .. } => {
                if is_expedited {
                    flow.on_ed(number, octets, journal, tpdus);
                }
                is_expedited
            }
            Tpdu::Ak { number, credit, subsequence, .. } => {
                flow.on_ak(now, number, credit, subsequence, journal, tpdus);
                true
            }
            Tpdu::Ea { number, .. } => {
                flow.on_ea(now, number, journal, tpdus);
                true
            }
            Tpdu::Cr(_) | Tpdu::Dr { .. } | Tpdu::Dc { .. } => true,
        };
        if !goes_on {
            self.fail(now, "protocol", 133, now, journal, tpdus);
        }
    }

    pub fn tick(&mut self, now: u32, journal: &mut Journal, tpdus: &mut Tpdus) {
        let timers = self.timers;
        match self.state {
            State::CrWait(tries) if tries.is_due(timers.t1, now) => {
                if tries.count < timers.sendings {
                    self.send_cr(tpdus);
                    self.state = State::CrWait(tries.again(now));
                } else {
                    journal.gone(self.number, "exhausted", &[]);
                    self.freeze(now);
                }
            }
            State::WaitBeforeClose(tries) if tries.is_due(timers.t1, now) => {
                if tries.count < timers.sendings {
                    self.send_cr(tpdus);
                    self.state = State::WaitBeforeClose(tries.again(now));
                } else {
                    self.freeze(now);
                }
            }
            State::UserWait { since } if since + timers.inactive <= now => {
                journal.gone(self.number, "answertime", &[]);
                self.send_dr(0, 128, &[], tpdus);
                self.freeze(now);
            }
            State::AkWait { first, tries } if tries.is_due(timers.t1, now) => {
                if tries.count < timers.sendings {
                    self.send_cc(tpdus);
                    self.state = State::AkWait { first, tries: tries.again(now) };
                } else {
                    journal.gone(self.number, "exhausted", &[]);
                    self.freeze(now);
                }
            }
            State::Opened { took, acked } => self.tick_opened(now, took, acked, journal, tpdus),
            State::Closing { reason, from, last } => {
                if from + timers.sendings * timers.t1 <= now {
                    self.freeze(now);
                } else if last + timers.t1 <= now {
                    self.send_dr(self.own, reason, &self.octets, tpdus);
                    self.state = State::Closing { reason, from, last: now };
                }
            }
            _ => {}
        }
    }

    fn tick_opened(&mut self, now: u32, took: u32, acked: u32, journal: &mut Journal, tpdus: &mut Tpdus) {
        if took + self.timers.inactive <= now {
            return self.fail(now, "inactive", 128, now, journal, tpdus);
        }
        let Some(flow) = &mut self.flow else {
            return;
        };
        if !flow.tick(now, journal, tpdus) {
            return self.fail(now, "exhausted", 128, now, journal, tpdus);
        }
        if acked + self.timers.window <= now {
            flow.acknowledge(tpdus);
            self.state = State::Opened { took, acked: now };
        }
    }
}
