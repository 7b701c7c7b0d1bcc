//! The trace in its two versions, and the program that prints it.

use crate::numbers::{counts_good, rule_good, Settings, MOST_GUESTS, RULE_1};
use crate::rules::{Answer, Phase, State};
use std::io::{self, ErrorKind, Read, Write};

pub const MARK: [u8; 3] = *b"SGQ";
pub const EVENT_BYTES: usize = 14;

/// What both versions begin with: mark, version, depth, guests, capacity.
const COMMON_BYTES: usize = 9;
/// The rule, in version 2.
const RULE_AT: usize = 9;
/// The credit in a guest's record, in version 2.
const CREDIT_AT: usize = 12;

/// No header is longer.
const MOST_HEADER_BYTES: usize = 10 + MOST_GUESTS as usize * 14;

const BUFFER_BYTES: usize = 4_096;

/// The kinds of events.
pub const ARRIVAL: u8 = 0;
pub const COMPLETION: u8 = 1;
pub const TICK: u8 = 2;

/// The versions of a trace. The second says the rule, the credits and the
/// costs too (document 02, K9).
#[derive(Clone, Copy, Debug, PartialEq, Eq)]
pub enum Version {
    One,
    Two,
}

impl Version {
    pub fn number(self) -> u16 {
        match self {
            Version::One => 1,
            Version::Two => 2,
        }
    }

    /// The bytes before the guest records.
    pub fn start_bytes(self) -> usize {
        match self {
            Version::One => COMMON_BYTES,
            Version::Two => COMMON_BYTES + 1,
        }
    }

    /// The bytes of a guest record.
    pub fn guest_bytes(self) -> usize {
        match self {
            Version::One => CREDIT_AT,
            Version::Two => CREDIT_AT + 2,
        }
    }
}

/// The version a trace begins with, or 13, 11, 12.
pub fn version_of(trace: &[u8]) -> Result<Version, u8> {
    if trace.len() < COMMON_BYTES {
        return Err(13);
    }
    if trace[..3] != MARK {
        return Err(11);
    }
    match u16_at(trace, 3) {
        1 => Ok(Version::One),
        2 => Ok(Version::Two),
        _ => Err(12),
    }
}

/// A good header. In version 1 the rule is 1 and every credit 0.
#[derive(Clone, Debug, PartialEq, Eq)]
pub struct Header {
    pub version: Version,
    pub depth: u8,
    pub capacity: u16,
    pub rule: u8,
    pub settings: Vec<Settings>,
}

impl Header {
    /// The header of a trace, or the number of its refusal.
    pub fn read(trace: &[u8]) -> Result<Header, u8> {
        let version = version_of(trace)?;
        if trace.len() < version.start_bytes() {
            return Err(13);
        }
        let (depth, guests, capacity) = (trace[5], trace[6], u16_at(trace, 7));
        let rule = match version {
            Version::One => RULE_1 as u8,
            Version::Two => trace[RULE_AT],
        };
        let counts = counts_good(depth as u64, guests as u64, capacity as u64);
        if !counts || !rule_good(rule as u64) {
            return Err(1);
        }
        // All records must be present before one of them is judged.
        let length = guests as usize * version.guest_bytes();
        let Some(records) = trace[version.start_bytes()..].get(..length) else {
            return Err(13);
        };
        let records = records.chunks(version.guest_bytes());
        let settings: Vec<Settings> = records.map(settings_of).collect();
        if !settings.iter().all(|s| s.good()) {
            return Err(1);
        }
        Ok(Header {
            version,
            depth,
            capacity,
            rule,
            settings,
        })
    }

    /// The bytes it stands in: the events begin behind them.
    pub fn length(&self) -> usize {
        self.version.start_bytes() + self.settings.len() * self.version.guest_bytes()
    }

    pub fn bytes(&self) -> Vec<u8> {
        let guests = self.settings.len() as u8;
        match self.version {
            Version::One => header_bytes(self.depth, guests, self.capacity, &self.settings),
            Version::Two => {
                header_bytes_2(self.depth, guests, self.capacity, self.rule, &self.settings)
            }
        }
    }

    /// The gate as it is opened.
    pub fn fresh(&self) -> State {
        let (depth, capacity) = (self.depth as usize, self.capacity as usize);
        State::fresh_under(self.rule as u64, depth, capacity, &self.settings)
    }
}

/// A guest of the header, from its record, which in version 1 cannot say a
/// credit.
fn settings_of(record: &[u8]) -> Settings {
    let credit = if record.len() > CREDIT_AT {
        u16_at(record, CREDIT_AT)
    } else {
        0
    };
    Settings {
        reservation: u32_at(record, 0) as u64,
        limit: u32_at(record, 4) as u64,
        shares: u32_at(record, 8) as u64,
        credit: credit as u64,
    }
}

/// The bytes of a header of version 1, whether its numbers are good or not.
/// They do not say the credits.
pub fn header_bytes(depth: u8, guests: u8, capacity: u16, settings: &[Settings]) -> Vec<u8> {
    let mut b = start(Version::One, depth, guests, capacity);
    b.extend(settings.iter().flat_map(|s| rates_bytes(*s)));
    b
}

/// The bytes of a header of version 2.
pub fn header_bytes_2(
    depth: u8,
    guests: u8,
    capacity: u16,
    rule: u8,
    settings: &[Settings],
) -> Vec<u8> {
    let mut b = start(Version::Two, depth, guests, capacity);
    b.push(rule);
    for s in settings {
        b.extend(rates_bytes(*s));
        b.extend((s.credit as u16).to_le_bytes());
    }
    b
}

fn start(version: Version, depth: u8, guests: u8, capacity: u16) -> Vec<u8> {
    let mut b = MARK.to_vec();
    b.extend(version.number().to_le_bytes());
    b.extend([depth, guests]);
    b.extend(capacity.to_le_bytes());
    b
}

fn rates_bytes(s: Settings) -> Vec<u8> {
    let rates = [s.reservation, s.limit, s.shares];
    rates.map(|n| (n as u32).to_le_bytes()).concat()
}

/// One event as it stands in the trace. The upper part of the first byte is
/// the cost less one in an arrival of version 2, and spare in its other
/// events; version 1 has none, there the whole byte is the kind.
#[derive(Clone, Copy, Debug, PartialEq, Eq)]
pub struct Event {
    pub kind: u8,
    pub upper: u8,
    pub guest: u8,
    pub id: u32,
    pub time: u64,
}

impl Event {
    pub fn from_bytes(version: Version, b: [u8; EVENT_BYTES]) -> Event {
        let (kind, upper) = match version {
            Version::One => (b[0], 0),
            Version::Two => (b[0] & 3, b[0] >> 2),
        };
        Event {
            kind,
            upper,
            guest: b[1],
            id: u32_at(&b, 2),
            time: u64::from_le_bytes([b[6], b[7], b[8], b[9], b[10], b[11], b[12], b[13]]),
        }
    }

    /// In version 1 without the upper part.
    pub fn bytes(self, version: Version) -> [u8; EVENT_BYTES] {
        let mut b = [0; EVENT_BYTES];
        b[0] = match version {
            Version::One => self.kind,
            Version::Two => self.kind | self.upper << 2,
        };
        b[1] = self.guest;
        b[2..6].copy_from_slice(&self.id.to_le_bytes());
        b[6..].copy_from_slice(&self.time.to_le_bytes());
        b
    }

    /// Not 14: a kind there is, a tick without guest and id, nothing in the
    /// spare part.
    pub fn well_formed(self) -> bool {
        match self.kind {
            ARRIVAL => true,
            COMPLETION => self.upper == 0,
            TICK => self.upper == 0 && self.guest == 0 && self.id == 0,
            _ => false,
        }
    }

    /// The cost of an arrival.
    pub fn cost(self) -> u64 {
        self.upper as u64 + 1
    }
}

/// Plays one event up to the choice; 14 is judged before all other
/// refusals. A trace is of one array: its arrivals have 1 for delta and rho.
pub fn take(state: &mut State, event: Event) -> Result<(), u8> {
    if !event.well_formed() {
        return Err(14);
    }
    let (guest, time) = (event.guest as u64, event.time);
    match event.kind {
        ARRIVAL => state.take_arrival(guest, event.id, time, event.cost()),
        COMPLETION => state.take_completion(guest, event.id, time),
        _ => state.take_tick(time),
    }
}

/// Plays one event.
pub fn play(state: &mut State, event: Event) -> Answer {
    match take(state, event) {
        Ok(()) => state.choose(),
        Err(number) => Answer::Refused(number),
    }
}

/// What stands next in a trace, after the header.
#[derive(Clone, Copy, Debug, PartialEq, Eq)]
pub enum Next {
    Event(Event),
    /// Some bytes of a last event.
    Cut,
}

impl Next {
    pub(crate) fn from_bytes(version: Version, bytes: &[u8]) -> Next {
        match bytes.try_into() {
            Ok(whole) => Next::Event(Event::from_bytes(version, whole)),
            Err(_) => Next::Cut,
        }
    }
}

/// The events of a trace with this header.
pub fn events<'a>(header: &Header, trace: &'a [u8]) -> impl Iterator<Item = Next> + 'a {
    let version = header.version;
    let pieces = trace[header.length()..].chunks(EVENT_BYTES);
    pieces.map(move |bytes| Next::from_bytes(version, bytes))
}

/// Reads a whole trace and writes the lines of the program.
pub fn run(input: impl Read, output: &mut impl Write) -> io::Result<()> {
    let mut input = Input::new(input);
    match input.header()? {
        Ok(header) => {
            print_heading(output)?;
            print_events(&mut input, &header, output)
        }
        Err(number) => print_refused(output, number),
    }
}

/// The header line.
pub(crate) fn print_heading(output: &mut impl Write) -> io::Result<()> {
    writeln!(output, "event answer")
}

/// The one line of a bad header.
pub(crate) fn print_refused(output: &mut impl Write, number: u8) -> io::Result<()> {
    writeln!(output, "trace refused {number}")
}

fn print_events<R: Read>(
    input: &mut Input<R>,
    header: &Header,
    output: &mut impl Write,
) -> io::Result<()> {
    let mut state = header.fresh();
    let mut number = 0u64;
    while let Some(next) = input.next(header.version)? {
        number += 1;
        let answer = match next {
            Next::Event(event) => play(&mut state, event),
            Next::Cut => Answer::Refused(15),
        };
        print_line(output, number, answer)?;
    }
    Ok(())
}

pub(crate) fn print_line(output: &mut impl Write, number: u64, answer: Answer) -> io::Result<()> {
    match answer {
        Answer::Nothing => writeln!(output, "{number} -"),
        Answer::Sent { phase, guest, id } => {
            let letter = match phase {
                Phase::Reservation => 'R',
                Phase::Weight => 'W',
            };
            writeln!(output, "{number} {letter} {guest} {id}")
        }
        Answer::Refused(refusal) => writeln!(output, "{number} X {refusal}"),
    }
}

fn u16_at(b: &[u8], at: usize) -> u16 {
    u16::from_le_bytes([b[at], b[at + 1]])
}

fn u32_at(b: &[u8], at: usize) -> u32 {
    u32::from_le_bytes([b[at], b[at + 1], b[at + 2], b[at + 3]])
}

/// A trace read through one buffer, which is refilled.
pub(crate) struct Input<R> {
    source: R,
    buffer: [u8; BUFFER_BYTES],
    at: usize,
    end: usize,
}

impl<R: Read> Input<R> {
    pub(crate) fn new(source: R) -> Input<R> {
        Input {
            source,
            buffer: [0; BUFFER_BYTES],
            at: 0,
            end: 0,
        }
    }

    /// The header, which the trace begins with, or its refusal.
    pub(crate) fn header(&mut self) -> io::Result<Result<Header, u8>> {
        // The longest fits the buffer.
        while self.end < MOST_HEADER_BYTES && self.read_more()? {}
        let header = Header::read(&self.buffer[..self.end]);
        if let Ok(header) = &header {
            self.at = header.length();
        }
        Ok(header)
    }

    /// What comes next after the header, or none at the end.
    pub(crate) fn next(&mut self, version: Version) -> io::Result<Option<Next>> {
        let mut b = [0; EVENT_BYTES];
        Ok(match self.fill(&mut b)? {
            0 => None,
            got => Some(Next::from_bytes(version, &b[..got])),
        })
    }

    /// Fills `room` as far as the input goes; gives the bytes got.
    fn fill(&mut self, room: &mut [u8]) -> io::Result<usize> {
        let mut got = 0;
        while got < room.len() {
            if self.at == self.end && !self.refill()? {
                break;
            }
            let part = (self.end - self.at).min(room.len() - got);
            room[got..got + part].copy_from_slice(&self.buffer[self.at..self.at + part]);
            self.at += part;
            got += part;
        }
        Ok(got)
    }

    /// False at the end of the input.
    fn refill(&mut self) -> io::Result<bool> {
        self.at = 0;
        self.end = 0;
        self.read_more()
    }

    /// Reads behind what the buffer holds. False at the end of the input.
    fn read_more(&mut self) -> io::Result<bool> {
        loop {
            match self.source.read(&mut self.buffer[self.end..]) {
                Ok(got) => {
                    self.end += got;
                    return Ok(got > 0);
                }
                Err(e) if e.kind() == ErrorKind::Interrupted => {}
                Err(e) => return Err(e),
            }
        }
    }
}
