//! Run files: a study of a leased line as a text, one call a line, answered line by line on a page.
//!
//! The first half is the line itself with its sessions, the second half reads the text and writes the page.
//! All sums fit 64 bits: times stay near 2^40, and no stamp grows by more than a frame in a tick.

use std::collections::VecDeque;
use std::fmt;
use std::io::{self, Cursor, Write};

/// Ticks in a frame, and as many bytes: the whole line's share.
const FRAME: u64 = 55_440;
/// No call carries a later time.
const LAST_TIME: u64 = 1 << 40;
/// No line takes a longer packet.
const LONGEST: u64 = 9_216;
const SESSIONS: usize = 32;
/// What all open sessions together may have.
const ALL_PLACES: u64 = 256;

const LONGEST_TEXT: usize = 65_536;
const MOST_DIGITS: usize = 13;
/// A smaller page is never written on.
const LEAST_PAGE: usize = 32;
/// So much is free before each line, which is room for any answer and a page fault after it.
const LEAST_FREE: usize = 192;

/// Why a call on a line was turned down. The discriminant is the number that a page tells.
#[derive(Clone, Copy, Debug, PartialEq, Eq)]
pub enum Refusal {
    Clock = 1,
    Overdue,
    Session,
    Taken,
    Draining,
    Closed,
    Interval,
    Length,
    Places,
    Share,
    Full,
    Busy,
    Idle,
    Rule,
    Longest,
}

impl fmt::Display for Refusal {
    fn fmt(&self, f: &mut fmt::Formatter<'_>) -> fmt::Result {
        let word = match self {
            Refusal::Clock => "clock",
            Refusal::Overdue => "overdue",
            Refusal::Session => "session",
            Refusal::Taken => "taken",
            Refusal::Draining => "draining",
            Refusal::Closed => "closed",
            Refusal::Interval => "interval",
            Refusal::Length => "length",
            Refusal::Places => "places",
            Refusal::Share => "share",
            Refusal::Full => "full",
            Refusal::Busy => "busy",
            Refusal::Idle => "idle",
            Refusal::Rule => "rule",
            Refusal::Longest => "longest",
        };
        write!(f, "{} {}", *self as u8, word)
    }
}

/// Gives the refusal unless the condition holds, so that a call's checks read in their order.
fn check(holds: bool, refusal: Refusal) -> Result<(), Refusal> {
    if holds {
        Ok(())
    } else {
        Err(refusal)
    }
}

/// Where a departure lifts the potential to.
#[derive(Clone, Copy, Debug)]
enum Rule {
    Clock,
    Frame,
    Start,
    Stamp,
}

impl Rule {
    fn numbered(number: u64) -> Option<Rule> {
        match number {
            0 => Some(Rule::Clock),
            1 => Some(Rule::Frame),
            2 => Some(Rule::Start),
            3 => Some(Rule::Stamp),
            _ => None,
        }
    }

    /// Never above the least start: a waiting head has not been served beyond it.
    fn base(self, least_start: u64, least_finish: u64) -> u64 {
        match self {
            Rule::Clock => 0,
            Rule::Frame => least_start - least_start % FRAME,
            Rule::Start => least_start,
            Rule::Stamp => least_finish.saturating_sub(FRAME),
        }
    }
}

/// A divisor of the frame. Being checked once, it can be divided by and makes whole shares.
#[derive(Clone, Copy, Debug)]
struct Interval(u64);

impl Interval {
    fn new(interval: u64) -> Result<Interval, Refusal> {
        check(interval != 0 && FRAME % interval == 0, Refusal::Interval)?;
        Ok(Interval(interval))
    }

    fn share(self) -> u64 {
        FRAME / self.0
    }

    fn fits(self, bytes: u64) -> bool {
        bytes * self.0 <= FRAME
    }

    /// What a packet adds to its session's stamps and due times.
    fn advance(self, bytes: u64) -> u64 {
        bytes * self.0
    }
}

#[derive(Clone, Copy, Debug)]
struct Packet {
    bytes: u64,
    arrived: u64,
    /// The potential at its arrival.
    entry: u64,
}

/// The first waiting packet of a session, the only one with stamps and a due time.
#[derive(Clone, Copy, Debug)]
struct Head {
    packet: Packet,
    start: u64,
    finish: u64,
    due_start: u64,
    due: u64,
}

impl Head {
    fn new(packet: Packet, interval: Interval, start: u64, due_start: u64) -> Head {
        let advance = interval.advance(packet.bytes);
        Head { packet, start, finish: start + advance, due_start, due: due_start + advance }
    }
}

/// What a session has only while it is open.
#[derive(Debug)]
struct Lease {
    interval: Interval,
    places: u64,
    head: Option<Head>,
    /// The packets behind the head, unstamped so that a change of the share reaches them.
    behind: VecDeque<Packet>,
    last_finish: u64,
    last_due: u64,
}

impl Lease {
    fn new(interval: Interval, places: u64) -> Lease {
        Lease { interval, places, head: None, behind: VecDeque::new(), last_finish: 0, last_due: 0 }
    }

    fn waiting(&self) -> impl Iterator<Item = &Packet> {
        self.head.iter().map(|head| &head.packet).chain(&self.behind)
    }

    fn is_full(&self) -> bool {
        let waiting = usize::from(self.head.is_some()) + self.behind.len();
        waiting as u64 >= self.places
    }

    /// How far the session's share is used up already, on the scale of the potential.
    fn position(&self, potential: u64) -> u64 {
        let level = self.head.map_or(self.last_finish, |head| head.start);
        level.max(potential)
    }

    fn stamped(&self, packet: Packet) -> Head {
        let start = self.last_finish.max(packet.entry);
        let due_start = self.last_due.max(packet.arrived);
        Head::new(packet, self.interval, start, due_start)
    }

    fn push(&mut self, packet: Packet) {
        if self.head.is_none() {
            self.head = Some(self.stamped(packet));
        } else {
            self.behind.push_back(packet);
        }
    }

    /// Takes the head for the wire; the packet behind it becomes head.
    fn pop(&mut self) -> Option<Head> {
        let head = self.head.take()?;
        self.last_finish = head.finish;
        self.last_due = head.due;
        if let Some(next) = self.behind.pop_front() {
            self.head = Some(self.stamped(next));
        }
        Some(head)
    }

    /// Stamps the head anew from its position on; what was sent keeps its stamps.
    fn change(&mut self, interval: Interval, position: u64, at: u64) {
        self.interval = interval;
        self.head = self.head.map(|head| Head::new(head.packet, interval, position, head.due_start.max(at)));
    }
}

/// One of the 32 sessions, closed while it has no lease.
#[derive(Debug, Default)]
struct Session {
    lease: Option<Lease>,
    /// A share that was given up but is still counted below the mark.
    held: u64,
    mark: u64,
}

impl Session {
    fn share(&self) -> u64 {
        self.lease.as_ref().map_or(0, |lease| lease.interval.share())
    }

    /// What is booked for this session at a position.
    fn counted(&self, position: u64) -> u64 {
        if self.mark > position {
            self.held.max(self.share())
        } else {
            self.share()
        }
    }

    /// Holds the present share up to the position, where the session's stamps have used it already.
    fn hold(&mut self, position: u64, potential: u64) {
        self.held = self.counted(potential);
        self.mark = position;
    }

    fn head(&self) -> Option<&Head> {
        self.lease.as_ref()?.head.as_ref()
    }

    fn rest(&mut self) {
        self.held = 0;
        self.mark = 0;
        if let Some(lease) = &mut self.lease {
            lease.last_finish = 0;
        }
    }
}

/// The packet that is being sent.
#[derive(Debug)]
struct Wire {
    session: usize,
    packet: Packet,
    due: u64,
    /// The time at which it started, and the potential noted then.
    since: u64,
    noted: u64,
}

impl Wire {
    fn end(&self) -> u64 {
        self.since + self.packet.bytes
    }
}

/// What is told of a packet that left.
#[derive(Clone, Copy, Debug, PartialEq, Eq)]
pub struct Departure {
    pub session: usize,
    pub bytes: u64,
    pub arrived: u64,
    pub at: u64,
    pub due: u64,
    /// Due less departure time, below 0 for a late packet.
    pub spare: i64,
    /// How many sessions still have a packet waiting.
    pub waiting: usize,
}

/// A leased line. A refused call leaves it as it stood.
#[derive(Debug)]
pub struct Line {
    longest: u64,
    time: u64,
    rule: Rule,
    /// None at rest, and then nothing waits either.
    wire: Option<Wire>,
    sessions: [Session; SESSIONS],
}

impl Line {
    pub fn make(longest: u64) -> Result<Line, Refusal> {
        check((1..=LONGEST).contains(&longest), Refusal::Longest)?;
        Ok(Line { longest, time: 0, rule: Rule::Clock, wire: None, sessions: Default::default() })
    }

    /// The time of the last accepted call.
    pub fn time(&self) -> u64 {
        self.time
    }

    /// The end of the packet on the wire, none at rest.
    pub fn end(&self) -> Option<u64> {
        self.wire.as_ref().map(Wire::end)
    }

    pub fn open(&mut self, at: u64, session: u64, interval: u64, places: u64) -> Result<(), Refusal> {
        let potential = self.potential(at)?;
        let index = index(session)?;
        check(self.sessions[index].lease.is_none(), Refusal::Taken)?;
        check(self.sessions[index].mark <= potential, Refusal::Draining)?;
        let interval = Interval::new(interval)?;
        let free = ALL_PLACES - self.leases().map(|lease| lease.places).sum::<u64>();
        check((1..=free).contains(&places), Refusal::Places)?;
        self.book(index, interval, potential)?;

        self.time = at;
        self.sessions[index].lease = Some(Lease::new(interval, places));
        Ok(())
    }

    pub fn close(&mut self, at: u64, session: u64) -> Result<(), Refusal> {
        let potential = self.potential(at)?;
        let index = index(session)?;
        let lease = self.lease(index)?;
        let sending = self.wire.as_ref().is_some_and(|wire| wire.session == index);
        check(lease.head.is_none() && !sending, Refusal::Busy)?;
        let position = lease.position(potential);

        self.time = at;
        let session = &mut self.sessions[index];
        session.hold(position, potential);
        session.lease = None;
        Ok(())
    }

    pub fn change(&mut self, at: u64, session: u64, interval: u64) -> Result<(), Refusal> {
        let potential = self.potential(at)?;
        let index = index(session)?;
        let lease = self.lease(index)?;
        let interval = Interval::new(interval)?;
        check(lease.waiting().all(|packet| interval.fits(packet.bytes)), Refusal::Length)?;
        let position = lease.position(potential);
        let share = lease.interval.share();
        if interval.share() > share {
            self.book(index, interval, position)?;
        }

        self.time = at;
        let session = &mut self.sessions[index];
        if interval.share() < share {
            session.hold(position, potential);
        }
        if let Some(lease) = &mut session.lease {
            lease.change(interval, position, at);
        }
        Ok(())
    }

    pub fn pick(&mut self, at: u64, rule: u64) -> Result<(), Refusal> {
        self.potential(at)?;
        self.rule = Rule::numbered(rule).ok_or(Refusal::Rule)?;
        self.time = at;
        Ok(())
    }

    pub fn arrive(&mut self, at: u64, session: u64, bytes: u64) -> Result<(), Refusal> {
        let potential = self.potential(at)?;
        let index = index(session)?;
        let longest = self.longest;
        let lease = self.sessions[index].lease.as_mut().ok_or(Refusal::Closed)?;
        check((1..=longest).contains(&bytes) && lease.interval.fits(bytes), Refusal::Length)?;
        check(!lease.is_full(), Refusal::Full)?;

        self.time = at;
        lease.push(Packet { bytes, arrived: at, entry: potential });
        if self.wire.is_none() {
            self.send(index, 0);
        }
        Ok(())
    }

    /// Takes out the packet on the wire at its end and sends the head with the least finish.
    pub fn depart(&mut self) -> Result<Departure, Refusal> {
        let sent = self.wire.take().ok_or(Refusal::Idle)?;
        self.time = sent.end();
        let sum = sent.noted + sent.packet.bytes;

        let least_start = self.heads().map(|(_, head)| head.start).min();
        // Of equal finishes the first is taken, which is the lower session's.
        let next = self.heads().min_by_key(|(_, head)| head.finish).map(|(index, head)| (index, head.finish));
        match (least_start, next) {
            (Some(start), Some((index, finish))) => self.send(index, sum.max(self.rule.base(start, finish))),
            _ => self.sessions.iter_mut().for_each(Session::rest),
        }

        Ok(Departure {
            session: sent.session,
            bytes: sent.packet.bytes,
            arrived: sent.packet.arrived,
            at: self.time,
            due: sent.due,
            spare: sent.due as i64 - self.time as i64,
            waiting: self.heads().count(),
        })
    }

    /// The potential at a call's own time, if the call may come at that time.
    fn potential(&self, at: u64) -> Result<u64, Refusal> {
        check((self.time..=LAST_TIME).contains(&at), Refusal::Clock)?;
        match &self.wire {
            None => Ok(0),
            Some(wire) if wire.end() < at => Err(Refusal::Overdue),
            Some(wire) => Ok(wire.noted + (at - wire.since)),
        }
    }

    fn lease(&self, index: usize) -> Result<&Lease, Refusal> {
        self.sessions[index].lease.as_ref().ok_or(Refusal::Closed)
    }

    fn leases(&self) -> impl Iterator<Item = &Lease> {
        self.sessions.iter().filter_map(|session| session.lease.as_ref())
    }

    /// The heads with their sessions, the lower session first.
    fn heads(&self) -> impl Iterator<Item = (usize, &Head)> {
        let sessions = self.sessions.iter().enumerate();
        sessions.filter_map(|(index, session)| Some((index, session.head()?)))
    }

    /// Tests whether the session may have that share from the position on, beside all others.
    fn book(&self, index: usize, interval: Interval, position: u64) -> Result<(), Refusal> {
        let others = self.sessions.iter().enumerate().filter(|(other, _)| *other != index);
        let booked: u64 = others.map(|(_, session)| session.counted(position)).sum();
        check(booked + interval.share() <= FRAME, Refusal::Share)
    }

    /// Puts the session's head on the wire at the line's time.
    fn send(&mut self, index: usize, noted: u64) {
        let head = self.sessions[index].lease.as_mut().and_then(Lease::pop);
        let since = self.time;
        self.wire = head.map(|head| Wire { session: index, packet: head.packet, due: head.due, since, noted });
    }
}

fn index(session: u64) -> Result<usize, Refusal> {
    let index = usize::try_from(session).map_err(|_| Refusal::Session)?;
    check(index < SESSIONS, Refusal::Session)?;
    Ok(index)
}

/// What may be wrong with a text or a page, before any call is made. The discriminant is its number.
#[derive(Clone, Copy, Debug)]
enum Fault {
    Bracket = 21,
    Word,
    Number,
    Field,
    Order,
    Page,
    Text,
}

impl fmt::Display for Fault {
    fn fmt(&self, f: &mut fmt::Formatter<'_>) -> fmt::Result {
        let word = match self {
            Fault::Bracket => "bracket",
            Fault::Word => "word",
            Fault::Number => "number",
            Fault::Field => "field",
            Fault::Order => "order",
            Fault::Page => "page",
            Fault::Text => "text",
        };
        write!(f, "{} {}", *self as u8, word)
    }
}

/// A fault and the column where it was met.
#[derive(Debug)]
struct Misread {
    fault: Fault,
    column: usize,
}

#[derive(Clone, Copy, Debug)]
enum Token<'a> {
    Opening,
    Closing,
    Word(&'a [u8]),
    Number(u64),
    End,
}

/// A token and the column of its first byte; the end stands one past the last byte.
#[derive(Debug)]
struct Met<'a> {
    token: Token<'a>,
    column: usize,
}

impl Met<'_> {
    fn fault<T>(&self, fault: Fault) -> Result<T, Misread> {
        Err(Misread { fault, column: self.column })
    }
}

/// Reads one line of the text from left to right, so that the first fault met is the leftmost.
struct Reader<'a> {
    rest: &'a [u8],
    column: usize,
}

impl<'a> Reader<'a> {
    fn new(row: &'a [u8]) -> Reader<'a> {
        Reader { rest: row, column: 1 }
    }

    /// Takes the bytes up to the first one that is not of the kind.
    fn run_of(&mut self, kind: impl Fn(&u8) -> bool) -> &'a [u8] {
        let length = self.rest.iter().take_while(|byte| kind(byte)).count();
        self.take(length)
    }

    fn take(&mut self, length: usize) -> &'a [u8] {
        let (taken, rest) = self.rest.split_at(length);
        self.rest = rest;
        self.column += length;
        taken
    }

    /// Foreign bytes and overlong numbers are faults here already, whatever was expected.
    fn next(&mut self) -> Result<Met<'a>, Misread> {
        self.run_of(|&byte| byte == b' ');
        let column = self.column;
        let token = match self.rest.first() {
            None => Token::End,
            Some(b'(') => {
                self.take(1);
                Token::Opening
            }
            Some(b')') => {
                self.take(1);
                Token::Closing
            }
            Some(b'a'..=b'z') => Token::Word(self.run_of(u8::is_ascii_lowercase)),
            Some(b'0'..=b'9') => {
                let digits = self.run_of(u8::is_ascii_digit);
                if digits.len() > MOST_DIGITS {
                    return Err(Misread { fault: Fault::Number, column });
                }
                Token::Number(digits.iter().fold(0, |number, digit| number * 10 + u64::from(digit - b'0')))
            }
            Some(_) => return Err(Misread { fault: Fault::Bracket, column }),
        };
        Ok(Met { token, column })
    }

    /// Reads the fields up to the form's closing bracket; gives the numbers in the order of the names.
    fn fields<const N: usize>(&mut self, names: [&str; N]) -> Result<[u64; N], Misread> {
        let mut numbers = [None; N];
        loop {
            let bracket = self.next()?;
            match bracket.token {
                Token::Opening => {
                    let (index, number) = self.field(&names, &numbers)?;
                    numbers[index] = Some(number);
                }
                Token::Closing if numbers.contains(&None) => return bracket.fault(Fault::Field),
                Token::Closing => return Ok(numbers.map(Option::unwrap_or_default)),
                _ => return bracket.fault(Fault::Bracket),
            }
        }
    }

    /// Reads a field behind its opening bracket; gives its place among the names, and its number.
    fn field(&mut self, names: &[&str], numbers: &[Option<u64>]) -> Result<(usize, u64), Misread> {
        let met = self.next()?;
        let Token::Word(word) = met.token else { return met.fault(Fault::Word) };
        let index = match names.iter().position(|name| name.as_bytes() == word) {
            Some(index) if numbers[index].is_none() => index,
            _ => return met.fault(Fault::Field),
        };
        let met = self.next()?;
        let Token::Number(number) = met.token else { return met.fault(Fault::Number) };
        let met = self.next()?;
        let Token::Closing = met.token else { return met.fault(Fault::Bracket) };
        Ok((index, number))
    }
}

/// A sound form.
#[derive(Debug)]
enum Call {
    Link { longest: u64 },
    Open { at: u64, session: u64, interval: u64, places: u64 },
    Close { at: u64, session: u64 },
    Change { at: u64, session: u64, interval: u64 },
    Pick { at: u64, rule: u64 },
    Arrive { at: u64, session: u64, bytes: u64 },
    Depart,
}

fn read(row: &[u8]) -> Result<Call, Misread> {
    let mut reader = Reader::new(row);
    let met = reader.next()?;
    let Token::Opening = met.token else { return met.fault(Fault::Bracket) };
    let met = reader.next()?;
    let Token::Word(word) = met.token else { return met.fault(Fault::Word) };
    let call = match word {
        b"link" => {
            let [longest] = reader.fields(["longest"])?;
            Call::Link { longest }
        }
        b"open" => {
            let [at, session, interval, places] = reader.fields(["at", "session", "interval", "places"])?;
            Call::Open { at, session, interval, places }
        }
        b"close" => {
            let [at, session] = reader.fields(["at", "session"])?;
            Call::Close { at, session }
        }
        b"change" => {
            let [at, session, interval] = reader.fields(["at", "session", "interval"])?;
            Call::Change { at, session, interval }
        }
        b"pick" => {
            let [at, rule] = reader.fields(["at", "rule"])?;
            Call::Pick { at, rule }
        }
        b"arrive" => {
            let [at, session, bytes] = reader.fields(["at", "session", "bytes"])?;
            Call::Arrive { at, session, bytes }
        }
        b"depart" => {
            let [] = reader.fields([])?;
            Call::Depart
        }
        _ => return met.fault(Fault::Word),
    };
    let met = reader.next()?;
    let Token::End = met.token else { return met.fault(Fault::Bracket) };
    Ok(call)
}

/// What is written on the page for one line of the text.
enum Answer {
    Done,
    Left(Departure),
    Refused(Refusal),
    Fault { fault: Fault, line: usize, column: usize },
}

impl fmt::Display for Answer {
    fn fmt(&self, f: &mut fmt::Formatter<'_>) -> fmt::Result {
        match self {
            Answer::Done => write!(f, "(done)"),
            Answer::Left(left) => write!(
                f,
                "(left (session {}) (bytes {}) (arrived {}) (at {}) (due {}) (spare {}) (waiting {}))",
                left.session, left.bytes, left.arrived, left.at, left.due, left.spare, left.waiting
            ),
            Answer::Refused(refusal) => write!(f, "(refused {refusal})"),
            Answer::Fault { fault, line, column } => write!(f, "(fault {fault} {line} {column})"),
        }
    }
}

/// Why a line of the text was not done.
enum Failure {
    Misread(Misread),
    Refused(Refusal),
}

impl From<Misread> for Failure {
    fn from(misread: Misread) -> Failure {
        Failure::Misread(misread)
    }
}

impl From<Refusal> for Failure {
    fn from(refusal: Refusal) -> Failure {
        Failure::Refused(refusal)
    }
}

/// Makes the call on the run's line, which only an accepted link brings about.
fn perform(call: Call, made: &mut Option<Line>) -> Result<Option<Departure>, Failure> {
    match (call, made.as_mut()) {
        (Call::Link { longest }, None) => *made = Some(Line::make(longest)?),
        (Call::Link { .. }, Some(_)) | (_, None) => return Err(Misread { fault: Fault::Order, column: 1 }.into()),
        (Call::Open { at, session, interval, places }, Some(line)) => line.open(at, session, interval, places)?,
        (Call::Close { at, session }, Some(line)) => line.close(at, session)?,
        (Call::Change { at, session, interval }, Some(line)) => line.change(at, session, interval)?,
        (Call::Pick { at, rule }, Some(line)) => line.pick(at, rule)?,
        (Call::Arrive { at, session, bytes }, Some(line)) => line.arrive(at, session, bytes)?,
        (Call::Depart, Some(line)) => return Ok(Some(line.depart()?)),
    }
    Ok(None)
}

fn answer(row: &[u8], line: usize, made: &mut Option<Line>) -> Answer {
    match read(row).map_err(Failure::from).and_then(|call| perform(call, made)) {
        Ok(None) => Answer::Done,
        Ok(Some(departure)) => Answer::Left(departure),
        Err(Failure::Refused(refusal)) => Answer::Refused(refusal),
        Err(Failure::Misread(Misread { fault, column })) => Answer::Fault { fault, line, column },
    }
}

fn write_answers(text: &[u8], page: &mut Cursor<&mut [u8]>) -> io::Result<()> {
    if text.len() > LONGEST_TEXT {
        return writeln!(page, "{}", Answer::Fault { fault: Fault::Text, line: 0, column: 0 });
    }
    let mut made = None;
    // An ending newline ends the last line and begins no other.
    for (row, line) in text.split_inclusive(|&byte| byte == b'\n').zip(1..) {
        let free = page.get_ref().len() - page.position() as usize;
        if free < LEAST_FREE {
            return writeln!(page, "{}", Answer::Fault { fault: Fault::Page, line, column: 1 });
        }
        let row = row.strip_suffix(b"\n").unwrap_or(row);
        writeln!(page, "{}", answer(row, line, &mut made))?;
    }
    Ok(())
}

/// Runs a whole text on a page and gives the number of bytes written; the bytes beyond stay as they were.
pub fn run(text: &[u8], page: &mut [u8]) -> usize {
    if page.len() < LEAST_PAGE {
        return 0;
    }
    let mut page = Cursor::new(page);
    // No write fails: the page's free bytes are tested before each line.
    let _ = write_answers(text, &mut page);
    page.position() as usize
}
