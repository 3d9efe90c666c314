//! Runs a study of a leased line: a text with one call a line is answered by a
//! page with one answer a line.
//!
//! Nothing is allocated. The line with all its waiting packets stands on the
//! stack, and answers are written straight to the page.

/// Ticks in a frame, and the bytes that the wire sends in it.
const FRAME: u64 = 55_440;
/// Sessions of a line.
const SESSIONS: usize = 32;
/// Places of all open sessions together.
const PLACES: usize = 256;
/// The greatest longest packet a line may have.
const LONGEST_MOST: u64 = 9_216;
/// The latest time that a call may carry.
const TIME_MOST: u64 = 1 << 40;

/// A longer text is not run.
const TEXT_MOST: usize = 65_536;
/// A shorter page stays untouched.
const PAGE_LEAST: usize = 32;
/// Bytes that must be free before a line is answered: room for the longest
/// answer and for the fault that ends the run after it.
const ROOM: usize = 192;

const NEWLINE: u8 = b'\n';
const BLANK: u8 = b' ';
/// A number with more digits is a fault.
const DIGITS_MOST: usize = 13;

/// Runs `text` and writes its answers to `page`. Returns the number of bytes
/// written; the bytes of the page beyond them stay as they were.
pub fn run(text: &[u8], page: &mut [u8]) -> usize {
    let mut page = Page { bytes: page, used: 0 };
    if page.free() < PAGE_LEAST {
        return 0;
    }
    if text.len() > TEXT_MOST {
        page.fault(FaultKind::Text, 0, 0);
        return page.used;
    }
    let mut reader = Reader::new(text);
    let mut line = None;
    while reader.next_line() {
        if page.free() < ROOM {
            page.fault(FaultKind::Page, reader.line, 1);
            break;
        }
        match reader.form().and_then(|call| answer(&mut line, call)) {
            Ok(Answer::Done) => page.put(b"(done)\n"),
            Ok(Answer::Refused(refusal)) => page.put_slice(refusal.answer()),
            Ok(Answer::Left(departure)) => page.left(&departure),
            Err(fault) => page.fault(fault.kind, reader.line, fault.column),
        }
    }
    page.used
}

/// Passes a sound form on to the line, if it comes in order: a link while
/// there is no line, anything else once there is one.
fn answer(line: &mut Option<Line>, call: Call) -> Result<Answer, Fault> {
    match (call, line.as_mut()) {
        (Call::Link { longest }, None) => match Line::make(longest) {
            Ok(made) => {
                *line = Some(made);
                Ok(Answer::Done)
            }
            Err(refusal) => Ok(Answer::Refused(refusal)),
        },
        (Call::Link { .. }, Some(_)) | (_, None) => Err(Fault { kind: FaultKind::Order, column: 1 }),
        (call, Some(line)) => Ok(line.call(call).unwrap_or_else(Answer::Refused)),
    }
}

// ---------------------------------------------------------------- the calls

/// A call as a sound form gives it. No figure has been judged yet.
#[derive(Clone, Copy)]
enum Call {
    Link { longest: u64 },
    Open { at: u64, session: u64, interval: u64, places: u64 },
    Close { at: u64, session: u64 },
    Change { at: u64, session: u64, interval: u64 },
    Pick { at: u64, rule: u64 },
    Arrive { at: u64, session: u64, bytes: u64 },
    Depart,
}

enum Answer {
    Done,
    Refused(Refusal),
    Left(Departure),
}

/// What is told of a packet that left.
struct Departure {
    session: usize,
    bytes: u64,
    arrived: u64,
    at: u64,
    due: u64,
    /// Sessions that still have a packet waiting.
    waiting: u32,
}

#[derive(Clone, Copy)]
enum Refusal {
    Clock,
    Overdue,
    Session,
    Taken,
    Draining,
    Closed,
    Interval,
    Length,
    Places,
    Share,
    Full,
    Busy,
    Idle,
    Rule,
    Longest,
}

impl Refusal {
    /// The whole answer line.
    fn answer(self) -> &'static [u8] {
        match self {
            Refusal::Clock => b"(refused 1 clock)\n",
            Refusal::Overdue => b"(refused 2 overdue)\n",
            Refusal::Session => b"(refused 3 session)\n",
            Refusal::Taken => b"(refused 4 taken)\n",
            Refusal::Draining => b"(refused 5 draining)\n",
            Refusal::Closed => b"(refused 6 closed)\n",
            Refusal::Interval => b"(refused 7 interval)\n",
            Refusal::Length => b"(refused 8 length)\n",
            Refusal::Places => b"(refused 9 places)\n",
            Refusal::Share => b"(refused 10 share)\n",
            Refusal::Full => b"(refused 11 full)\n",
            Refusal::Busy => b"(refused 12 busy)\n",
            Refusal::Idle => b"(refused 13 idle)\n",
            Refusal::Rule => b"(refused 14 rule)\n",
            Refusal::Longest => b"(refused 15 longest)\n",
        }
    }
}

// ----------------------------------------------------------------- the line

/// Where a departure may lift the potential to.
#[derive(Clone, Copy)]
enum Rule {
    Clock,
    Frame,
    Start,
    Stamp,
}

impl Rule {
    fn picked(number: u64) -> Option<Rule> {
        match number {
            0 => Some(Rule::Clock),
            1 => Some(Rule::Frame),
            2 => Some(Rule::Start),
            3 => Some(Rule::Stamp),
            _ => None,
        }
    }

    fn base(self, least_start: u64, least_finish: u64) -> u64 {
        match self {
            Rule::Clock => 0,
            Rule::Frame => least_start - least_start % FRAME,
            Rule::Start => least_start,
            Rule::Stamp => least_finish.saturating_sub(FRAME),
        }
    }
}

/// The packet on the wire.
#[derive(Clone, Copy)]
struct Wire {
    session: usize,
    bytes: u64,
    arrived: u64,
    due: u64,
    started: u64,
    /// The potential when it started.
    noted: u64,
}

impl Wire {
    fn end(&self) -> u64 {
        self.started + self.bytes
    }
}

/// A session's record. The start and finish of its head are kept in [`Heads`].
#[derive(Clone, Copy, Default)]
struct Session {
    /// 0 while the session is closed.
    interval: u64,
    /// 0 while the session is closed.
    share: u64,
    places: usize,
    queue: Queue,
    /// Due start and due of the head; stale where nothing waits.
    due_start: u64,
    due: u64,
    last_finish: u64,
    last_due: u64,
    held: u64,
    mark: u64,
}

impl Session {
    fn is_open(&self) -> bool {
        self.interval != 0
    }

    /// What is counted of the session beyond its share, at position `at`.
    fn held_beyond_share(&self, at: u64) -> u64 {
        if self.mark > at {
            self.held.saturating_sub(self.share)
        } else {
            0
        }
    }
}

/// A simulated leased line.
///
/// No sum here can wrap: times stay near 2^40, and a packet adds at most a
/// frame to a stamp or a due time, so that all of them stay below 2^56.
struct Line {
    longest: u64,
    /// The time of the last accepted call.
    time: u64,
    rule: Rule,
    /// Nothing is on the wire of a line at rest, and then nothing waits.
    wire: Option<Wire>,
    heads: Heads,
    sessions: [Session; SESSIONS],
    packets: Packets,
    /// Places of all open sessions.
    places: usize,
    /// Shares of all sessions.
    shares: u64,
    /// Sessions that may have a last finish, since they sent after a rest.
    sent: Set,
    /// Sessions that may have a held share and a mark.
    lowered: Set,
}

impl Line {
    fn make(longest: u64) -> Result<Line, Refusal> {
        if longest == 0 || longest > LONGEST_MOST {
            return Err(Refusal::Longest);
        }
        Ok(Line {
            longest,
            time: 0,
            rule: Rule::Clock,
            wire: None,
            heads: Heads::none(),
            sessions: [Session::default(); SESSIONS],
            packets: Packets::none(),
            places: 0,
            shares: 0,
            sent: Set::EMPTY,
            lowered: Set::EMPTY,
        })
    }

    fn call(&mut self, call: Call) -> Result<Answer, Refusal> {
        match call {
            // Links are answered before there is a line to call.
            Call::Link { .. } => return Err(Refusal::Longest),
            Call::Open { at, session, interval, places } => self.open(at, session, interval, places)?,
            Call::Close { at, session } => self.close(at, session)?,
            Call::Change { at, session, interval } => self.change(at, session, interval)?,
            Call::Pick { at, rule } => self.pick(at, rule)?,
            Call::Arrive { at, session, bytes } => self.arrive(at, session, bytes)?,
            Call::Depart => return self.depart().map(Answer::Left),
        }
        Ok(Answer::Done)
    }

    fn open(&mut self, at: u64, session: u64, interval: u64, places: u64) -> Result<(), Refusal> {
        self.check_time(at)?;
        let index = session_index(session)?;
        let potential = self.potential(at);
        let session = &self.sessions[index];
        if session.is_open() {
            return Err(Refusal::Taken);
        }
        if session.mark > potential {
            return Err(Refusal::Draining);
        }
        let share = share_of(interval)?;
        let places = match usize::try_from(places) {
            Ok(places) if places != 0 && places <= PLACES - self.places => places,
            _ => return Err(Refusal::Places),
        };
        self.check_booking(index, share, potential)?;

        self.time = at;
        self.places += places;
        self.shares += share;
        let session = &mut self.sessions[index];
        session.interval = interval;
        session.share = share;
        session.places = places;
        session.last_finish = 0;
        session.last_due = 0;
        Ok(())
    }

    fn close(&mut self, at: u64, session: u64) -> Result<(), Refusal> {
        self.check_time(at)?;
        let index = self.open_index(session)?;
        let on_wire = self.wire.is_some_and(|wire| wire.session == index);
        if on_wire || self.heads.waiting.has(index) {
            return Err(Refusal::Busy);
        }

        let potential = self.potential(at);
        self.time = at;
        self.hold(index, potential, self.position(index, potential));
        let session = &mut self.sessions[index];
        self.places -= session.places;
        self.shares -= session.share;
        session.interval = 0;
        session.share = 0;
        session.places = 0;
        Ok(())
    }

    fn change(&mut self, at: u64, session: u64, interval: u64) -> Result<(), Refusal> {
        self.check_time(at)?;
        let index = self.open_index(session)?;
        let share = share_of(interval)?;
        let Session { share: old_share, queue, .. } = self.sessions[index];
        // What waits fits its share now, and so it fits any greater one.
        if share < old_share && !self.packets.all(&queue, |packet| packet.bytes * interval <= FRAME) {
            return Err(Refusal::Length);
        }
        let potential = self.potential(at);
        let position = self.position(index, potential);
        if share > old_share {
            self.check_booking(index, share, position)?;
        }

        self.time = at;
        if share < old_share {
            self.hold(index, potential, position);
        }
        self.shares = self.shares - old_share + share;
        let session = &mut self.sessions[index];
        session.interval = interval;
        session.share = share;
        if self.heads.waiting.has(index) {
            let span = self.packets.first(&session.queue).bytes * interval;
            session.due_start = session.due_start.max(at);
            session.due = session.due_start + span;
            self.heads.put(index, position, position + span);
        }
        Ok(())
    }

    fn pick(&mut self, at: u64, rule: u64) -> Result<(), Refusal> {
        self.check_time(at)?;
        self.rule = Rule::picked(rule).ok_or(Refusal::Rule)?;
        self.time = at;
        Ok(())
    }

    fn arrive(&mut self, at: u64, session: u64, bytes: u64) -> Result<(), Refusal> {
        self.check_time(at)?;
        let index = self.open_index(session)?;
        let session = &mut self.sessions[index];
        if bytes == 0 || bytes > self.longest || bytes * session.interval > FRAME {
            return Err(Refusal::Length);
        }
        if session.queue.len >= session.places {
            return Err(Refusal::Full);
        }

        self.time = at;
        match self.wire {
            Some(wire) => {
                let entry = wire.noted + (at - wire.started);
                self.packets.push(&mut session.queue, Packet { bytes, arrived: at, entry });
                if session.queue.len == 1 {
                    self.stamp_head(index);
                }
            }
            None => {
                // At rest the potential and every last finish are 0.
                let span = bytes * session.interval;
                session.last_finish = span;
                session.last_due = session.last_due.max(at) + span;
                self.sent.add(index);
                self.wire =
                    Some(Wire { session: index, bytes, arrived: at, due: session.last_due, started: at, noted: 0 });
            }
        }
        Ok(())
    }

    fn depart(&mut self) -> Result<Departure, Refusal> {
        let left = self.wire.ok_or(Refusal::Idle)?;
        self.time = left.end();
        match self.heads.least() {
            Some(least) => {
                let base = self.rule.base(least.start, least.finish);
                self.send_head(least.session, base.max(left.noted + left.bytes));
            }
            None => self.rest(),
        }
        Ok(Departure {
            session: left.session,
            bytes: left.bytes,
            arrived: left.arrived,
            at: self.time,
            due: left.due,
            waiting: self.heads.waiting.len(),
        })
    }

    /// Puts a session's head on the wire, and makes its next packet head.
    fn send_head(&mut self, index: usize, potential: u64) {
        let session = &mut self.sessions[index];
        let packet = self.packets.pop(&mut session.queue);
        session.last_finish = self.heads.finish[index];
        session.last_due = session.due;
        self.sent.add(index);
        self.wire = Some(Wire {
            session: index,
            bytes: packet.bytes,
            arrived: packet.arrived,
            due: session.due,
            started: self.time,
            noted: potential,
        });
        if session.queue.len == 0 {
            self.heads.clear(index);
        } else {
            self.stamp_head(index);
        }
    }

    /// Gives a packet that has become head its stamps and its due time.
    fn stamp_head(&mut self, index: usize) {
        let session = &mut self.sessions[index];
        let packet = self.packets.first(&session.queue);
        let span = packet.bytes * session.interval;
        let start = session.last_finish.max(packet.entry);
        session.due_start = session.last_due.max(packet.arrived);
        session.due = session.due_start + span;
        self.heads.put(index, start, start + span);
    }

    /// Potentials begin again from 0. The last dues stay: the clock goes on.
    fn rest(&mut self) {
        self.wire = None;
        for index in self.sent {
            self.sessions[index].last_finish = 0;
        }
        for index in self.lowered {
            self.sessions[index].held = 0;
            self.sessions[index].mark = 0;
        }
        self.sent = Set::EMPTY;
        self.lowered = Set::EMPTY;
    }

    /// The potential at a time from the line's own to the end of the packet
    /// on the wire.
    fn potential(&self, at: u64) -> u64 {
        self.wire.map_or(0, |wire| wire.noted + (at - wire.started))
    }

    /// Up to where the session's share is already used.
    fn position(&self, index: usize, potential: u64) -> u64 {
        let level = if self.heads.waiting.has(index) {
            self.heads.start[index]
        } else {
            self.sessions[index].last_finish
        };
        level.max(potential)
    }

    /// Before a share is lowered: holds it up to the session's position.
    fn hold(&mut self, index: usize, potential: u64, position: u64) {
        let session = &mut self.sessions[index];
        session.held = if session.mark > potential { session.held.max(session.share) } else { session.share };
        session.mark = position;
        self.lowered.add(index);
    }

    /// Tests whether a session at a position can have a greater share.
    fn check_booking(&self, index: usize, share: u64, position: u64) -> Result<(), Refusal> {
        let mut booked = self.shares - self.sessions[index].share + share;
        for other in self.lowered {
            if other != index {
                booked += self.sessions[other].held_beyond_share(position);
            }
        }
        if booked <= FRAME {
            Ok(())
        } else {
            Err(Refusal::Share)
        }
    }

    fn check_time(&self, at: u64) -> Result<(), Refusal> {
        if at < self.time || at > TIME_MOST {
            return Err(Refusal::Clock);
        }
        match &self.wire {
            Some(wire) if wire.end() < at => Err(Refusal::Overdue),
            _ => Ok(()),
        }
    }

    fn open_index(&self, session: u64) -> Result<usize, Refusal> {
        let index = session_index(session)?;
        if self.sessions[index].is_open() {
            Ok(index)
        } else {
            Err(Refusal::Closed)
        }
    }
}

fn session_index(session: u64) -> Result<usize, Refusal> {
    match usize::try_from(session) {
        Ok(index) if index < SESSIONS => Ok(index),
        _ => Err(Refusal::Session),
    }
}

/// The share of an interval, which is a divisor of the frame.
fn share_of(interval: u64) -> Result<u64, Refusal> {
    if interval == 0 || interval > FRAME || FRAME % interval != 0 {
        return Err(Refusal::Interval);
    }
    Ok(FRAME / interval)
}

// ---------------------------------------------------- heads, sets and queues

/// The stamps of the heads, side by side so that a look at all of them is
/// short. Stamps of a session that is not in `waiting` are stale.
struct Heads {
    waiting: Set,
    start: [u64; SESSIONS],
    finish: [u64; SESSIONS],
}

/// The least start and the least finish of all heads, and whose finish it is.
struct Least {
    session: usize,
    start: u64,
    finish: u64,
}

impl Heads {
    fn none() -> Heads {
        Heads { waiting: Set::EMPTY, start: [0; SESSIONS], finish: [0; SESSIONS] }
    }

    fn put(&mut self, index: usize, start: u64, finish: u64) {
        self.waiting.add(index);
        self.start[index] = start;
        self.finish[index] = finish;
    }

    fn clear(&mut self, index: usize) {
        self.waiting.remove(index);
    }

    /// On equal finishes the lower session is first, since sets are walked
    /// upwards.
    fn least(&self) -> Option<Least> {
        let mut indices = self.waiting;
        let first = indices.next()?;
        let mut least = Least { session: first, start: self.start[first], finish: self.finish[first] };
        for index in indices {
            least.start = least.start.min(self.start[index]);
            if self.finish[index] < least.finish {
                least.finish = self.finish[index];
                least.session = index;
            }
        }
        Some(least)
    }
}

/// A set of sessions, walked from the lowest up.
#[derive(Clone, Copy)]
struct Set(u32);

impl Set {
    const EMPTY: Set = Set(0);

    fn has(self, index: usize) -> bool {
        self.0 & Set::bit(index) != 0
    }

    fn add(&mut self, index: usize) {
        self.0 |= Set::bit(index);
    }

    fn remove(&mut self, index: usize) {
        self.0 &= !Set::bit(index);
    }

    fn len(self) -> u32 {
        self.0.count_ones()
    }

    /// The remainder tells the compiler what holds of every session anyway.
    fn bit(index: usize) -> u32 {
        1 << (index % SESSIONS)
    }
}

impl Iterator for Set {
    type Item = usize;

    fn next(&mut self) -> Option<usize> {
        if self.0 == 0 {
            return None;
        }
        let index = self.0.trailing_zeros() as usize % SESSIONS;
        self.0 &= self.0 - 1;
        Some(index)
    }
}

/// A packet that waits.
#[derive(Clone, Copy, Default)]
struct Packet {
    bytes: u64,
    arrived: u64,
    /// The potential at its arrival.
    entry: u64,
}

/// A session's waiting packets, as a chain of slots in [`Packets`]. First and
/// last mean nothing while the chain is empty.
#[derive(Clone, Copy, Default)]
struct Queue {
    len: usize,
    first: u8,
    last: u8,
}

/// The waiting packets of all sessions, each in a slot that names the next of
/// its chain. There is a slot for each place, so a session with a free place
/// always finds one, and a slot's number is exactly a byte.
struct Packets {
    packets: [Packet; PLACES],
    next: [u8; PLACES],
    /// The first slot of the free chain; means nothing while all are taken.
    free: u8,
}

impl Packets {
    fn none() -> Packets {
        let mut next = [0; PLACES];
        for (slot, next) in next.iter_mut().enumerate() {
            *next = (slot as u8).wrapping_add(1);
        }
        Packets { packets: [Packet::default(); PLACES], next, free: 0 }
    }

    /// The first packet of a queue that is not empty.
    fn first(&self, queue: &Queue) -> Packet {
        self.packets[usize::from(queue.first)]
    }

    /// Adds a packet to the queue of a session that has a free place.
    fn push(&mut self, queue: &mut Queue, packet: Packet) {
        let slot = self.free;
        self.free = self.next[usize::from(slot)];
        self.packets[usize::from(slot)] = packet;
        if queue.len == 0 {
            queue.first = slot;
        } else {
            self.next[usize::from(queue.last)] = slot;
        }
        queue.last = slot;
        queue.len += 1;
    }

    /// Takes the first packet off a queue that is not empty.
    fn pop(&mut self, queue: &mut Queue) -> Packet {
        let slot = queue.first;
        queue.first = self.next[usize::from(slot)];
        queue.len -= 1;
        self.next[usize::from(slot)] = self.free;
        self.free = slot;
        self.packets[usize::from(slot)]
    }

    fn all(&self, queue: &Queue, test: impl Fn(&Packet) -> bool) -> bool {
        let mut slot = usize::from(queue.first);
        (0..queue.len).all(|_| {
            let packet = &self.packets[slot];
            slot = usize::from(self.next[slot]);
            test(packet)
        })
    }
}

// --------------------------------------------------------------- the reader

#[derive(Clone, Copy)]
enum FaultKind {
    Bracket,
    Word,
    Number,
    Field,
    Order,
    Page,
    Text,
}

/// What is wrong with a line of the text, and at which column.
struct Fault {
    kind: FaultKind,
    column: usize,
}

#[derive(Clone, Copy)]
enum Form {
    Link,
    Open,
    Close,
    Change,
    Pick,
    Arrive,
    Depart,
}

impl Form {
    /// The form whose word `text` begins with, and the word's length. More
    /// letters may follow.
    fn begins(text: &[u8]) -> Option<(Form, usize)> {
        match text.first()? {
            b'a' if text.starts_with(b"arrive") => Some((Form::Arrive, 6)),
            b'd' if text.starts_with(b"depart") => Some((Form::Depart, 6)),
            b'c' if text.starts_with(b"change") => Some((Form::Change, 6)),
            b'c' if text.starts_with(b"close") => Some((Form::Close, 5)),
            b'o' if text.starts_with(b"open") => Some((Form::Open, 4)),
            b'p' if text.starts_with(b"pick") => Some((Form::Pick, 4)),
            b'l' if text.starts_with(b"link") => Some((Form::Link, 4)),
            _ => None,
        }
    }

    fn fields(self) -> Fields {
        use Field::*;
        match self {
            Form::Link => Fields::of(&[Longest]),
            Form::Open => Fields::of(&[At, Session, Interval, Places]),
            Form::Close => Fields::of(&[At, Session]),
            Form::Change => Fields::of(&[At, Session, Interval]),
            Form::Pick => Fields::of(&[At, Rule]),
            Form::Arrive => Fields::of(&[At, Session, Bytes]),
            Form::Depart => Fields::of(&[]),
        }
    }
}

#[derive(Clone, Copy)]
enum Field {
    At,
    Session,
    Interval,
    Places,
    Bytes,
    Rule,
    Longest,
}

impl Field {
    const COUNT: usize = 7;

    /// The field whose word `text` begins with, and the word's length. More
    /// letters may follow.
    fn begins(text: &[u8]) -> Option<(Field, usize)> {
        match text.first()? {
            b'a' if text.starts_with(b"at") => Some((Field::At, 2)),
            b's' if text.starts_with(b"session") => Some((Field::Session, 7)),
            b'b' if text.starts_with(b"bytes") => Some((Field::Bytes, 5)),
            b'i' if text.starts_with(b"interval") => Some((Field::Interval, 8)),
            b'p' if text.starts_with(b"places") => Some((Field::Places, 6)),
            b'r' if text.starts_with(b"rule") => Some((Field::Rule, 4)),
            b'l' if text.starts_with(b"longest") => Some((Field::Longest, 7)),
            _ => None,
        }
    }
}

/// A set of fields.
#[derive(Clone, Copy, PartialEq)]
struct Fields(u8);

impl Fields {
    const NONE: Fields = Fields(0);

    fn of(fields: &[Field]) -> Fields {
        Fields(fields.iter().fold(0, |set, &field| set | 1 << field as u8))
    }

    fn has(self, field: Field) -> bool {
        self.0 >> field as u8 & 1 != 0
    }

    fn without(self, field: Field) -> Fields {
        Fields(self.0 & !(1 << field as u8))
    }
}

/// The figures of a form's fields.
struct Figures([u64; Field::COUNT]);

impl Figures {
    fn of(&self, field: Field) -> u64 {
        self.0[field as usize]
    }

    fn call(&self, form: Form) -> Call {
        let at = self.of(Field::At);
        let session = self.of(Field::Session);
        let interval = self.of(Field::Interval);
        match form {
            Form::Link => Call::Link { longest: self.of(Field::Longest) },
            Form::Open => Call::Open { at, session, interval, places: self.of(Field::Places) },
            Form::Close => Call::Close { at, session },
            Form::Change => Call::Change { at, session, interval },
            Form::Pick => Call::Pick { at, rule: self.of(Field::Rule) },
            Form::Arrive => Call::Arrive { at, session, bytes: self.of(Field::Bytes) },
            Form::Depart => Call::Depart,
        }
    }
}

/// Reads the text line by line. The end of the text is read as a newline.
struct Reader<'a> {
    text: &'a [u8],
    /// Never past a newline of the line that is read, nor past the text.
    place: usize,
    /// The present line's number, from 1; 0 before the first.
    line: usize,
    line_start: usize,
}

impl<'a> Reader<'a> {
    fn new(text: &'a [u8]) -> Reader<'a> {
        Reader { text, place: 0, line: 0, line_start: 0 }
    }

    /// Goes on to the next line, whatever of the present one has been read.
    /// False if there is none.
    fn next_line(&mut self) -> bool {
        if self.line > 0 {
            while self.peek() != NEWLINE {
                self.place += 1;
            }
            self.place += 1;
        }
        self.line += 1;
        self.line_start = self.place;
        self.place < self.text.len()
    }

    /// Reads the present line, up to its end or its first fault.
    fn form(&mut self) -> Result<Call, Fault> {
        self.bracket(b'(')?;
        let form = self.form_word()?;
        let mut figures = Figures([0; Field::COUNT]);
        let mut missing = form.fields();
        while self.another_field()? {
            let field = self.field_word(missing)?;
            missing = missing.without(field);
            figures.0[field as usize] = self.number()?;
            self.bracket(b')')?;
        }
        if missing != Fields::NONE {
            return Err(self.fault(FaultKind::Field, self.place - 1));
        }
        self.line_end()?;
        Ok(figures.call(form))
    }

    fn bracket(&mut self, bracket: u8) -> Result<(), Fault> {
        if self.skip_blanks() != bracket {
            return Err(self.unexpected(FaultKind::Bracket));
        }
        self.place += 1;
        Ok(())
    }

    /// Reads the bracket that opens a field, or the one that closes the form.
    fn another_field(&mut self) -> Result<bool, Fault> {
        let met = self.skip_blanks();
        if met != b'(' && met != b')' {
            return Err(self.unexpected(FaultKind::Bracket));
        }
        self.place += 1;
        Ok(met == b'(')
    }

    fn line_end(&mut self) -> Result<(), Fault> {
        if self.skip_blanks() != NEWLINE {
            return Err(self.unexpected(FaultKind::Bracket));
        }
        Ok(())
    }

    fn form_word(&mut self) -> Result<Form, Fault> {
        self.skip_blanks();
        match Form::begins(self.rest()) {
            Some((form, length)) if self.word_ends_after(length) => {
                self.place += length;
                Ok(form)
            }
            _ => Err(self.unexpected(FaultKind::Word)),
        }
    }

    /// Reads the word of a field that is still missing.
    fn field_word(&mut self, missing: Fields) -> Result<Field, Fault> {
        let first = self.skip_blanks();
        match Field::begins(self.rest()) {
            Some((field, length)) if self.word_ends_after(length) && missing.has(field) => {
                self.place += length;
                Ok(field)
            }
            _ if first.is_ascii_lowercase() => Err(self.fault(FaultKind::Field, self.place)),
            _ => Err(self.unexpected(FaultKind::Word)),
        }
    }

    fn number(&mut self) -> Result<u64, Fault> {
        self.skip_blanks();
        let first = self.place;
        let mut value = 0;
        loop {
            let byte = self.peek();
            if !byte.is_ascii_digit() {
                break;
            }
            // Also keeps the value from growing without end.
            if self.place - first == DIGITS_MOST {
                return Err(self.fault(FaultKind::Number, first));
            }
            value = value * 10 + u64::from(byte - b'0');
            self.place += 1;
        }
        if self.place == first {
            return Err(self.unexpected(FaultKind::Number));
        }
        Ok(value)
    }

    /// Goes to the next byte that is no blank, and returns it.
    fn skip_blanks(&mut self) -> u8 {
        loop {
            let byte = self.peek();
            if byte != BLANK {
                return byte;
            }
            self.place += 1;
        }
    }

    fn peek(&self) -> u8 {
        self.text.get(self.place).copied().unwrap_or(NEWLINE)
    }

    fn rest(&self) -> &'a [u8] {
        self.text.get(self.place..).unwrap_or_default()
    }

    fn word_ends_after(&self, length: usize) -> bool {
        !self.text.get(self.place + length).is_some_and(u8::is_ascii_lowercase)
    }

    /// The fault of what is met where something else was expected. Foreign
    /// bytes and overlong runs of digits are faults of their own anywhere.
    #[cold]
    fn unexpected(&self, expected: FaultKind) -> Fault {
        let kind = match self.peek() {
            b'(' | b')' | b'a'..=b'z' | NEWLINE => expected,
            b'0'..=b'9' => {
                let digits = self.rest().iter().take(DIGITS_MOST + 1).take_while(|byte| byte.is_ascii_digit());
                if digits.count() > DIGITS_MOST {
                    FaultKind::Number
                } else {
                    expected
                }
            }
            _ => FaultKind::Bracket,
        };
        self.fault(kind, self.place)
    }

    #[cold]
    fn fault(&self, kind: FaultKind, place: usize) -> Fault {
        Fault { kind, column: place - self.line_start + 1 }
    }
}

// ----------------------------------------------------------------- the page

/// The page and how much of it is written. What would not fit is left out;
/// the room that is tested before each line sees to it that all fits.
struct Page<'a> {
    bytes: &'a mut [u8],
    used: usize,
}

impl Page<'_> {
    fn free(&self) -> usize {
        self.bytes.len() - self.used
    }

    fn left(&mut self, departure: &Departure) {
        let &Departure { session, bytes, arrived, at, due, waiting } = departure;
        self.put(b"(left (session ");
        self.put_number(session as u64);
        self.put(b") (bytes ");
        self.put_number(bytes);
        self.put(b") (arrived ");
        self.put_number(arrived);
        self.put(b") (at ");
        self.put_number(at);
        self.put(b") (due ");
        self.put_number(due);
        self.put(b") (spare ");
        if due < at {
            self.put(b"-");
        }
        self.put_number(due.abs_diff(at));
        self.put(b") (waiting ");
        self.put_number(u64::from(waiting));
        self.put(b"))\n");
    }

    fn fault(&mut self, kind: FaultKind, line: usize, column: usize) {
        self.put_slice(match kind {
            FaultKind::Bracket => b"(fault 21 bracket ",
            FaultKind::Word => b"(fault 22 word ",
            FaultKind::Number => b"(fault 23 number ",
            FaultKind::Field => b"(fault 24 field ",
            FaultKind::Order => b"(fault 25 order ",
            FaultKind::Page => b"(fault 26 page ",
            FaultKind::Text => b"(fault 27 text ",
        });
        self.put_number(line as u64);
        self.put(b" ");
        self.put_number(column as u64);
        self.put(b")\n");
    }

    /// Puts a piece whose length is known to the compiler.
    fn put<const N: usize>(&mut self, piece: &[u8; N]) {
        if let Some(slot) = self.bytes.get_mut(self.used..).and_then(|free| free.first_chunk_mut()) {
            *slot = *piece;
            self.used += N;
        }
    }

    fn put_slice(&mut self, piece: &[u8]) {
        if let Some(slot) = self.bytes.get_mut(self.used..self.used + piece.len()) {
            slot.copy_from_slice(piece);
            self.used += piece.len();
        }
    }

    /// Lays digits from the right in their final place, two at a time.
    fn put_number(&mut self, value: u64) {
        let digits = 1 + value.checked_ilog10().unwrap_or(0) as usize;
        let Some(slot) = self.bytes.get_mut(self.used..self.used + digits) else {
            return;
        };
        let mut rest = value;
        let mut pairs = slot.rchunks_exact_mut(2);
        for pair in &mut pairs {
            pair.copy_from_slice(&PAIRS[(rest % 100) as usize]);
            rest /= 100;
        }
        if let [first] = pairs.into_remainder() {
            *first = b'0' + rest as u8;
        }
        self.used += digits;
    }
}

/// The digits of the numbers below 100.
const PAIRS: [[u8; 2]; 100] = {
    let mut pairs = [[0; 2]; 100];
    let mut number = 0;
    while number < 100 {
        pairs[number] = [b'0' + (number / 10) as u8, b'0' + (number % 10) as u8];
        number += 1;
    }
    pairs
};
