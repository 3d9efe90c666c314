//! Random studies: sound and damaged, short and at the limits. A study is made call by call beside a line of the twin,
//! which tells the time and the end of the packet on the wire, so that most calls come when they may.

use crate::twin::Line;

const FRAME: u64 = 55_440;
const LATEST: u64 = 1 << 40;
pub const TEXT_MOST: usize = 65_536;

/// Numbers that look random and are the same for the same seed.
pub struct Random(u64);

impl Random {
    pub fn new(seed: u64) -> Random {
        Random(seed)
    }

    pub fn next(&mut self) -> u64 {
        self.0 = self.0.wrapping_add(0x9e37_79b9_7f4a_7c15);
        let mixed = (self.0 ^ (self.0 >> 30)).wrapping_mul(0xbf58_476d_1ce4_e5b9);
        let mixed = (mixed ^ (mixed >> 27)).wrapping_mul(0x94d0_49bb_1331_11eb);
        mixed ^ (mixed >> 31)
    }

    /// One of the numbers below, which is not 0.
    pub fn below(&mut self, below: u64) -> u64 {
        self.next() % below
    }

    pub fn within(&mut self, low: u64, high: u64) -> u64 {
        low + self.below(high - low + 1)
    }

    pub fn percent(&mut self, chance: u64) -> bool {
        self.below(100) < chance
    }

    pub fn one_of<T: Copy>(&mut self, items: &[T]) -> T {
        items[self.below(items.len() as u64) as usize]
    }
}

#[derive(Clone, Copy, PartialEq)]
enum Form {
    Link,
    Open,
    Close,
    Change,
    Pick,
    Arrive,
    Depart,
}

impl Form {
    fn word(self) -> &'static str {
        match self {
            Form::Link => "link",
            Form::Open => "open",
            Form::Close => "close",
            Form::Change => "change",
            Form::Pick => "pick",
            Form::Arrive => "arrive",
            Form::Depart => "depart",
        }
    }

    fn fields(self) -> &'static [&'static str] {
        match self {
            Form::Link => &["longest"],
            Form::Open => &["at", "session", "interval", "places"],
            Form::Close => &["at", "session"],
            Form::Change => &["at", "session", "interval"],
            Form::Pick => &["at", "rule"],
            Form::Arrive => &["at", "session", "bytes"],
            Form::Depart => &[],
        }
    }
}

/// Words that are a form's, a field's, or nothing.
const WORDS: [&str; 18] = [
    "link", "open", "close", "change", "pick", "arrive", "depart", "at", "session", "interval", "places", "bytes", "rule",
    "longest", "arrow", "a", "opens", "zzz",
];

/// Bytes that belong to no token.
const FOREIGN: [u8; 14] = [b'\t', b'\r', 0, 255, b'-', b'+', b'.', b',', b'[', b'@', b'`', b'{', b'/', b':'];

/// What a study has much of.
#[derive(Clone, Copy)]
pub struct Taste {
    /// How often a form comes, by its place in `FORMS`, once all sessions are open.
    weights: [u64; 7],
    /// Percent of calls with a figure that the line may refuse.
    odd: u64,
    /// Percent of lines with something wrong.
    damage: u64,
}

const FORMS: [Form; 7] = [Form::Link, Form::Open, Form::Close, Form::Change, Form::Pick, Form::Arrive, Form::Depart];

impl Taste {
    pub const USUAL: Taste = Taste { weights: [1, 6, 3, 6, 3, 30, 24], odd: 4, damage: 5 };
    pub const SOUND: Taste = Taste { weights: [1, 6, 3, 6, 3, 30, 24], odd: 4, damage: 0 };
    pub const DAMAGED: Taste = Taste { weights: [1, 6, 3, 6, 3, 30, 24], odd: 4, damage: 60 };
    /// Traffic on shares that stay.
    pub const STEADY: Taste = Taste { weights: [0, 0, 0, 0, 0, 52, 48], odd: 0, damage: 0 };
    pub const CHANGES: Taste = Taste { weights: [0, 12, 10, 40, 8, 17, 13], odd: 0, damage: 0 };
    pub const REFUSALS: Taste = Taste { weights: [0, 15, 10, 15, 10, 30, 20], odd: 60, damage: 0 };
    pub const FAULTS: Taste = Taste { weights: [0, 5, 5, 10, 5, 40, 35], odd: 0, damage: 100 };
}

/// One random study.
pub struct Study {
    random: Random,
    taste: Taste,
    line: Option<Line>,
    longest: u64,
    /// The interval of each session, 0 where it is closed.
    intervals: [u64; 32],
    sessions: u64,
    choice: &'static [u64],
    near_end: bool,
}

impl Study {
    pub fn new(mut random: Random, taste: Taste) -> Study {
        let sessions = random.one_of(&[2, 3, 4, 8, 32]);
        // Few sessions with large shares, many with small ones, or both.
        let choice = random.one_of::<&[u64]>(&[&[2, 4, 4, 8], &[2, 3, 6, 36, 56], &[16, 30, 36, 56, 1540], &[1, 5, 7, 720, 27_720, FRAME]]);
        let near_end = random.percent(10);
        Study { random, taste, line: None, longest: 100, intervals: [0; 32], sessions, choice, near_end }
    }

    /// A study of full size: many sessions, so that the line is never short of work.
    pub fn large(random: Random, taste: Taste) -> Study {
        let mut study = Study::new(random, taste);
        study.sessions = 24;
        study.choice = &[28, 30, 33, 35, 36, 40, 42, 44, 45, 48, 56];
        study.near_end = false;
        study
    }

    fn odd(&mut self) -> bool {
        let odd = self.taste.odd;
        self.random.percent(odd)
    }

    fn session(&mut self, opened: bool) -> u64 {
        if self.odd() {
            return self.random.one_of(&[31, 32, 33, 255, 1 << 32, 9_999_999_999_999]);
        }
        let from = self.random.below(self.sessions);
        let wanted = |k: &u64| (self.intervals[*k as usize] > 0) == opened;
        (0..self.sessions).map(|k| (from + k) % self.sessions).find(wanted).unwrap_or(from)
    }

    fn time(&mut self) -> u64 {
        let Some((now, end)) = self.line.as_ref().map(|line| (line.time(), line.end())) else {
            return self.random.one_of(&[0, 0, 5]);
        };
        if self.odd() {
            // A call taken at the latest time leaves nothing but departures, so it is rare.
            let latest = if self.random.percent(3) { LATEST - self.random.below(2) } else { LATEST + 1 };
            return self.random.one_of(&[0, now.saturating_sub(1), latest, 9_999_999_999_999]);
        }
        match end {
            Some(end) if self.odd() => end + 1,
            Some(end) => {
                let between = self.random.within(now, end);
                self.random.one_of(&[now, now, end, between])
            }
            None if self.near_end && now < LATEST - 10_000 => LATEST - self.random.below(10_000),
            None => now.max(LATEST.min(now + self.random.one_of(&[0, 0, 1, 3, 50, 1_000, 100_000]))),
        }
    }

    fn bytes(&mut self, session: u64) -> u64 {
        let interval = self.intervals.get(session as usize).copied().unwrap_or(0).max(2);
        let fit = FRAME / interval;
        if self.odd() {
            return self.random.one_of(&[1, self.longest, self.longest + 1, fit, fit + 1, 0, 9_216, 9_217]);
        }
        self.random.within(1, fit.min(self.longest).max(1))
    }

    fn interval(&mut self) -> u64 {
        if self.odd() {
            return self.random.one_of(&[0, 13, 17, 1, FRAME, FRAME + 1, 110_880, 9_999_999_999_999]);
        }
        self.random.one_of(self.choice)
    }

    fn places(&mut self) -> u64 {
        if self.odd() {
            return self.random.one_of(&[0, 256, 257, 200, 9_999_999_999_999]);
        }
        self.random.within(1, 10)
    }

    fn rule(&mut self) -> u64 {
        if self.odd() {
            return self.random.one_of(&[4, 5, 65_535, 65_536, 9_999_999_999_999]);
        }
        self.random.below(4)
    }

    fn longest(&mut self) -> u64 {
        if self.random.percent(15) {
            return self.random.one_of(&[0, 9_217, 9_216, 1]);
        }
        self.random.one_of(&[50, 100, 1_000, 1_500, 9_216])
    }

    fn form(&mut self) -> Form {
        if self.line.is_none() && !self.random.percent(10) {
            return Form::Link;
        }
        let opened = self.intervals.iter().filter(|interval| **interval > 0).count() as u64;
        if opened < self.sessions && self.random.percent(25) {
            return Form::Open;
        }
        let mut left = self.random.below(self.taste.weights.iter().sum());
        for (form, weight) in FORMS.into_iter().zip(self.taste.weights) {
            if left < weight {
                return form;
            }
            left -= weight;
        }
        Form::Depart
    }

    /// The figures of a form, in the order of its fields.
    fn figures(&mut self, form: Form) -> Vec<u64> {
        if form == Form::Link {
            return vec![self.longest()];
        }
        if form == Form::Depart {
            return vec![];
        }
        let at = self.time();
        if form == Form::Pick {
            return vec![at, self.rule()];
        }
        let session = self.session(form != Form::Open);
        match form {
            Form::Open => vec![at, session, self.interval(), self.places()],
            Form::Change => vec![at, session, self.interval()],
            Form::Arrive => vec![at, session, self.bytes(session)],
            _ => vec![at, session],
        }
    }

    /// Makes the call on the twin's line, so that the next one can be timed.
    fn call(&mut self, form: Form, figures: &[u64]) {
        let Some(line) = &mut self.line else {
            if let (Form::Link, [longest]) = (form, figures) {
                self.longest = (*longest).max(1);
                self.line = Line::make(*longest).ok();
            }
            return;
        };
        match (form, figures) {
            (Form::Open, [at, session, interval, places]) => {
                if line.open(*at, *session, *interval, *places).is_ok() {
                    self.intervals[*session as usize] = *interval;
                }
            }
            (Form::Close, [at, session]) => {
                if line.close(*at, *session).is_ok() {
                    self.intervals[*session as usize] = 0;
                }
            }
            (Form::Change, [at, session, interval]) => {
                if line.change(*at, *session, *interval).is_ok() {
                    self.intervals[*session as usize] = *interval;
                }
            }
            (Form::Pick, [at, rule]) => drop(line.pick(*at, *rule)),
            (Form::Arrive, [at, session, bytes]) => drop(line.arrive(*at, *session, *bytes)),
            (Form::Depart, _) => drop(line.depart()),
            _ => (),
        }
    }

    /// One more line, without its line end.
    pub fn next_line(&mut self) -> Vec<u8> {
        let form = self.form();
        let figures = self.figures(form);
        let mut tokens = self.tokens(form, &figures);
        if self.random.percent(self.taste.damage) && self.line.is_some() {
            self.damage_tokens(&mut tokens);
            let line = self.joined(&tokens);
            return self.damaged(line);
        }
        self.call(form, &figures);
        self.joined(&tokens)
    }

    /// The tokens of a form, its fields in any order, numbers now and then with leading zeros.
    fn tokens(&mut self, form: Form, figures: &[u64]) -> Vec<String> {
        let mut fields: Vec<_> = form.fields().iter().zip(figures).collect();
        if fields.len() > 1 && self.random.percent(20) {
            let turn = self.random.below(fields.len() as u64) as usize;
            fields.rotate_left(turn);
            fields.swap(0, 1);
        }
        let mut tokens = vec!["(".to_string(), form.word().to_string()];
        for (name, figure) in fields {
            let mut number = figure.to_string();
            if number.len() < 13 && self.random.percent(2) {
                let width = self.random.within(number.len() as u64, 13) as usize;
                number = format!("{figure:0width$}");
            }
            tokens.extend(["(".to_string(), name.to_string(), number, ")".to_string()]);
        }
        tokens.push(")".to_string());
        tokens
    }

    /// Tokens as a line: as a planner lays it out, packed, or with blanks anywhere.
    fn joined(&mut self, tokens: &[String]) -> Vec<u8> {
        let layout = self.random.below(10);
        let mut line = Vec::new();
        let mut before = "";
        for token in tokens {
            let plain = layout < 8 && !before.is_empty() && before != "(" && token != ")";
            let apart = |text: &str| text.starts_with(|c: char| c.is_ascii_alphanumeric());
            if plain || (apart(before) && apart(token)) {
                line.push(b' ');
            }
            if layout == 9 {
                line.extend(vec![b' '; self.random.one_of(&[0, 0, 1, 2, 5])]);
            }
            line.extend(token.as_bytes());
            before = token;
        }
        if layout == 9 {
            line.extend(vec![b' '; self.random.one_of(&[0, 1, 3])]);
        }
        line
    }

    fn damage_tokens(&mut self, tokens: &mut Vec<String>) {
        let at = self.random.below(tokens.len() as u64) as usize;
        match self.random.below(10) {
            0 => drop(tokens.remove(at)),
            1 => tokens.insert(at, tokens[at].clone()),
            2 => tokens.swap(at, 0),
            3 => tokens[at] = self.random.one_of(&WORDS).to_string(),
            4 => tokens[at] = self.random.below(10_000_000_000_000).to_string(),
            5 => tokens[at] = self.random.one_of(&["0", "1", "9"]).repeat(self.random.one_of(&[13, 14, 14, 15, 40])),
            6 => tokens[at] = self.random.one_of(&["(", ")"]).to_string(),
            7 => {
                let name = self.random.one_of(&WORDS);
                let last = tokens.len() - 1;
                tokens.splice(last..last, ["(", name, "7", ")"].map(String::from));
            }
            8 if tokens.len() > 6 => drop(tokens.drain(2..6)),
            _ if tokens.len() > 6 => {
                let again: Vec<_> = tokens[2..6].to_vec();
                let last = tokens.len() - 1;
                tokens.splice(last..last, again);
            }
            _ => (),
        }
    }

    /// A line with a byte or more changed, one time in three.
    fn damaged(&mut self, mut line: Vec<u8>) -> Vec<u8> {
        let at = self.random.below(line.len() as u64 + 1) as usize;
        match self.random.below(24) {
            0 => line.insert(at, self.random.one_of(&FOREIGN)),
            1 if at < line.len() => line[at] = self.random.one_of(&FOREIGN),
            2 => line.truncate(at),
            3 if at < line.len() => line[at] = line[at].to_ascii_uppercase(),
            4 => line.splice(at..at, [b' '; 7]).for_each(drop),
            5 => line.extend(self.random.one_of::<&[u8]>(&[b" x", b")", b"(", b" 5", b" ", b"()", b"\r"])),
            6 => line = vec![b' '; self.random.below(9) as usize],
            7 => {
                let bytes = (0..self.random.below(30)).map(|_| self.random.next() as u8);
                line = bytes.filter(|byte| *byte != b'\n').collect();
            }
            _ => (),
        }
        line
    }
}

/// A text of at most so many bytes: lines of the study, as many as fit.
pub fn full(mut study: Study, most: usize) -> Vec<u8> {
    let mut text = Vec::new();
    loop {
        let line = study.next_line();
        if text.len() + line.len() + 1 > most {
            return text;
        }
        text.extend(line);
        text.push(b'\n');
    }
}

/// A text for a comparison: usual ones, long ones that fill a page, some too long or at the limit, and plain noise.
pub fn any(seed: u64) -> Vec<u8> {
    let mut random = Random::new(seed);
    let kind = random.below(100);
    let inner = Random::new(random.next());
    let lines = random.one_of(&[0, 1, 3, 12, 40, 150]);
    let mut text = match kind {
        0..=44 => some(Study::new(inner, Taste::USUAL), lines),
        45..=64 => some(Study::new(inner, Taste::SOUND), lines),
        65..=79 => some(Study::new(inner, Taste::DAMAGED), lines),
        80..=89 => some(Study::new(inner, Taste::REFUSALS), lines),
        90..=93 => noise(inner, lines * 20),
        94..=95 => flood(inner),
        96..=97 => full(Study::new(inner, Taste::USUAL), TEXT_MOST),
        _ => full(Study::new(inner, Taste::SOUND), TEXT_MOST),
    };
    if kind >= 97 {
        // A text at the limit, or just above it.
        let length = TEXT_MOST + random.one_of(&[0, 0, 0, 1, 1, 2_000]) - random.one_of(&[0, 1]);
        text.resize(length, random.one_of(&[b' ', b'\n', b'(']));
    }
    if random.percent(20) {
        text.pop();
    }
    text
}

fn some(mut study: Study, lines: u64) -> Vec<u8> {
    let mut text = Vec::new();
    for _ in 0..lines {
        text.extend(study.next_line());
        text.push(b'\n');
    }
    text
}

/// Short lines with longer answers, which fill a page before the text ends.
fn flood(mut random: Random) -> Vec<u8> {
    let mut text = Vec::new();
    for _ in 0..4_000 {
        text.extend(random.one_of::<&[u8]>(&[b"\n", b"\n", b"()\n", b"(\n", b"x\n", b"(depart)\n", b"(link (longest 9))\n"]));
    }
    text
}

/// Tokens and bytes in no order.
fn noise(mut random: Random, pieces: u64) -> Vec<u8> {
    let mut text = Vec::new();
    for _ in 0..pieces {
        match random.below(12) {
            0..=2 => text.push(b'('),
            3..=4 => text.push(b')'),
            5..=7 => text.extend(random.one_of(&WORDS).as_bytes()),
            8 => text.extend(random.below(40).to_string().as_bytes()),
            9 => text.push(b' '),
            10 => text.push(b'\n'),
            _ => text.push(random.next() as u8),
        }
    }
    text
}
