//! The lines of a trace, as TRACE.md has them: read into values, and written from them.

use crate::error::{FirstCause, Op, OsError};

/// The longest line that is read, in bytes without its LF.
const LONGEST: usize = 4096;

/// One line of a trace.
#[derive(Debug, Clone, PartialEq)]
pub enum Line {
    /// A line that starts with `#`.
    Comment,
    /// A line of another form.
    Bad,
    Open(Open),
    Region(Region),
    Start,
    Call(Call),
}

/// The line `open`.
#[derive(Debug, Clone, PartialEq)]
pub struct Open {
    pub depth: u64,
    pub block: u64,
    pub buffers: u64,
    pub capacity: u64,
    pub lifetime: u64,
    pub card: u64,
    pub read_only: bool,
    pub flush_policy: bool,
    pub volume: u64,
    pub class: u64,
    pub label: u64,
    pub epoch: u64,
}

/// A line `region`.
#[derive(Debug, Clone, PartialEq)]
pub struct Region {
    pub id: u64,
    pub generation: u64,
    pub first: u64,
    pub capacity: u64,
    pub data: u64,
    /// Further runs: start position, card offset.
    pub runs: Vec<(u64, u64)>,
}

/// A submission; without a position's volume, region and generation, handle 0 with its own.
#[derive(Debug, Clone, PartialEq)]
pub struct Submission {
    pub write: bool,
    pub at: Option<Place>,
    pub position: u64,
    pub buffer: u64,
    pub length: u64,
    pub durable: bool,
    pub tag: u64,
}

/// A handle, and the volume, region and generation that a position names.
#[derive(Debug, Clone, Copy, PartialEq)]
pub struct Place {
    pub handle: u64,
    pub volume: u64,
    pub region: u64,
    pub generation: u64,
}

/// What an answer says.
#[derive(Debug, Clone, Copy, PartialEq)]
pub enum Form {
    Count(u64),
    Error(OsError),
    Refused(Option<OsError>),
}

/// An answer; without a flush count, the one last given.
#[derive(Debug, Clone, Copy, PartialEq)]
pub struct Answer {
    pub qtag: u64,
    pub flushes: Option<u64>,
    pub back: bool,
    pub form: Form,
}

/// A flush result.
#[derive(Debug, Clone, Copy, PartialEq)]
pub enum Flush {
    Need(u64),
    Unknown(FirstCause),
    Poisoned(FirstCause),
}

/// A call.
#[derive(Debug, Clone, PartialEq)]
pub enum Call {
    Submit(Submission),
    Answer(Answer),
    Flush(u64, Flush),
    Take,
    Gate(u64, u8),
    ReadOnly(u64, bool),
    Force(u64, bool),
    Poison(FirstCause),
    Writes,
    Mark,
    Length,
    Fill { buffer: u64, at: u64, length: u64, seed: u64 },
    Sum { buffer: u64, at: u64, length: u64 },
    Rows,
}

/// The fields of a line, taken one by one; `None` where the line has another form.
struct Fields<'a>(std::str::Split<'a, char>);

impl<'a> Fields<'a> {
    fn word(&mut self) -> Option<&'a str> {
        self.0.next()
    }

    fn number(&mut self) -> Option<u64> {
        number(self.word()?)
    }

    fn flag(&mut self) -> Option<bool> {
        match self.number()? {
            0 => Some(false),
            1 => Some(true),
            _ => None,
        }
    }

    /// An error's number.
    fn code(&mut self) -> Option<u32> {
        u32::try_from(self.number()?).ok()
    }

    /// OP and ERR.
    fn cause(&mut self) -> Option<FirstCause> {
        let op = match self.word()? {
            "-" => None,
            "read" => Some(Op::Read),
            "write" => Some(Op::Write),
            "flush" => Some(Op::FlushData),
            _ => return None,
        };
        let raw = match self.word()? {
            "-" => None,
            text => Some(OsError { code: u32::try_from(number(text)?).ok()?, media: false }),
        };
        Some(FirstCause { op, raw })
    }

    /// ERR MEDIA.
    fn os_error(&mut self) -> Option<OsError> {
        Some(OsError { code: self.code()?, media: self.flag()? })
    }
}

/// 1 to 20 decimal digits, at most 2^64 - 1.
fn number(text: &str) -> Option<u64> {
    let digits = (1..=20).contains(&text.len()) && text.bytes().all(|b| b.is_ascii_digit());
    if digits { text.parse().ok() } else { None }
}

/// Reads one line, given without its LF.
pub fn read(line: &[u8]) -> Line {
    if line.first() == Some(&b'#') {
        return Line::Comment;
    }
    if line.len() > LONGEST {
        return Line::Bad;
    }
    let Ok(text) = std::str::from_utf8(line) else {
        return Line::Bad;
    };
    let mut fields = Fields(text.split(' '));
    match form(&mut fields) {
        Some(line) if fields.word().is_none() => line,
        _ => Line::Bad,
    }
}

/// The line by its first word.
fn form(f: &mut Fields<'_>) -> Option<Line> {
    let call = match f.word()? {
        "open" => return open(f).map(Line::Open),
        "region" => return region(f).map(Line::Region),
        "start" => return Some(Line::Start),
        "W" => submit_at(f, true)?,
        "R" => submit_at(f, false)?,
        "w" => submit(f, true, None)?,
        "r" => submit(f, false, None)?,
        "a" => count(f)?,
        "A" => answer(f)?,
        "f" => flush(f)?,
        "t" => Call::Take,
        "gate" => Call::Gate(f.number()?, u8::try_from(f.number()?).ok().filter(|g| *g <= 2)?),
        "ro" => Call::ReadOnly(f.number()?, f.flag()?),
        "force" => Call::Force(f.number()?, f.flag()?),
        "poison" => Call::Poison(f.cause()?),
        "writes" => Call::Writes,
        "mark" => Call::Mark,
        "len" => Call::Length,
        "fill" => Call::Fill { buffer: f.number()?, at: f.number()?, length: f.number()?, seed: f.number()? },
        "sum" => Call::Sum { buffer: f.number()?, at: f.number()?, length: f.number()? },
        "rows" => Call::Rows,
        _ => return None,
    };
    Some(Line::Call(call))
}

fn open(f: &mut Fields<'_>) -> Option<Open> {
    Some(Open {
        depth: f.number()?,
        block: f.number()?,
        buffers: f.number()?,
        capacity: f.number()?,
        lifetime: f.number()?,
        card: f.number()?,
        read_only: f.flag()?,
        flush_policy: f.flag()?,
        volume: f.number()?,
        class: f.number()?,
        label: f.number()?,
        epoch: f.number()?,
    })
}

fn region(f: &mut Fields<'_>) -> Option<Region> {
    let (id, generation) = (f.number()?, f.number()?);
    let (first, capacity, data) = (f.number()?, f.number()?, f.number()?);
    let mut runs = Vec::new();
    while let Some(start) = f.word() {
        runs.push((number(start)?, f.number()?));
    }
    Some(Region { id, generation, first, capacity, data, runs })
}

fn submit_at(f: &mut Fields<'_>, write: bool) -> Option<Call> {
    let (handle, volume) = (f.number()?, f.number()?);
    let (region, generation) = (f.number()?, f.number()?);
    let (position, buffer, length) = (f.number()?, f.number()?, f.number()?);
    let (durable, tag) = (f.flag()?, f.number()?);
    let at = Some(Place { handle, volume, region, generation });
    Some(Call::Submit(Submission { write, at, position, buffer, length, durable, tag }))
}

fn submit(f: &mut Fields<'_>, write: bool, at: Option<Place>) -> Option<Call> {
    let (buffer, position, length) = (f.number()?, f.number()?, f.number()?);
    let (durable, tag) = (f.flag()?, f.number()?);
    Some(Call::Submit(Submission { write, at, position, buffer, length, durable, tag }))
}

fn count(f: &mut Fields<'_>) -> Option<Call> {
    let (qtag, count) = (f.number()?, f.number()?);
    Some(Call::Answer(Answer { qtag, flushes: None, back: true, form: Form::Count(count) }))
}

fn answer(f: &mut Fields<'_>) -> Option<Call> {
    let (qtag, flushes, back) = (f.number()?, Some(f.number()?), f.flag()?);
    let form = match f.word()? {
        "c" => Form::Count(f.number()?),
        "e" => Form::Error(f.os_error()?),
        "q" => Form::Refused(None),
        "x" => Form::Refused(Some(f.os_error()?)),
        _ => return None,
    };
    Some(Call::Answer(Answer { qtag, flushes, back, form }))
}

fn flush(f: &mut Fields<'_>) -> Option<Call> {
    let qtag = f.number()?;
    let result = match f.word()? {
        "n" => Flush::Need(f.number()?),
        "u" => Flush::Unknown(f.cause()?),
        "p" => Flush::Poisoned(f.cause()?),
        _ => return None,
    };
    Some(Call::Flush(qtag, result))
}

/// OP ERR.
pub fn cause_text(op: Option<Op>, raw: Option<OsError>) -> String {
    let op = match op {
        None => "-",
        Some(Op::Read) => "read",
        Some(Op::Write) => "write",
        Some(Op::FlushData) => "flush",
        Some(Op::Queue) => "queue",
    };
    match raw {
        None => format!("{op} -"),
        Some(raw) => format!("{op} {}", raw.code),
    }
}

/// ERR MEDIA.
fn error_text(raw: OsError) -> String {
    format!("{} {}", raw.code, u8::from(raw.media))
}

fn submission_text(s: &Submission) -> String {
    let letter = match (s.write, s.at.is_some()) {
        (true, true) => "W",
        (false, true) => "R",
        (true, false) => "w",
        (false, false) => "r",
    };
    let (durable, tag) = (u8::from(s.durable), s.tag);
    let (position, buffer, length) = (s.position, s.buffer, s.length);
    match s.at {
        None => format!("{letter} {buffer} {position} {length} {durable} {tag}"),
        Some(Place { handle, volume, region, generation }) => {
            format!("{letter} {handle} {volume} {region} {generation} {position} {buffer} {length} {durable} {tag}")
        }
    }
}

fn answer_text(a: &Answer) -> String {
    let form = match a.form {
        Form::Count(count) => format!("c {count}"),
        Form::Error(raw) => format!("e {}", error_text(raw)),
        Form::Refused(None) => "q".to_owned(),
        Form::Refused(Some(raw)) => format!("x {}", error_text(raw)),
    };
    match (a.flushes, a.form) {
        (None, Form::Count(count)) => format!("a {} {count}", a.qtag),
        (flushes, _) => format!("A {} {} {} {form}", a.qtag, flushes.unwrap_or(0), u8::from(a.back)),
    }
}

fn flush_text(qtag: u64, result: Flush) -> String {
    match result {
        Flush::Need(need) => format!("f {qtag} n {need}"),
        Flush::Unknown(c) => format!("f {qtag} u {}", cause_text(c.op, c.raw)),
        Flush::Poisoned(c) => format!("f {qtag} p {}", cause_text(c.op, c.raw)),
    }
}

/// The line of a call.
pub fn call_text(call: &Call) -> String {
    match call {
        Call::Submit(s) => submission_text(s),
        Call::Answer(a) => answer_text(a),
        Call::Flush(qtag, result) => flush_text(*qtag, *result),
        Call::Take => "t".to_owned(),
        Call::Gate(handle, to) => format!("gate {handle} {to}"),
        Call::ReadOnly(handle, flag) => format!("ro {handle} {}", u8::from(*flag)),
        Call::Force(handle, flag) => format!("force {handle} {}", u8::from(*flag)),
        Call::Poison(c) => format!("poison {}", cause_text(c.op, c.raw)),
        Call::Writes => "writes".to_owned(),
        Call::Mark => "mark".to_owned(),
        Call::Length => "len".to_owned(),
        Call::Fill { buffer, at, length, seed } => format!("fill {buffer} {at} {length} {seed}"),
        Call::Sum { buffer, at, length } => format!("sum {buffer} {at} {length}"),
        Call::Rows => "rows".to_owned(),
    }
}

/// The line `open`.
pub fn open_text(o: &Open) -> String {
    let (depth, block, buffers, capacity) = (o.depth, o.block, o.buffers, o.capacity);
    let (read_only, policy) = (u8::from(o.read_only), u8::from(o.flush_policy));
    format!(
        "open {depth} {block} {buffers} {capacity} {} {} {read_only} {policy} {} {} {} {}",
        o.lifetime, o.card, o.volume, o.class, o.label, o.epoch
    )
}

/// The line `region`.
pub fn region_text(r: &Region) -> String {
    let mut text = format!("region {} {} {} {} {}", r.id, r.generation, r.first, r.capacity, r.data);
    for (start, offset) in &r.runs {
        text.push_str(&format!(" {start} {offset}"));
    }
    text
}
