//! Replies, as TRACE.md has them, from the Rust's own values.

use crate::card::Piece;
use crate::completion::{Completion, Done, Written};
use crate::error::{CorruptionKind, Error, ErrorContext, NotWrittenCause};
use crate::lines::cause_text;
use crate::receipt::{DurableReceipt, WriteTicket};

pub fn piece(p: &Piece) -> String {
    format!("piece {} {} {} {}", p.tag, p.offset, p.count, p.buffer)
}

/// The number of a cause in document 01's questions.
fn number(cause: NotWrittenCause) -> Option<u32> {
    Some(match cause {
        NotWrittenCause::ForeignPosition => 1,
        NotWrittenCause::ForeignBuffer => 2,
        NotWrittenCause::QueueFull => 3,
        NotWrittenCause::StaleGeneration => 4,
        NotWrittenCause::NotReady => 5,
        NotWrittenCause::ReadOnly => 6,
        NotWrittenCause::Empty => 8,
        NotWrittenCause::Misaligned => 9,
        NotWrittenCause::OutOfBounds => 10,
        _ => return None,
    })
}

/// ` region ID`, ` region ID START END`, or nothing.
fn context(c: &ErrorContext) -> String {
    match (c.region, c.range) {
        (None, _) => String::new(),
        (Some(id), None) => format!(" region {}", id.get()),
        (Some(id), Some(range)) => format!(" region {} {} {}", id.get(), range.start, range.end),
    }
}

/// A submission turned away; `None` for an error that has no number.
pub fn turned_away(error: &Error) -> Option<String> {
    match error {
        Error::NotWritten { cause, ctx } => Some(format!("no {}{}", number(*cause)?, context(ctx))),
        Error::Poisoned { first } => Some(format!("no 7 cause {}", cause_text(first.op, first.raw))),
        _ => None,
    }
}

/// REGION START END; an absent part is written `-`, which no reply of TRACE.md has.
fn place(c: &ErrorContext) -> String {
    let region = c.region.map_or("-".to_owned(), |id| id.get().to_string());
    match c.range {
        Some(range) => format!("{region} {} {}", range.start, range.end),
        None => format!("{region} - -"),
    }
}

/// A buffer at the end of a reply.
pub fn buffer(buf: Option<(u64, usize)>) -> String {
    match buf {
        Some((index, length)) => format!(" buffer {index} {length}"),
        None => " lost".to_owned(),
    }
}

/// A first piece refused, without its buffer.
pub fn refused(error: &Error) -> Option<String> {
    match error {
        Error::Io { raw, ctx, .. } => Some(format!("refused io {} {}", place(ctx), raw.code)),
        Error::NotWritten { cause: NotWrittenCause::QueueFull, ctx } => Some(format!("refused full {}", place(ctx))),
        _ => None,
    }
}

fn ticket(t: &WriteTicket) -> String {
    let (volume, region, generation) = (t.volume.number(), t.region.get(), t.generation.0);
    format!("ticket {volume} {region} {generation} {} {} {} {}", t.start, t.end, t.need, t.epoch)
}

fn receipt(r: &DurableReceipt) -> String {
    let (volume, region, generation) = (r.volume.number(), r.region.get(), r.generation.0);
    let (untorn, prefix, synced) = (u8::from(r.untorn), u8::from(r.prefix), u8::from(r.synced));
    let kind = format!("{} {} {} {} {}", r.class.0, r.label.0, r.start, r.through, r.need);
    format!("receipt {volume} {region} {generation} {kind} {untorn} {prefix} {synced} {}", r.epoch)
}

fn written(w: &Written) -> String {
    match &w.receipt {
        None => format!("written {} {} {} {}", w.ticket.start, w.ticket.end, w.ticket.need, ticket(&w.ticket)),
        Some(r) => {
            let range = format!("{} {} {}", r.start, r.through, r.need);
            format!("receipt {range} {} {}", ticket(&w.ticket), receipt(r))
        }
    }
}

/// An outcome; one that TRACE.md has no form for is written as the Rust shows it.
fn outcome(result: &Result<Done, Error>) -> String {
    match result {
        Ok(Done::Written(w)) => written(w),
        Ok(Done::Read { len }) => format!("read {len}"),
        Ok(Done::Flushed) => "flushed".to_owned(),
        Ok(Done::Synced(_)) => "synced".to_owned(),
        Err(Error::DurabilityUnknown { op, raw, ctx }) => {
            format!("unknown {} {}", place(ctx), cause_text(Some(*op), *raw))
        }
        Err(Error::NotWritten { cause: NotWrittenCause::Interrupted, ctx }) => format!("interrupted {}", place(ctx)),
        Err(Error::NotWritten { cause: NotWrittenCause::QueueFull, ctx }) => format!("full {}", place(ctx)),
        Err(Error::Corruption { kind: CorruptionKind::MediaError, ctx }) => format!("media {}", place(ctx)),
        Err(Error::Io { raw, ctx, .. }) => format!("io {} {}", place(ctx), raw.code),
        Err(Error::Poisoned { first }) => format!("poisoned {}", cause_text(first.op, first.raw)),
        Err(other) => format!("{other:?}"),
    }
}

/// A completion taken.
pub fn took(c: &Completion) -> String {
    let buf = c.buf.as_ref().map(|b| (b.index(), b.len()));
    format!("took {} {}{}", c.tag, outcome(&c.outcome), buffer(buf))
}

pub fn rows(generations: &[u32], free: &[u32]) -> String {
    let words = |list: &[u32]| list.iter().map(|n| format!(" {n}")).collect::<String>();
    format!("rows{} free{}", words(generations), words(free))
}

/// The sum over bytes.
pub fn sum(bytes: &[u8]) -> String {
    const MODULUS: u64 = 4_294_967_291;
    let (mut s1, mut s2) = (1u64, 0u64);
    for byte in bytes {
        s1 = (s1 + u64::from(*byte)) % MODULUS;
        s2 = (s2 + s1) % MODULUS;
    }
    format!("sum {}", (s2 << 32) + s1)
}
