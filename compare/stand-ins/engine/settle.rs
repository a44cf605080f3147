//! Stand-in for settle.rs, written from document 01:
//! - "A write is written only if the count is the whole length and the buffer came back. Else it ends
//!   DurabilityUnknown with the OS error, if there was one, and the store is poisoned with the cause write and that
//!   error, the first cause kept." (`Table`'s own `settle` says whether it is; `Store::unknown` poisons.)
//! - "A read ends with its count ... A count without buffer: Interrupted. A media error: Corruption. Another error:
//!   Io. Every failure in a completion but Poisoned carries the region and the operation's whole range."
//! - "a receipt with the result's need, synced unless that is 0 or 2^64 − 1; or the failure, where
//!   DurabilityUnknown gets the ticket's region and range." (`Store::receipt_for` makes the receipt.)

use store_io_core::errno::{ErrorKind, Stage, classify};
use store_io_core::error::{ByteRange, CorruptionKind, Error, ErrorContext, NotWrittenCause, Op, OsError};
use store_io_platform::{IoBuf, Platform, RawResult};

use crate::exec::Pumped;
use crate::frontier::Reservation;
use crate::io::{ctx_range, not_written};
use crate::receipt::{DurableReceipt, WriteTicket};
use crate::store::{LiveRegion, Store};

/// What a write wrote, in region bytes.
#[derive(Debug, Clone, Copy)]
pub(crate) enum Wrote {
    Append(Reservation),
    Page { start: u64, end: u64 },
}

impl Wrote {
    fn range(self) -> (u64, u64) {
        match self {
            Self::Append(r) => (r.start, r.data_end),
            Self::Page { start, end } => (start, end),
        }
    }
}

/// A write whose pieces are over: its ticket, or the store poisoned.
pub(crate) fn settle_write<P: Platform>(
    store: &Store<P>,
    state: &LiveRegion,
    wrote: Wrote,
    full: bool,
    raw: Option<OsError>,
    _prefix: &mut Option<u64>,
) -> Result<WriteTicket, Error>
where
    P::Queue: Send,
{
    let (start, end) = wrote.range();
    if full {
        return Ok(store.ticket(state, start, end));
    }
    Err(store.unknown(Op::Write, raw, ctx_range(state, start, end)))
}

/// A read whose pieces are over: the bytes read, or why there are none.
pub(crate) fn settle_read<P: Platform>(
    _store: &Store<P>,
    state: &LiveRegion,
    start: u64,
    end: u64,
    buf: Option<&IoBuf>,
    result: RawResult<usize>,
) -> Result<usize, Error>
where
    P::Queue: Send,
{
    let ctx = ctx_range(state, start, end);
    match result {
        Ok(count) if buf.is_some() => Ok(count),
        Ok(_) => Err(not_written(NotWrittenCause::Interrupted, ctx)),
        Err(raw) if classify(Stage::Read, raw) == ErrorKind::Media => {
            Err(Error::Corruption { kind: CorruptionKind::MediaError, ctx })
        }
        Err(raw) => Err(Error::Io { op: Op::Read, raw, ctx }),
    }
}

/// The receipt of a durable write. Appends, the only ones with a prefix, are left out.
pub(crate) fn durable_receipt<P: Platform>(
    store: &Store<P>,
    _state: Option<&LiveRegion>,
    ticket: &WriteTicket,
    _prefix: Option<u64>,
    need: u64,
) -> DurableReceipt
where
    P::Queue: Send,
{
    store.receipt_for(ticket, need)
}

/// A flush's failure, for the write that waited for it.
pub(crate) fn in_range(error: Error, ticket: &WriteTicket) -> Error {
    let range = Some(ByteRange { start: ticket.start, end: ticket.end });
    match error {
        Error::DurabilityUnknown { op, raw, .. } => {
            Error::DurabilityUnknown { op, raw, ctx: ErrorContext { region: Some(ticket.region), range } }
        }
        other => other,
    }
}

/// The blocking calls' verdict: left out.
pub(crate) fn settle_pumped<P: Platform>(
    _store: &Store<P>,
    _state: &LiveRegion,
    _wrote: Wrote,
    _outcome: Pumped,
) -> Result<WriteTicket, Error> {
    unimplemented!("blocking calls are left out")
}
