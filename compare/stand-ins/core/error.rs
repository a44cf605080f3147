//! Stand-in for store_io_core's `error`, written from document 01: "OS errors are carried as unsigned 32-bit
//! numbers", "A cause is an operation (none, read, write or flush) with an OS error or none", "an OS error, marked
//! media or not by the host", and the names in "A submission, question by question". The variants are those that
//! the files of the folder name.

use crate::id::RegionId;

/// An OS error and the host's mark: the mark stands in for the classification by number.
#[derive(Debug, Clone, Copy, PartialEq, Eq)]
pub struct OsError {
    pub code: u32,
    pub media: bool,
}

#[derive(Debug, Clone, Copy, PartialEq, Eq)]
pub enum Op {
    Read,
    Write,
    FlushData,
    Queue,
}

#[derive(Debug, Clone, Copy, PartialEq, Eq)]
pub struct FirstCause {
    pub op: Option<Op>,
    pub raw: Option<OsError>,
}

#[derive(Debug, Clone, Copy, PartialEq, Eq)]
pub struct ByteRange {
    pub start: u64,
    pub end: u64,
}

#[derive(Debug, Clone, Copy, PartialEq, Eq, Default)]
pub struct ErrorContext {
    pub region: Option<RegionId>,
    pub range: Option<ByteRange>,
}

#[derive(Debug, Clone, Copy, PartialEq, Eq)]
pub enum NotWrittenCause {
    ForeignPosition,
    ForeignBuffer,
    QueueFull,
    StaleGeneration,
    NotReady,
    ReadOnly,
    Empty,
    Misaligned,
    OutOfBounds,
    Interrupted,
    NotPositioned,
    TooManyInFlight,
    TooLarge,
    PoolExhausted,
    RegionFull,
    InvalidName,
    InvalidOptions,
}

#[derive(Debug, Clone, Copy, PartialEq, Eq)]
pub enum CorruptionKind {
    MediaError,
    Metadata,
}

#[derive(Debug, Clone, Copy, PartialEq, Eq)]
pub enum Named {
    Region,
    Slot,
}

#[derive(Debug, Clone, Copy, PartialEq, Eq)]
pub enum ReserveTag {
    Caller(u32),
}

#[derive(Debug, Clone, PartialEq, Eq)]
pub enum Error {
    NotWritten { cause: NotWrittenCause, ctx: ErrorContext },
    Io { op: Op, raw: OsError, ctx: ErrorContext },
    Poisoned { first: FirstCause },
    DurabilityUnknown { op: Op, raw: Option<OsError>, ctx: ErrorContext },
    Corruption { kind: CorruptionKind, ctx: ErrorContext },
    NotFound { what: Named },
    NoSpace { tag: ReserveTag, ctx: ErrorContext },
    UnsafeDevice { reasons: u32 },
    Unverified { missing: crate::class::MissingSet, reasons: u32 },
}
