//! Stand-in for store_io_core's `observe`: "Left out: ... counters" (document 01). Nothing is counted.

#[derive(Debug, Clone, Copy)]
pub enum Counter {
    Barriers,
    Flushes,
    MediaErrors,
    Refused,
    Splits,
    WriteBytes,
    Writes,
}

#[derive(Debug, Clone, Copy)]
pub enum Stage {
    Barrier,
    Flush,
    Read,
    Write,
}

#[derive(Debug, Default)]
pub struct Observer;

#[derive(Debug)]
pub struct Span;

#[derive(Debug, Default)]
pub struct Snapshot;

impl Observer {
    pub fn add(&self, _counter: Counter, _by: u64) {}

    pub fn span(&self, _stage: Stage) -> Span {
        Span
    }

    pub fn snapshot(&self) -> Snapshot {
        Snapshot
    }
}
