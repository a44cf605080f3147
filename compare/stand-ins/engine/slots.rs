//! Stand-in for slots.rs: the container's metadata slots, of which document 01 says nothing. Only the names that the
//! folder's files import.

use store_io_buf::BufPool;
use store_io_core::error::Error;
use store_io_platform::Queue;

use crate::exec::Lane;

pub(crate) struct PairAt {
    pub(crate) volume: [u8; 16],
    pub(crate) object: u64,
    pub(crate) a: u64,
    pub(crate) b: u64,
    pub(crate) log2: u8,
    pub(crate) format: u16,
    pub(crate) numbered: bool,
}

#[derive(Debug, Clone, Default)]
pub(crate) struct PairRead;

pub(crate) struct SlotWritten;

impl PairRead {
    pub(crate) fn after(&self, _written: SlotWritten) -> Self {
        Self
    }
}

pub(crate) struct NextSlot<'a>(pub(crate) &'a [u8]);

pub(crate) fn write_slot<Q: Queue>(
    _lane: &mut Lane<Q>,
    _file: &Q::File,
    _pool: &BufPool,
    _at: &PairAt,
    _next: &NextSlot<'_>,
    _dsync: bool,
) -> Result<SlotWritten, Error> {
    unimplemented!("metadata is left out")
}
