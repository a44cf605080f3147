//! Stand-in for report.rs: reports of an open store, of which document 01 says nothing. Only the names that the
//! folder's files import.

use store_io_core::error::CorruptionKind;
use store_io_core::id::RegionId;
use store_io_format::meta::RegionKind;

#[derive(Debug, Clone, Copy)]
pub struct Unavailable;

impl Unavailable {
    pub(crate) fn corruption_kind(self) -> CorruptionKind {
        CorruptionKind::Metadata
    }
}

#[derive(Debug, Clone)]
pub struct UnavailableRegion {
    pub name: String,
    pub kind: RegionKind,
    pub id: RegionId,
    pub reason: Unavailable,
}

#[derive(Debug, Clone)]
pub struct Repair;
