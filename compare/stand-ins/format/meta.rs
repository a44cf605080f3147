//! Stand-in for store_io_format's `meta`: document 01 says nothing of the container's records. Only the names that
//! the folder's files import.

pub const VOLUME_META_LEN: usize = 64;
pub const TABLE_HEADER_LEN: usize = 64;
pub const ENTRY_LEN: usize = 64;

#[derive(Debug, Clone, Copy, PartialEq, Eq)]
pub enum RegionKind {
    Append,
    Page,
    Slot,
}

#[derive(Debug, Clone, Copy, PartialEq, Eq)]
pub enum RegionState {
    Ready,
    Released,
}

#[derive(Debug, Clone, PartialEq, Eq)]
pub struct RegionName(String);

impl RegionName {
    pub fn new(name: &str) -> Result<Self, ()> {
        Ok(Self(name.to_owned()))
    }

    pub fn as_str(&self) -> &str {
        &self.0
    }
}

#[derive(Debug, Clone)]
pub struct TableEntry {
    pub region_id: u32,
    pub offset: u64,
    pub state: RegionState,
}

impl TableEntry {
    pub fn extent_len(&self, block: u64) -> Option<u64> {
        block.checked_mul(2)
    }
}

#[derive(Debug, Default)]
pub struct VolumeMeta;
