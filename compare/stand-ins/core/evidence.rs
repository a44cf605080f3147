//! Stand-in for store_io_core's `evidence`: document 01 says nothing of probing. Only the names that the folder's
//! files import.

use crate::class::MissingSet;

#[derive(Debug, Clone, Copy, PartialEq, Eq, Default)]
pub enum Tri {
    #[default]
    Unknown,
}

#[derive(Debug, Clone, Default)]
pub struct Device {
    pub logical_block: u32,
    pub physical_block: u32,
    pub optimal_write: u32,
}

#[derive(Debug, Clone, Default)]
pub struct FileSystem {
    pub dio_mem_align: u32,
    pub dio_offset_align: u32,
}

#[derive(Debug, Clone, Default)]
pub struct Evidence {
    pub device: Device,
    pub fs: FileSystem,
    pub missing: MissingSet,
}
