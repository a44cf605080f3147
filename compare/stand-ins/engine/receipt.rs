//! Stand-in for receipt.rs, written from document 01: "a position (volume, region, generation, offset)", "A receipt
//! takes its range from the ticket; untorn and prefix are false", and the fields that the folder's files set.

use store_io_core::class::{DurabilityClass, ReceiptLabel};
use store_io_core::id::{Generation, RegionId, VolumeId};

#[derive(Debug, Clone, Copy, PartialEq, Eq)]
pub struct RegionPos {
    pub volume: VolumeId,
    pub region: RegionId,
    pub generation: Generation,
    pub offset: u64,
}

#[derive(Debug, Clone, PartialEq, Eq)]
pub struct WriteTicket {
    pub volume: VolumeId,
    pub region: RegionId,
    pub generation: Generation,
    pub start: u64,
    pub end: u64,
    pub need: u64,
    pub epoch: u64,
}

impl WriteTicket {
    pub fn pos(&self) -> RegionPos {
        RegionPos { volume: self.volume, region: self.region, generation: self.generation, offset: self.start }
    }
}

#[derive(Debug, Clone, Copy, PartialEq, Eq)]
pub struct DurableReceipt {
    pub volume: VolumeId,
    pub region: RegionId,
    pub generation: Generation,
    pub class: DurabilityClass,
    pub label: ReceiptLabel,
    pub start: u64,
    pub through: u64,
    pub untorn: bool,
    pub need: u64,
    pub prefix: bool,
    pub synced: bool,
    pub epoch: u64,
}
