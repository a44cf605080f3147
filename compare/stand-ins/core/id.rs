//! Stand-in for store_io_core's `id`, written from document 01: "these numbers, region ids and host tags have 64
//! bits" and "A region has a generation (32 bits)". A volume is 16 bytes in the Rust (`as_bytes`); the lower eight
//! hold document 01's number. A generation has room for 64 bits, so that one of 2^32 or more can be named in a
//! request; a region's own is below 2^32.

#[derive(Debug, Clone, Copy, PartialEq, Eq)]
pub struct VolumeId([u8; 16]);

impl VolumeId {
    pub fn of(number: u64) -> Self {
        Self(u128::from(number).to_le_bytes())
    }

    pub fn number(self) -> u64 {
        u128::from_le_bytes(self.0) as u64
    }

    pub fn as_bytes(&self) -> &[u8; 16] {
        &self.0
    }
}

#[derive(Debug, Clone, Copy, PartialEq, Eq)]
pub struct RegionId(pub u64);

impl RegionId {
    pub fn get(self) -> u64 {
        self.0
    }
}

#[derive(Debug, Clone, Copy, PartialEq, Eq)]
pub struct Generation(pub u64);
