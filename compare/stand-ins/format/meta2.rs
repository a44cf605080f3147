//! Stand-in for store_io_format's `meta2`, written from document 01: "up to 32 further runs".

/// A card offset and a length.
pub type Extent = (u64, u64);

pub const FLAG_CAPPED: u8 = 1;

pub const fn max_extents(_log2_block: u8) -> usize {
    33
}
