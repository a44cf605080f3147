//! Stand-in for store_io_format's `footprint`, written from document 01: "The run of a position starts at the last
//! start not above it, the first run at 0". The driver hands it one extent only and adds the further runs by
//! `RegionMap::extend` of the folder, so nothing of the map is decided here.

use crate::meta2::Extent;

#[derive(Debug, Clone, Copy)]
pub struct Run {
    pub start: u64,
    pub file: u64,
}

pub fn runs(extents: impl Iterator<Item = Extent>) -> impl Iterator<Item = Run> {
    let mut start = 0;
    extents.map(move |(file, length)| {
        let run = Run { start, file };
        start += length;
        run
    })
}
