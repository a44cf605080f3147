//! Stand-in for scan.rs: scans block, and document 01 leaves blocking out. Only the names that the folder's files
//! import.

use std::ops::ControlFlow;

use store_io_core::error::Error;
use store_io_platform::Platform;

use crate::store::{LiveRegion, Store};

pub enum ScanItem<'a> {
    Data { offset: u64, bytes: &'a [u8] },
    Unreadable { start: u64, end: u64 },
}

#[derive(Debug, Default)]
pub struct ScanSummary {
    pub unreadable: u64,
}

impl<P: Platform> Store<P>
where
    P::Queue: Send,
{
    pub(crate) fn scan_region(
        &self,
        _r: &LiveRegion,
        _start: u64,
        _end: u64,
        _narrow: bool,
        _visit: impl FnMut(ScanItem<'_>) -> ControlFlow<()>,
    ) -> Result<ScanSummary, Error> {
        unimplemented!("scans are left out")
    }

    pub(crate) fn scan_reported(
        &self,
        _r: &LiveRegion,
        _from: u64,
        _to: u64,
        _visit: impl FnMut(ScanItem<'_>) -> ControlFlow<()>,
    ) -> Result<ScanSummary, Error> {
        unimplemented!("scans are left out")
    }
}
