//! Stand-in for batch.rs: blocking batches, which document 01 leaves out ("appends ... `wait` and other blocking").
//! Only the names that the folder's files import.

use store_io_platform::Platform;

use crate::region::{AppendRegion, PageRegion};

pub struct AppendBatch<P: Platform>(AppendRegion<P>);

impl<P: Platform> AppendBatch<P> {
    pub(crate) fn new(region: AppendRegion<P>) -> Self {
        Self(region)
    }
}

pub struct PageBatch<P: Platform>(PageRegion<P>);

impl<P: Platform> PageBatch<P> {
    pub(crate) fn new(region: PageRegion<P>) -> Self {
        Self(region)
    }
}
