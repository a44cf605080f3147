//! Stand-in for stats.rs: a watchdog's list of busy marks, which document 01 leaves out but for the mark itself,
//! read from the table. Only the names that the folder's files import.

use std::sync::Arc;

use store_io_platform::Platform;

use crate::exec::LaneMark;
use crate::store::Store;

#[derive(Debug, Default)]
pub(crate) struct Seen;

#[derive(Debug, Default)]
pub(crate) struct Submitters;

impl<P: Platform> Store<P>
where
    P::Queue: Send,
{
    pub(crate) fn register_submitter(&self, _mark: &Arc<LaneMark>) -> u64 {
        0
    }

    pub(crate) fn unregister_submitter(&self, _id: u64) {}
}
