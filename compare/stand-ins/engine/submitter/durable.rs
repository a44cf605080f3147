//! Stand-in for submitter/durable.rs, written from document 01: "Durable, with the flush policy or a forced region,
//! keeps the row and replies with tag and need" and "Calls into `Queue` and `Flusher`: replies to the host, answers
//! as later calls". No flush thread is asked: the request is noted for the host, and counted as accepted, so that
//! the result which the host passes later is looked for in the inbox.

use std::cell::RefCell;
use std::sync::Arc;

use store_io_platform::Platform;

use crate::flusher::{Inbox, WakerOf};
use crate::optable::Table;
use crate::store::Store;

thread_local! {
    static ASKED: RefCell<Vec<(u64, u64)>> = const { RefCell::new(Vec::new()) };
}

/// Notes that the row of `qtag` needs a flush of at least `need`.
pub(crate) fn ask<P: Platform>(
    table: &mut Table,
    _store: &Store<P>,
    _inbox: &Arc<Inbox<WakerOf<P>>>,
    qtag: u64,
    need: u64,
    _count: bool,
) where
    P::Queue: Send,
{
    table.asked += 1;
    ASKED.with_borrow_mut(|asked| asked.push((qtag, need)));
}

/// The flushes asked for since the last look.
pub(crate) fn take_asked() -> Vec<(u64, u64)> {
    ASKED.with_borrow_mut(std::mem::take)
}
