//! Stand-in for slot_handle.rs: small-object slots, of which document 01 says nothing. Only the names that the
//! folder's files import.

use std::sync::Arc;

use store_io_platform::Platform;

use crate::store::{LiveRegion, Store};

pub struct Slot<P: Platform>(Store<P>, Arc<LiveRegion>);

impl<P: Platform> Slot<P> {
    pub(crate) fn from_parts(store: Store<P>, state: Arc<LiveRegion>) -> Self {
        Self(store, state)
    }
}
