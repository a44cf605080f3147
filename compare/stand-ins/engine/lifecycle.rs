//! Stand-in for lifecycle.rs, written from document 01: "recycled 4 StaleGeneration, released 5 NotReady" and
//! "Context is the region's id". Recycling, releasing, provisioning and growing are left out: a gate is set by its
//! own call.

use std::sync::Arc;

use store_io_core::error::{Error, NotWrittenCause};
use store_io_format::meta::RegionKind;
use store_io_platform::Platform;

use crate::gate::Retired;
use crate::io::{ctx, not_written};
use crate::options::RegionOptions;
use crate::store::{LiveRegion, Store};

/// The refusal of a closed gate.
pub(crate) fn retired_error(why: Retired, state: &LiveRegion) -> Error {
    let cause = match why {
        Retired::Recycled => NotWrittenCause::StaleGeneration,
        Retired::Released => NotWrittenCause::NotReady,
    };
    not_written(cause, ctx(state))
}

impl<P: Platform> Store<P>
where
    P::Queue: Send,
{
    pub(crate) fn recycle_region(&self, _state: &Arc<LiveRegion>) -> Result<Arc<LiveRegion>, Error> {
        unimplemented!("recycling is left out")
    }

    pub(crate) fn release_region(&self, _state: &Arc<LiveRegion>) -> Result<(), Error> {
        unimplemented!("releasing is left out")
    }

    pub(crate) fn provision(
        &self,
        _name: &str,
        _kind: RegionKind,
        _opts: RegionOptions,
        _tag: Option<u32>,
    ) -> Result<Arc<LiveRegion>, Error> {
        unimplemented!("provisioning is left out")
    }

    pub(crate) fn grow_region2(&self, _state: &LiveRegion, _size: u64) -> Result<u64, Error> {
        unimplemented!("growing is left out")
    }
}
