//! Stand-in for gate.rs, written from document 01: "Is the region's gate open? No: recycled 4 StaleGeneration,
//! released 5 NotReady" and "set a region's gate". A pass counts nothing: recycle and release do not wait here.

use std::marker::PhantomData;
use std::sync::Arc;
use std::sync::atomic::{AtomicU8, Ordering};

/// Why a gate is closed.
#[derive(Debug, Clone, Copy, PartialEq, Eq)]
pub(crate) enum Retired {
    Recycled,
    Released,
}

/// 0 open, 1 recycled, 2 released.
#[derive(Debug, Default)]
pub(crate) struct Gate(AtomicU8);

impl Gate {
    pub(crate) fn set(&self, to: u8) {
        self.0.store(to, Ordering::SeqCst);
    }

    pub(crate) fn check(&self) -> Result<(), Retired> {
        match self.0.load(Ordering::SeqCst) {
            0 => Ok(()),
            1 => Err(Retired::Recycled),
            _ => Err(Retired::Released),
        }
    }

    pub(crate) fn enter(&self) -> Result<Pass<'_>, Retired> {
        self.check().map(|()| Pass(PhantomData))
    }
}

pub(crate) struct Pass<'a>(PhantomData<&'a Gate>);

pub(crate) trait Gated {
    fn gate(&self) -> &Gate;
}

pub(crate) struct OwnedPass<T>(Arc<T>);

impl<T: Gated> OwnedPass<T> {
    pub(crate) fn enter(state: &Arc<T>) -> Result<Self, Retired> {
        state.gate().check().map(|()| Self(Arc::clone(state)))
    }
}

impl<T> OwnedPass<T> {
    pub(crate) fn get(&self) -> &Arc<T> {
        &self.0
    }
}
