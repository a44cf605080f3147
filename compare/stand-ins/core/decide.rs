//! Stand-in for store_io_core's `decide`: document 01 says nothing of the class decision ("Store read-only, flush
//! policy, ... are kept for later" are given at opening). Only the names that the folder's files import.

use crate::class::{DurabilityClass, MissingSet, ReceiptLabel};

#[derive(Debug, Clone, Default)]
pub struct Trust;

#[derive(Debug, Clone, Copy, PartialEq, Eq)]
pub enum DurableOpen {
    Allowed,
    Overridden,
    RefusedUnsafe,
    RefusedUnverified,
}

#[derive(Debug, Clone)]
pub struct ClassDecision {
    pub class: DurabilityClass,
    pub label: ReceiptLabel,
    pub durable_open: DurableOpen,
    pub reasons: u32,
    pub missing: MissingSet,
}
