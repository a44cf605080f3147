//! Stand-in for sync.rs: the standard library's atomics ("`Arc`, atomics, `assert!`: plain values", document 01).

pub(crate) use std::sync::atomic::{AtomicBool, AtomicU64, Ordering};
pub(crate) use std::thread::yield_now;
