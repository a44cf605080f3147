//! The store-io files of the folder STORE_IO, unchanged, driven by traces (see README.md).
//!
//! The crate bears the names of the store-io crates: `store_io_core::error` is this root's `error`, and so on. The
//! module tree itself (tree.rs) is laid out by build.rs.

extern crate self as store_io_buf;
extern crate self as store_io_core;
extern crate self as store_io_format;
extern crate self as store_io_platform;

include!(concat!(env!("OUT_DIR"), "/tree.rs"));

pub use buf::{BufPool, CachePadded, ClassSpec, IoBuf, PoolConfig, WaitWord};
pub use options::RegionOptions;
pub use platform::{
    Completion, CompletionBuf, FileMode, FileName, IoInterface, IoOp, IoPath, LinuxTier, OsError, Owner, Platform,
    Queue, QueueConfig, RangeState, RawResult, Rejected, ReleaseHow, Wake,
};

pub mod card;
pub mod drawing;
pub mod driver;
pub mod lines;
pub mod opening;
pub mod replies;
pub mod run;
