//! Stand-in for store_io_core's `errno`, written from document 01: "an OS error, marked media or not by the host".
//! What the Rust decides by the number, the mark decides here.

use crate::error::OsError;

#[derive(Debug, Clone, Copy, PartialEq, Eq)]
pub enum Stage {
    Space,
    Read,
}

#[derive(Debug, Clone, Copy, PartialEq, Eq)]
pub enum ErrorKind {
    NoSpace,
    Media,
    Other,
}

pub fn classify(_stage: Stage, raw: OsError) -> ErrorKind {
    if raw.media { ErrorKind::Media } else { ErrorKind::Other }
}
