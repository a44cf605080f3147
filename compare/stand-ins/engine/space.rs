//! Stand-in for space.rs: space accounting, of which document 01 says nothing. Only the names that the folder's
//! files import.

#[derive(Debug, Default)]
pub(crate) struct Accounting;
