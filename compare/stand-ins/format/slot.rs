//! Stand-in for store_io_format's `slot`: document 01 says nothing of the container's slots. Only the names that the
//! folder's files import.

pub const FORMAT_1: u16 = 1;
pub const FORMAT_2: u16 = 2;
pub const HEADER_LEN: usize = 64;
