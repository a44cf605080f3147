//! Stand-in for store_io_core's `align`: the blocking calls' rounding, which document 01 leaves out ("`wait` and
//! other blocking").

pub fn align_up(value: u64, to: u64) -> Option<u64> {
    value.checked_next_multiple_of(to)
}
