//! Stand-in for store_io_core's `class`, written from document 01: "Store read-only, flush policy, volume, class,
//! label and epoch are kept for later; these numbers ... have 64 bits". The Rust has enums; here any number is
//! carried, and `PowerSafe` is one of them.

#[derive(Debug, Clone, Copy, PartialEq, Eq)]
pub struct DurabilityClass(pub u64);

#[allow(non_upper_case_globals)]
impl DurabilityClass {
    pub const PowerSafe: Self = Self(0);
}

#[derive(Debug, Clone, Copy, PartialEq, Eq)]
pub struct ReceiptLabel(pub u64);

#[derive(Debug, Clone, Copy, PartialEq, Eq)]
pub enum Missing {
    DioAlignment,
}

#[derive(Debug, Clone, Copy, PartialEq, Eq, Default)]
pub struct MissingSet;

impl MissingSet {
    pub fn contains(self, _what: Missing) -> bool {
        true
    }
}
