//! Stand-in for options.rs: provisioning, of which document 01 says nothing. Only the names that the folder's files
//! import.

#[derive(Debug, Clone, Copy, Default)]
pub struct RegionOptions {
    size: u64,
}

impl RegionOptions {
    #[must_use]
    pub fn size(mut self, size: u64) -> Self {
        self.size = size;
        self
    }
}
