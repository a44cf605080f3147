// Beside domain/mod.rs, and no part of it: the flush count that a host passes with an answer.
impl Domain {
    /// Sets the count of flushes issued, from which `ticket` takes a need.
    pub(crate) fn set_issued(&self, flushes: u64) {
        self.issued.store(flushes, Ordering::SeqCst);
    }
}
