// Beside flusher.rs, and no part of it: the flush thread's private `post`, for the driver.
impl<W: Wake> Inbox<W> {
    /// Posts an outcome.
    pub(crate) fn post_outcome(&self, qtag: u64, outcome: Flushed) {
        self.post(qtag, outcome);
    }
}
