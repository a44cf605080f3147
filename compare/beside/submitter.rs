// Beside submitter/mod.rs, and no part of it: its private parts, for the driver.
impl<P: Platform> Submitter<P>
where
    P::Queue: Send,
{
    /// The queue and the table.
    pub(crate) fn core(&self) -> &Core<P::Queue> {
        &self.core
    }

    /// The queue and the table, to change.
    pub(crate) fn core_mut(&mut self) -> &mut Core<P::Queue> {
        &mut self.core
    }

    /// Posts a flush's outcome as the flush thread does.
    pub(crate) fn post(&self, qtag: u64, outcome: crate::flusher::Flushed) {
        self.inbox.post_outcome(qtag, outcome);
    }

    /// The flushes asked for since the last look.
    pub(crate) fn take_asked(&self) -> Vec<(u64, u64)> {
        durable::take_asked()
    }
}
