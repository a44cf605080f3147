// Beside optable.rs, and no part of it: what a trace asks of the table's private rows.
impl Table {
    /// The rows' generations, in order.
    pub(crate) fn generations(&self) -> Vec<u32> {
        self.rows.iter().map(|row| row.generation).collect()
    }

    /// The free stack, its top first.
    pub(crate) fn free_rows(&self) -> Vec<u32> {
        self.free.iter().rev().copied().collect()
    }

    /// The busy mark as published.
    pub(crate) fn mark_published(&self) -> u64 {
        self.mark.get()
    }

    /// The buffers of durable writes that wait for their flush.
    pub(crate) fn held_buffers(&self) -> impl Iterator<Item = &IoBuf> {
        let lives = self.rows.iter().filter_map(|row| row.live.as_ref());
        lives.filter_map(|live| live.held.as_ref()?.0.as_ref())
    }
}
