//! Our side: the functions of libentry.a, over memory that this host lends.

use compare::opening::Opening;

#[allow(clippy::too_many_arguments)]
unsafe extern "C" {
    fn table_open(
        opening: *const u64, plan: *const u64, plans: usize, counts: *mut u64, rows: *mut u64, row_words: usize, store: *mut u64,
        stores: usize, free: *mut u64, frees: usize, ready: *mut u64, readies: usize, owners: *mut u64, owned: usize,
        pool: *const u8, bytes: usize, out: *mut u64,
    );
    fn table_write(
        request: *const u64, counts: *mut u64, rows: *mut u64, row_words: usize, store: *mut u64, stores: usize, free: *mut u64,
        frees: usize, ready: *mut u64, readies: usize, owners: *mut u64, owned: usize, pool: *mut u8, bytes: usize,
        out: *mut u64,
    );
    fn table_answer(
        qtag: u64, form: u64, count: u64, raw: u32, media: bool, back: bool, flushes: u64, counts: *mut u64, rows: *mut u64,
        row_words: usize, store: *mut u64, stores: usize, free: *mut u64, frees: usize, ready: *mut u64, readies: usize,
        owners: *mut u64, owned: usize, pool: *mut u8, bytes: usize, out: *mut u64,
    );
    fn table_take(
        counts: *mut u64, rows: *mut u64, row_words: usize, store: *mut u64, stores: usize, free: *mut u64, frees: usize,
        ready: *mut u64, readies: usize, owners: *mut u64, owned: usize, pool: *mut u8, bytes: usize, out: *mut u64,
    );
    fn table_turn(bytes: *mut u8, length: usize, n: usize, k: usize);
}

/// The words of a reply's case (crates/abi/specs/ReplyWords.antt).
const PIECE: u64 = 1;
const DONE: u64 = 4;
const TOOK: u64 = 6;
const OK: u64 = 8;

/// A table of ours, in memory that the host lends.
pub struct OurTable {
    counts: [u64; 3],
    rows: Vec<u64>,
    store: Vec<u64>,
    free: Vec<u64>,
    ready: Vec<u64>,
    owners: Vec<u64>,
    pool: Vec<u8>,
    out: [u64; 17],
    request: [u64; 9],
    tags: Vec<u64>,
}

impl OurTable {
    pub fn open(opening: &Opening) -> Self {
        let o = &opening.open;
        let own = &opening.regions[0];
        let depth = o.depth as usize;
        let numbers = [
            o.block, o.depth, o.lifetime, o.card, o.buffers, o.capacity, 0, 0, o.volume, o.class, o.label, o.epoch, 1,
        ];
        let mut plan = vec![own.id, own.generation, own.first, own.capacity, own.data, own.runs.len() as u64];
        plan.extend(own.runs.iter().flat_map(|run| [run.0, run.1]));
        plan.resize(70, 0);
        let mut t = Self {
            counts: [0; 3],
            rows: vec![0; 16 * depth],
            store: vec![0; 48 + 70],
            free: vec![0; depth],
            ready: vec![0; 1 + 16 * depth],
            owners: vec![0; o.buffers as usize],
            pool: vec![0; (o.buffers * o.capacity) as usize],
            out: [0; 17],
            request: [0, o.volume, own.id, own.generation, 0, 0, 0, 0, 0],
            tags: vec![0; depth],
        };
        // SAFETY: each pointer and length is a slice's own, and no two of the parts overlap.
        unsafe {
            table_open(
                numbers.as_ptr(), plan.as_ptr(), plan.len(), t.counts.as_mut_ptr(), t.rows.as_mut_ptr(), t.rows.len(),
                t.store.as_mut_ptr(), t.store.len(), t.free.as_mut_ptr(), t.free.len(), t.ready.as_mut_ptr(),
                t.ready.len(), t.owners.as_mut_ptr(), t.owners.len(), t.pool.as_ptr(), t.pool.len(), t.out.as_mut_ptr(),
            );
        }
        assert_eq!(t.out[0], OK, "the opening keeps the rules: {:?}", t.out);
        t
    }

    fn write(&mut self) {
        // SAFETY: as above.
        unsafe {
            table_write(
                self.request.as_ptr(), self.counts.as_mut_ptr(), self.rows.as_mut_ptr(), self.rows.len(),
                self.store.as_mut_ptr(), self.store.len(), self.free.as_mut_ptr(), self.free.len(),
                self.ready.as_mut_ptr(), self.ready.len(), self.owners.as_mut_ptr(), self.owners.len(),
                self.pool.as_mut_ptr(), self.pool.len(), self.out.as_mut_ptr(),
            );
        }
    }

    fn answer(&mut self, qtag: u64, count: u64) {
        // SAFETY: as above.
        unsafe {
            table_answer(
                qtag, 0, count, 0, false, true, 0, self.counts.as_mut_ptr(), self.rows.as_mut_ptr(), self.rows.len(),
                self.store.as_mut_ptr(), self.store.len(), self.free.as_mut_ptr(), self.free.len(),
                self.ready.as_mut_ptr(), self.ready.len(), self.owners.as_mut_ptr(), self.owners.len(),
                self.pool.as_mut_ptr(), self.pool.len(), self.out.as_mut_ptr(),
            );
        }
    }

    fn take(&mut self) {
        // SAFETY: as above.
        unsafe {
            table_take(
                self.counts.as_mut_ptr(), self.rows.as_mut_ptr(), self.rows.len(), self.store.as_mut_ptr(),
                self.store.len(), self.free.as_mut_ptr(), self.free.len(), self.ready.as_mut_ptr(), self.ready.len(),
                self.owners.as_mut_ptr(), self.owners.len(), self.pool.as_mut_ptr(), self.pool.len(),
                self.out.as_mut_ptr(),
            );
        }
    }

    /// `depth` writes are submitted, their pieces answered one at a time in order, and their completions taken.
    pub fn round(&mut self, depth: u64, offset: u64, length: u64, pieces: u64) {
        for i in 0..depth {
            self.request[4] = offset;
            self.request[5] = i;
            self.request[6] = length;
            self.request[8] = i;
            self.write();
            assert_eq!(self.out[0], PIECE, "accepted: {:?}", self.out);
            self.tags[i as usize] = self.out[1];
        }
        for piece in 1..=pieces {
            for i in 0..depth {
                self.answer(self.tags[i as usize], length / pieces);
                assert_eq!(self.out[0], if piece < pieces { PIECE } else { DONE }, "{:?}", self.out);
            }
        }
        for i in 0..depth {
            self.take();
            assert!(self.out[0] == TOOK && self.out[1] == i, "{:?}", self.out);
        }
    }
}

/// Turns `bytes` left by `k`.
pub fn turn(bytes: &mut [u8], k: usize) {
    // SAFETY: the pointer and the length are the slice's own.
    unsafe { table_turn(bytes.as_mut_ptr(), bytes.len(), bytes.len(), k) }
}
