//! Stand-in for store_io_buf, written from document 01: "a pool of equal buffers", "Is the buffer in the pool, its
//! length within capacity? No: 2 ForeignBuffer", "Owned `IoBuf`: a buffer number with the pool". A buffer knows its
//! number and its pool; a buffer of no pool has a length and no memory, so that a request may name it. The waiting
//! words of the flush domain never wait: "Left out: ... `wait` and other blocking, wakers".

use std::ops::{Deref, DerefMut};
use std::sync::Mutex;
use std::sync::atomic::{AtomicU32, AtomicU64, Ordering};

/// Pools are told apart by this number; 0 is no pool.
static POOLS: AtomicU64 = AtomicU64::new(1);

pub struct IoBuf {
    pool: u64,
    index: u64,
    len: usize,
    bytes: Vec<u8>,
}

impl std::fmt::Debug for IoBuf {
    fn fmt(&self, f: &mut std::fmt::Formatter<'_>) -> std::fmt::Result {
        write!(f, "IoBuf({}, {})", self.index, self.len)
    }
}

impl IoBuf {
    /// A buffer of no pool: a length, and no memory that could be touched.
    pub fn foreign(len: usize) -> Self {
        Self { pool: 0, index: u64::MAX, len, bytes: Vec::new() }
    }

    /// The buffer's number in its pool.
    pub fn index(&self) -> u64 {
        self.index
    }

    pub fn len(&self) -> usize {
        self.len
    }

    pub fn capacity(&self) -> usize {
        self.bytes.len()
    }

    /// Sets the length; false, and nothing changed, above the capacity.
    pub fn set_len(&mut self, len: usize) -> bool {
        let fits = len <= self.bytes.len();
        if fits {
            self.len = len;
        }
        fits
    }

    pub fn as_slice(&self) -> &[u8] {
        &self.bytes[..self.len]
    }

    pub fn as_mut_slice(&mut self) -> &mut [u8] {
        &mut self.bytes[..self.len]
    }

    pub fn as_mut_capacity(&mut self) -> &mut [u8] {
        &mut self.bytes
    }

    /// All bytes of the capacity.
    pub fn all(&self) -> &[u8] {
        &self.bytes
    }

    pub fn as_ptr(&self) -> *const u8 {
        self.bytes.as_ptr()
    }
}

#[derive(Debug, Clone)]
pub struct ClassSpec {
    pub size: usize,
    pub count: u32,
}

#[derive(Debug, Clone)]
pub struct PoolConfig {
    pub classes: Vec<ClassSpec>,
}

impl PoolConfig {
    pub fn uniform(_align: usize, _min: usize, max: usize, count: u32) -> Self {
        Self { classes: vec![ClassSpec { size: max, count }] }
    }
}

#[derive(Debug)]
pub struct BufPool {
    id: u64,
    capacity: usize,
    free: Mutex<Vec<IoBuf>>,
}

impl BufPool {
    /// The pool of the last class: buffers of zeros, numbered from 0.
    pub fn new(cfg: &PoolConfig) -> Result<Self, ()> {
        let class = cfg.classes.last().ok_or(())?;
        let id = POOLS.fetch_add(1, Ordering::Relaxed);
        let made = |index| IoBuf { pool: id, index, len: 0, bytes: vec![0; class.size] };
        let free = (0..u64::from(class.count)).rev().map(made).collect();
        Ok(Self { id, capacity: class.size, free: Mutex::new(free) })
    }

    pub fn owns(&self, buf: &IoBuf) -> bool {
        buf.pool == self.id
    }

    pub fn max_len(&self) -> usize {
        self.capacity
    }

    /// The lowest numbered free buffer.
    pub fn take(&self, len: usize) -> Result<IoBuf, ()> {
        let mut free = self.free.lock().map_err(|_| ())?;
        let mut buf = free.pop().ok_or(())?;
        if buf.set_len(len) {
            return Ok(buf);
        }
        free.push(buf);
        Err(())
    }

    pub fn take_within(&self, len: usize, _most: usize) -> Result<IoBuf, ()> {
        self.take(len)
    }
}

#[derive(Debug)]
pub struct CachePadded<T>(T);

impl<T> CachePadded<T> {
    pub fn new(value: T) -> Self {
        Self(value)
    }
}

impl<T> Deref for CachePadded<T> {
    type Target = T;

    fn deref(&self) -> &T {
        &self.0
    }
}

impl<T> DerefMut for CachePadded<T> {
    fn deref_mut(&mut self) -> &mut T {
        &mut self.0
    }
}

#[derive(Debug)]
pub struct WaitWord(AtomicU32);

impl WaitWord {
    pub fn new() -> Self {
        Self(AtomicU32::new(0))
    }

    pub fn load(&self) -> u32 {
        self.0.load(Ordering::SeqCst)
    }

    pub fn bump(&self) {
        self.0.fetch_add(1, Ordering::SeqCst);
    }

    pub fn wait(&self, _seen: u32) {
        std::thread::yield_now();
    }

    pub fn wake_all(&self) {}
}
