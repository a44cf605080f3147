//! An opening: document 01's rules, and the store that is built from it.
//!
//! The rules are restated here, for the Rust has none of them. The store is the folder's own: its region maps are
//! grown by `RegionMap::extend`, its tables made by `Store::submitter`.

use std::sync::atomic::AtomicBool;
use std::sync::{Arc, Mutex, OnceLock};

use crate::buf::{BufPool, ClassSpec, PoolConfig};
use crate::card::Card;
use crate::class::{DurabilityClass, MissingSet, ReceiptLabel};
use crate::decide::{ClassDecision, DurableOpen};
use crate::domain::Domain;
use crate::evidence::Evidence;
use crate::exec::QueueSet;
use crate::gate::Gate;
use crate::id::{Generation, RegionId, VolumeId};
use crate::layout::Layout;
use crate::lines::{Open, Region};
use crate::meta::{RegionKind, RegionName, VolumeMeta};
use crate::observe::Observer;
use crate::platform::Platform;
use crate::region::PageRegion;
use crate::regionmap::RegionMap;
use crate::slots::PairRead;
use crate::space::Accounting;
use crate::store::{Inner, LiveRegion, Meta, Policy, Store, StoreOptions, StoreReport};

/// The lines of an opening.
#[derive(Debug, Clone, PartialEq)]
pub struct Opening {
    pub open: Open,
    pub regions: Vec<Region>,
}

impl Region {
    /// The runs: start, card offset, length over the capacity.
    pub fn runs(&self) -> Vec<(u64, u64, u64)> {
        let starts: Vec<(u64, u64)> = [(0, self.first)].iter().chain(&self.runs).copied().collect();
        let ends = starts[1..].iter().map(|run| run.0).chain([self.capacity]);
        starts.iter().zip(ends).map(|(run, end)| (run.0, run.1, end.saturating_sub(run.0))).collect()
    }

    /// Whether the region keeps the rules that concern it alone.
    fn keeps_rules(&self, block: u64, card: u64) -> bool {
        let whole = |n: u64| n.is_multiple_of(block);
        let numbers = self.generation < 1 << 32 && self.capacity > 0 && self.data <= self.capacity;
        let blocks = whole(self.first) && whole(self.capacity) && whole(self.data);
        let starts = self.runs.windows(2).all(|pair| pair[0].0 < pair[1].0);
        let inside = self.runs.iter().all(|run| run.0 > 0 && run.0 < self.capacity && whole(run.0) && whole(run.1));
        let fits = |run: &(u64, u64, u64)| run.1.checked_add(run.2).is_some_and(|end| end <= card);
        numbers && blocks && self.runs.len() <= 32 && starts && inside && self.runs().iter().all(fits)
    }

    /// Whether a run continues the one before it on the card: one run in the Rust, two in document 01.
    pub fn continues(&self) -> bool {
        self.runs().windows(2).any(|pair| pair[0].1.checked_add(pair[0].2) == Some(pair[1].1))
    }
}

impl Opening {
    /// Whether the opening keeps all rules of document 01's "Opening".
    pub fn keeps_rules(&self) -> bool {
        let o = &self.open;
        let block = o.block.is_power_of_two() && (512..=65_536).contains(&o.block);
        let pool = (1..=4096).contains(&o.buffers) && (1..=65_536).contains(&o.capacity);
        let numbers = (1..=4096).contains(&o.depth) && (1..=1 << 62).contains(&o.lifetime) && o.card < 1 << 63;
        let list = (1..=8).contains(&self.regions.len());
        block && pool && o.capacity.is_multiple_of(o.block) && numbers && list && self.regions_keep_rules()
    }

    fn regions_keep_rules(&self) -> bool {
        let ids: std::collections::BTreeSet<u64> = self.regions.iter().map(|r| r.id).collect();
        let each = self.regions.iter().all(|r| r.keeps_rules(self.open.block, self.open.card));
        ids.len() == self.regions.len() && each && !self.shares_a_byte()
    }

    /// Whether two runs share a card byte.
    fn shares_a_byte(&self) -> bool {
        let mut runs: Vec<(u64, u64)> = self.regions.iter().flat_map(|r| r.runs()).map(|r| (r.1, r.2)).collect();
        runs.sort_unstable();
        runs.windows(2).any(|pair| pair[0].0 + pair[0].1 > pair[1].0)
    }
}

/// The region's map: the first run, then the further ones as growths.
fn map(region: &Region) -> RegionMap {
    let runs = region.runs();
    let first = runs[0].2;
    let extent = [(region.first, first)];
    let map = RegionMap::from_extents(&extent, region.data.min(first)).with_room(runs.len() - 1);
    for run in &runs[1..] {
        map.extend(run.1, run.2);
    }
    map.publish_len(region.data);
    map
}

fn live(region: &Region) -> Arc<LiveRegion> {
    Arc::new(LiveRegion {
        id: RegionId(region.id),
        name: RegionName::new("region").expect("any name"),
        kind: RegionKind::Page,
        generation: Generation(region.generation),
        map: map(region),
        header_at: [0, 0],
        header: Mutex::new(PairRead),
        frontier: None,
        positioned: AtomicBool::new(false),
        gate: Gate::default(),
        force_sync: Arc::new(AtomicBool::new(false)),
        read_only: AtomicBool::new(false),
        superseded: false,
        foreign: false,
    })
}

fn meta() -> Meta {
    Meta {
        volume: VolumeMeta,
        volume_pair: PairRead,
        table_pair: PairRead,
        next_region_id: 0,
        entries: Vec::new(),
        container_len: 0,
        v2: None,
        unavailable: Vec::new(),
        repairs: Vec::new(),
    }
}

fn report(open: &Open) -> StoreReport {
    let decision = ClassDecision {
        class: DurabilityClass(open.class),
        label: ReceiptLabel(open.label),
        durable_open: DurableOpen::Allowed,
        reasons: 0,
        missing: MissingSet,
    };
    StoreReport {
        evidence: Evidence::default(),
        decision,
        block_size: open.block,
        table_capacity: 0,
        volume: VolumeId::of(open.volume),
        owner_generation: 0,
        read_only: open.read_only,
        io: Card::new().io_path(),
        unavailable: Vec::new(),
        format: 2,
        metadata: crate::v2::MetadataReport,
        flushes_in_flight: 1,
    }
}

/// The pool: equal buffers of zeros.
fn pool(open: &Open) -> BufPool {
    let class = ClassSpec { size: open.capacity as usize, count: open.buffers as u32 };
    BufPool::new(&PoolConfig { classes: vec![class] }).expect("a pool of one class")
}

fn inner<P>(platform: P, open: &Open, regions: &[Arc<LiveRegion>]) -> Inner<P>
where
    P: Platform<File = (), Dir = (), Lock = ()>,
    P::Queue: Send,
{
    Inner {
        queues: QueueSet::new(Vec::new(), 1),
        flusher: OnceLock::new(),
        platform,
        _dir: (),
        file: (),
        flush_files: Box::new([]),
        _lock: (),
        volume: VolumeId::of(open.volume),
        layout: Layout::v1(open.block.trailing_zeros() as u8, 14),
        policy: Policy {
            class: DurabilityClass(open.class),
            label: ReceiptLabel(open.label),
            dsync: !open.flush_policy,
            flush: open.flush_policy,
        },
        domain: Domain::new(),
        pool: pool(open),
        meta: Mutex::new(meta()),
        regions: Mutex::new(regions.to_vec()),
        report: report(open),
        frozen: AtomicBool::new(false),
        read_only: open.read_only,
        owner_generation: 0,
        opts: StoreOptions { register_file: false, ..StoreOptions::default() },
        ordinary: open.capacity as usize,
        chunk: open.capacity as usize,
        acct: Mutex::new(Accounting),
        epoch: open.epoch,
        observer: Observer,
        seen: Mutex::new(crate::stats::Seen),
        submitters: Mutex::new(crate::stats::Submitters),
    }
}

/// The store and its regions' handles, in order.
pub fn build(opening: &Opening) -> (Store<Card>, Vec<PageRegion<Card>>) {
    build_on(Card::new(), opening)
}

/// The same over another platform, whose files, like the card's, are nothing.
pub fn build_on<P>(platform: P, opening: &Opening) -> (Store<P>, Vec<PageRegion<P>>)
where
    P: Platform<File = (), Dir = (), Lock = ()>,
    P::Queue: Send,
{
    let regions: Vec<Arc<LiveRegion>> = opening.regions.iter().map(live).collect();
    let store = Store { inner: Arc::new(inner(platform, &opening.open, &regions)) };
    let handles = regions.into_iter().map(|state| PageRegion::from_parts(store.clone(), state)).collect();
    (store, handles)
}
