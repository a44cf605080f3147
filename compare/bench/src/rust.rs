//! The Rust's side: a `Submitter` of the folder over a queue that keeps the pieces in order and, when it is reaped,
//! answers the oldest in full.

use std::collections::VecDeque;

use compare::buf::IoBuf;
use compare::card::{QueueOnly, Sleeper};
use compare::completion::{SubmitterConfig, WriteMode};
use compare::id::{Generation, RegionId, VolumeId};
use compare::opening::{Opening, build_on};
use compare::platform::{Completion, CompletionBuf, IoOp, Queue, RawResult, Rejected};
use compare::receipt::RegionPos;
use compare::region::PageRegion;
use compare::submitter::Submitter;

/// The pieces under way, oldest first.
#[derive(Debug, Default)]
pub struct InOrder {
    under_way: VecDeque<(u64, IoBuf)>,
}

impl Queue for InOrder {
    type File = ();
    type Waker = Sleeper;

    fn submit(&mut self, op: IoOp<'_, ()>, tag: u64) -> Result<(), Rejected> {
        let (IoOp::Write { buf, .. } | IoOp::Read { buf, .. }) = op else {
            unreachable!("flushes are not submitted here")
        };
        self.under_way.push_back((tag, buf));
        Ok(())
    }

    fn reap(&mut self, out: &mut CompletionBuf) -> usize {
        let Some((tag, buf)) = self.under_way.pop_front() else { return 0 };
        let result = Ok(buf.len());
        out.push(Completion { tag, buf: Some(buf), result }).expect("one answer at a time");
        1
    }

    fn wait(&mut self, _min: usize, out: &mut CompletionBuf) -> RawResult<usize> {
        Ok(self.reap(out))
    }

    fn in_flight(&self) -> usize {
        self.under_way.len()
    }

    fn waker(&self) -> Sleeper {
        Sleeper
    }
}

/// The platform.
type Bench = QueueOnly<InOrder>;

/// A table of the Rust, and the buffers that the host holds.
pub struct RustTable {
    submitter: Submitter<Bench>,
    region: PageRegion<Bench>,
    pos: RegionPos,
    held: Vec<Option<IoBuf>>,
}

impl RustTable {
    pub fn open(opening: &Opening) -> Self {
        let (store, regions) = build_on(Bench::new(), opening);
        let config = SubmitterConfig::default().with_depth(opening.open.depth as u32);
        let submitter = store.submitter(config).expect("any queue can be made");
        let take = |_| Some(submitter.take_buf(0).expect("the pool's own count"));
        let held = (0..opening.open.buffers).map(take).collect();
        let own = &opening.regions[0];
        let pos = RegionPos {
            volume: VolumeId::of(opening.open.volume),
            region: RegionId(own.id),
            generation: Generation(own.generation),
            offset: 0,
        };
        let region = regions.into_iter().next().expect("one region");
        Self { submitter, region, pos, held }
    }

    /// `depth` writes are submitted, their pieces answered one at a time in order, and their completions taken.
    pub fn round(&mut self, depth: u64, offset: u64, length: u64, pieces: u64) {
        for i in 0..depth {
            let mut buf = self.held[i as usize].take().expect("the host holds it");
            buf.set_len(length as usize);
            let pos = RegionPos { offset, ..self.pos };
            self.submitter.write(&self.region, pos, buf, WriteMode::Plain, i).expect("accepted");
        }
        for _ in 1..depth * pieces {
            drop(self.submitter.reap());
        }
        // The last answer, and all completions with it, as a host of the Rust takes them.
        let mut taken = 0;
        for done in self.submitter.reap() {
            let buf = done.buf.expect("its buffer");
            let place = buf.index() as usize;
            self.held[place] = Some(buf);
            taken += 1;
        }
        assert_eq!(taken, depth);
    }
}
