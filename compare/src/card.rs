//! The platform below store-io: a card that does nothing by itself. Its queue notes each piece that is submitted,
//! keeps the piece's buffer, and hands back the answers that the host scripts.

use std::collections::BTreeMap;
use std::marker::PhantomData;
use std::path::Path;

use crate::buf::IoBuf;
use crate::error::OsError;
use crate::evidence::Evidence;
use crate::platform::{
    Completion, CompletionBuf, FileMode, FileName, IoOp, Platform, Queue, QueueConfig, RangeState, RawResult, Rejected,
    ReleaseHow, Wake,
};

/// A piece as the queue saw it.
#[derive(Debug, Clone, Copy)]
pub struct Piece {
    pub tag: u64,
    pub offset: u64,
    pub count: usize,
    pub buffer: u64,
    pub refused: bool,
}

/// A piece under way.
#[derive(Debug)]
pub struct UnderWay {
    pub write: bool,
    pub buf: IoBuf,
}

/// How the next piece is refused, where its tag is the one named, or whatever its tag.
#[derive(Debug, Clone, Copy)]
pub struct Refusal {
    pub tag: Option<u64>,
    pub raw: Option<OsError>,
    pub back: bool,
}

/// The queue of a submitter.
#[derive(Debug, Default)]
pub struct CardQueue {
    /// The pieces under way, by queue tag.
    pub under_way: BTreeMap<u64, UnderWay>,
    /// Buffers that did not come back, with their bytes as they lay.
    pub lost: Vec<IoBuf>,
    /// The refusal that awaits the next piece.
    pub refusal: Option<Refusal>,
    seen: Option<Piece>,
    answers: Vec<Completion>,
}

impl CardQueue {
    /// The piece submitted since the last look.
    pub fn take_seen(&mut self) -> Option<Piece> {
        self.seen.take()
    }

    /// Answers the piece of `tag`; without `back` its buffer stays here for ever.
    pub fn answer(&mut self, tag: u64, result: RawResult<usize>, back: bool) {
        let mut buf = self.under_way.remove(&tag).map(|piece| piece.buf);
        if !back {
            self.lost.extend(buf.take());
        }
        self.answers.push(Completion { tag, buf, result });
    }

    /// Refuses a piece.
    fn refuse(&mut self, refusal: Refusal, buf: IoBuf) -> Rejected {
        if refusal.back {
            return Rejected { buf: Some(buf), raw: refusal.raw };
        }
        self.lost.push(buf);
        Rejected { buf: None, raw: refusal.raw }
    }
}

impl Queue for CardQueue {
    type File = ();
    type Waker = Sleeper;

    fn submit(&mut self, op: IoOp<'_, ()>, tag: u64) -> Result<(), Rejected> {
        let (write, offset, buf) = match op {
            IoOp::Write { offset, buf, .. } => (true, offset, buf),
            IoOp::Read { offset, buf, .. } => (false, offset, buf),
            IoOp::FlushData { .. } => unreachable!("flushes are not submitted here"),
        };
        let refusal = self.refusal.take_if(|r| r.tag.is_none_or(|t| t == tag));
        let (count, buffer) = (buf.len(), buf.index());
        self.seen = Some(Piece { tag, offset, count, buffer, refused: refusal.is_some() });
        match refusal {
            Some(refusal) => Err(self.refuse(refusal, buf)),
            None => {
                self.under_way.insert(tag, UnderWay { write, buf });
                Ok(())
            }
        }
    }

    fn reap(&mut self, out: &mut CompletionBuf) -> usize {
        let answers = std::mem::take(&mut self.answers);
        let added = answers.len();
        for answer in answers {
            out.push(answer).expect("one answer at a time");
        }
        added
    }

    /// Only the submitter's drop waits; nothing more arrives then.
    fn wait(&mut self, _min: usize, _out: &mut CompletionBuf) -> RawResult<usize> {
        Err(OsError { code: 0, media: false })
    }

    fn in_flight(&self) -> usize {
        self.under_way.len()
    }

    fn waker(&self) -> Sleeper {
        Sleeper
    }
}

/// A waker that wakes nobody: nothing waits.
#[derive(Debug, Clone, Copy)]
pub struct Sleeper;

impl Wake for Sleeper {
    fn wake(&self) {}
}

/// A platform of which only the queue is used: its files, folders and locks are nothing.
#[derive(Debug)]
pub struct QueueOnly<Q>(PhantomData<fn() -> Q>);

impl<Q> QueueOnly<Q> {
    pub const fn new() -> Self {
        Self(PhantomData)
    }
}

impl<Q> Default for QueueOnly<Q> {
    fn default() -> Self {
        Self::new()
    }
}

/// The platform of the traces.
pub type Card = QueueOnly<CardQueue>;

/// Every call of the platform but `queue` belongs to opening and metadata.
fn left_out<T>() -> RawResult<T> {
    unimplemented!("files and metadata are left out")
}

impl<Q: Queue<File = ()> + Default + 'static> Platform for QueueOnly<Q> {
    type File = ();
    type Dir = ();
    type Lock = ();
    type Queue = Q;

    fn queue(&self, _cfg: QueueConfig) -> RawResult<Q> {
        Ok(Q::default())
    }
    fn monotonic_ms(&self) -> u64 {
        0
    }
    fn open_dir(&self, _path: &Path, _create: bool) -> RawResult<()> {
        left_out()
    }
    fn create_file(&self, _dir: &(), _name: &FileName) -> RawResult<()> {
        left_out()
    }
    fn open_file(&self, _dir: &(), _name: &FileName, _mode: FileMode) -> RawResult<()> {
        left_out()
    }
    fn rename_replace(&self, _dir: &(), _from: &FileName, _to: &FileName, _file: &()) -> RawResult<()> {
        left_out()
    }
    fn rename_noreplace(&self, _dir: &(), _from: &FileName, _to: &FileName, _file: &()) -> RawResult<()> {
        left_out()
    }
    fn unlink(&self, _dir: &(), _name: &FileName) -> RawResult<()> {
        left_out()
    }
    fn sync_dir(&self, _dir: &()) -> RawResult<()> {
        left_out()
    }
    fn lock_exclusive(&self, _file: &()) -> RawResult<()> {
        left_out()
    }
    fn lock_shared(&self, _file: &()) -> RawResult<()> {
        left_out()
    }
    fn set_len(&self, _file: &(), _len: u64) -> RawResult<()> {
        left_out()
    }
    fn allocate(&self, _file: &(), _len: u64) -> RawResult<()> {
        left_out()
    }
    fn allocate_range(&self, _file: &(), _offset: u64, _len: u64) -> RawResult<()> {
        left_out()
    }
    fn size(&self, _file: &()) -> RawResult<u64> {
        left_out()
    }
    fn release_range(&self, _file: &(), _offset: u64, _len: u64, _how: ReleaseHow) -> RawResult<()> {
        left_out()
    }
    fn range_state(&self, _file: &(), _offset: u64, _len: u64) -> RawResult<RangeState> {
        left_out()
    }
    fn flush_all(&self, _file: &()) -> RawResult<()> {
        left_out()
    }
    fn probe(&self, _dir: &(), _file: &()) -> RawResult<Evidence> {
        left_out()
    }
}
