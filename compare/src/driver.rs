//! Drives a `Submitter` of the folder by the calls of a trace and gives their replies.
//!
//! A piece that the queue refuses is refused inside `Queue::submit`, so a call that issues a piece is told beforehand
//! whether the piece is refused; the refusal's own reply waits for the line that says so. What the Rust cannot
//! express, or what lies outside the domain of comparison, ends in `Outside`.

use std::collections::BTreeSet;
use std::sync::atomic::Ordering;

use crate::buf::IoBuf;
use crate::card::{Card, CardQueue, Piece, Refusal};
use crate::completion::{Rejected, SubmitterConfig, WriteMode};
use crate::error::{Error, ErrorContext, NotWrittenCause};
use crate::flusher::Flushed;
use crate::id::{Generation, RegionId, VolumeId};
use crate::lines::{Answer, Call, Flush, Form, Place, Submission};
use crate::opening::{Opening, build};
use crate::optable::Table;
use crate::receipt::RegionPos;
use crate::region::PageRegion;
use crate::replies;
use crate::store::Store;
use crate::submitter::Submitter;

/// Why a line has no reply.
#[derive(Debug, Clone, PartialEq)]
pub enum Stop {
    /// A line that TRACE.md calls bad.
    Bad,
    /// A line outside the domain of comparison, or one the Rust cannot express.
    Outside(&'static str),
}

use Stop::{Bad, Outside};

/// What the Rust gets besides the domain of comparison.
#[derive(Debug, Clone, Copy, PartialEq)]
pub enum Reach {
    /// Nothing: such a line is outside.
    Domain,
    /// A write off the block, handed over with a length off the block: `check` tests no write's offset, but says 9 to its
    /// length, at the same place among its questions and with the same context.
    OffBlock,
    /// Writes off the block, answers that document 01 turns away by 14 to 16, and runs that continue, all as they are.
    Beyond,
}

/// A submitter and the host above it.
pub struct Driver {
    submitter: Submitter<Card>,
    store: Store<Card>,
    regions: Vec<PageRegion<Card>>,
    opening: Opening,
    /// The buffers that the host holds, by number.
    held: Vec<Option<IoBuf>>,
    /// The rows that await a flush result, by queue tag.
    flushing: BTreeSet<u64>,
    /// The flush count last given.
    flushes: u64,
    /// Submissions accepted.
    accepted: u64,
    /// The tag of a refused piece and the reply its line gets.
    refused: Option<(u64, String)>,
    reach: Reach,
}

impl Driver {
    /// Opens a table; the opening keeps document 01's rules.
    pub fn new(opening: Opening, reach: Reach) -> Result<Self, Stop> {
        if !opening.keeps_rules() {
            return Err(Outside("the opening breaks a rule (13)"));
        }
        if opening.regions.iter().any(|r| r.continues()) && reach != Reach::Beyond {
            return Err(Outside("a run that continues the one before on the card is joined to it"));
        }
        let (store, regions) = build(&opening);
        let depth = opening.open.depth as u32;
        let config = SubmitterConfig::default().with_depth(depth);
        let submitter = store.submitter(config).expect("the card makes any queue");
        let take = |_| Some(submitter.take_buf(0).expect("the pool's own count"));
        let held = (0..opening.open.buffers).map(take).collect();
        let (flushing, refused) = (BTreeSet::new(), None);
        Ok(Self { submitter, store, regions, opening, held, flushing, flushes: 0, accepted: 0, refused, reach })
    }

    pub fn opening(&self) -> &Opening {
        &self.opening
    }

    pub(crate) fn table(&self) -> &Table {
        &self.submitter.core().table
    }

    pub fn queue(&self) -> &CardQueue {
        &self.submitter.core().queue
    }

    /// The rows that await a flush result.
    pub fn flushing(&self) -> Vec<u64> {
        self.flushing.iter().copied().collect()
    }

    /// Whether the host holds a buffer.
    pub fn holds(&self, buffer: u64) -> bool {
        self.held.get(buffer as usize).is_some_and(Option::is_some)
    }

    /// Whether a piece was refused whose refusal has not had its line.
    pub fn refusal_pending(&self) -> bool {
        self.refused.is_some()
    }

    fn beyond(&self) -> bool {
        self.reach == Reach::Beyond
    }

    fn queue_mut(&mut self) -> &mut CardQueue {
        &mut self.submitter.core_mut().queue
    }

    /// Makes a call; `refusal` awaits the piece that it issues.
    pub fn call(&mut self, call: &Call, refusal: Option<Refusal>) -> Result<String, Stop> {
        match call {
            Call::Submit(s) => self.submit(s, refusal),
            Call::Answer(a) => self.answer(a, refusal),
            Call::Flush(qtag, result) => self.flush(*qtag, *result),
            Call::Take => Ok(self.take()),
            Call::Length => Err(Outside("another length of row memory (13)")),
            Call::Fill { buffer, at, length, seed } => self.fill(*buffer, *at, *length, *seed),
            Call::Sum { buffer, at, length } => self.sum(*buffer, *at, *length),
            Call::Writes => Ok(format!("writes {}", u8::from(self.table().writes_live()))),
            Call::Mark => Ok(format!("mark {}", self.table().mark_published())),
            Call::Rows => Ok(replies::rows(&self.table().generations(), &self.table().free_rows())),
            settings => self.set(settings),
        }
    }

    /// The settings and the report of poison.
    fn set(&self, call: &Call) -> Result<String, Stop> {
        let region = |handle: &u64| self.region(*handle).map(|r| r.state());
        match call {
            Call::Gate(handle, to) => region(handle)?.gate.set(*to),
            Call::ReadOnly(handle, flag) => region(handle)?.read_only.store(*flag, Ordering::SeqCst),
            Call::Force(handle, flag) => region(handle)?.force_sync.store(*flag, Ordering::SeqCst),
            Call::Poison(cause) => self.store.inner.domain.poison(*cause),
            _ => unreachable!("no setting"),
        }
        Ok("ok".to_owned())
    }

    fn region(&self, handle: u64) -> Result<&PageRegion<Card>, Stop> {
        let place = usize::try_from(handle).ok();
        place.and_then(|h| self.regions.get(h)).ok_or(Outside("an unknown handle"))
    }

    /// The handle, and what the position names.
    fn place(&self, s: &Submission) -> Place {
        let own = &self.opening.regions[0];
        let volume = self.opening.open.volume;
        s.at.unwrap_or(Place { handle: 0, volume, region: own.id, generation: own.generation })
    }

    /// Whether a request names a buffer of the pool with a length within its capacity.
    fn in_pool(&self, s: &Submission) -> bool {
        s.buffer < self.opening.open.buffers && s.length <= self.opening.open.capacity
    }

    /// The request's buffer, or one of no pool where the host has none to move.
    fn lend(&mut self, s: &Submission) -> IoBuf {
        let own = if self.in_pool(s) { self.held[s.buffer as usize].take() } else { None };
        let mut buf = own.unwrap_or_else(|| IoBuf::foreign(s.length as usize));
        buf.set_len(s.length as usize);
        buf
    }

    /// A buffer back with the host.
    fn give_back(&mut self, buf: Option<IoBuf>) -> Option<(u64, usize)> {
        let buf = buf?;
        let given = (buf.index(), buf.len());
        if let Some(place) = self.held.get_mut(buf.index() as usize) {
            *place = Some(buf);
        }
        Some(given)
    }

    /// A submission as the Rust gets it: document 02's P6 asks the offset of a write too, which `check` does not.
    fn on_block(&self, s: &Submission) -> Result<Submission, Stop> {
        let (block, capacity) = (self.opening.open.block, self.opening.open.capacity);
        let off = s.write && !s.position.is_multiple_of(block);
        match self.reach {
            Reach::Domain if off => Err(Outside("a write off the block (P6)")),
            // One byte less is off the block, not empty, and within the capacity as before.
            Reach::OffBlock if off && (1..=capacity).contains(&s.length) && s.length.is_multiple_of(block) => {
                Ok(Submission { length: s.length - 1, ..s.clone() })
            }
            _ => Ok(s.clone()),
        }
    }

    fn submit(&mut self, s: &Submission, refusal: Option<Refusal>) -> Result<String, Stop> {
        let s = &self.on_block(s)?;
        let place = self.place(s);
        let region = self.region(place.handle)?.clone();
        let held = self.holds(s.buffer);
        let buf = self.lend(s);
        self.queue_mut().refusal = refusal;
        let pos = RegionPos {
            volume: VolumeId::of(place.volume),
            region: RegionId(place.region),
            generation: Generation(place.generation),
            offset: s.position,
        };
        let mode = if s.durable { WriteMode::Durable } else { WriteMode::Plain };
        let result = match s.write {
            true => self.submitter.write(&region, pos, buf, mode, s.tag),
            false => self.submitter.read_page(&region, pos, buf, s.tag),
        };
        self.queue_mut().refusal = None;
        let seen = self.queue_mut().take_seen();
        // A piece that was issued went past every question.
        let away = result.as_ref().err().filter(|_| seen.is_none());
        self.inside(s, place, held, away)?;
        match (result, seen) {
            (Ok(()), Some(piece)) => Ok(self.issued(piece)),
            (Err(rejected), Some(piece)) => self.refused_first(piece, rejected),
            (Err(rejected), None) => self.turned_away(rejected),
            (Ok(()), None) => Err(Outside("the Rust accepted a submission and issued no piece")),
        }
    }

    /// Whether the reply is one that document 01 gives without its numbers 11 and 12.
    fn inside(&self, s: &Submission, place: Place, held: bool, away: Option<&Rejected>) -> Result<(), Stop> {
        let cause = match away {
            Some(Rejected { error: Error::NotWritten { cause, .. }, .. }) => Some(*cause),
            _ => None,
        };
        if cause == Some(NotWrittenCause::ForeignBuffer) && self.in_pool(s) && !held {
            return Err(Outside("the host does not hold the buffer (11)"));
        }
        let own = &self.opening.regions[place.handle as usize];
        let named = place.volume == self.opening.open.volume && place.region == own.id;
        let position = named && place.generation == own.generation;
        let before = matches!(cause, Some(NotWrittenCause::ForeignBuffer | NotWrittenCause::QueueFull))
            || !(s.write || position);
        if self.accepted >= self.opening.open.lifetime && !before {
            return Err(Outside("the lifetime is spent (12)"));
        }
        Ok(())
    }

    /// A piece under way.
    fn issued(&mut self, piece: Piece) -> String {
        self.accepted += 1;
        replies::piece(&piece)
    }

    /// A first piece that the queue refused: its own reply now, the refusal's with the refusal's line.
    fn refused_first(&mut self, piece: Piece, rejected: Rejected) -> Result<String, Stop> {
        let text = replies::refused(&rejected.error).ok_or(Outside("a refusal that has no reply"))?;
        let given = self.give_back(rejected.buf);
        self.refused = Some((piece.tag, text + &replies::buffer(given)));
        Ok(self.issued(piece))
    }

    fn turned_away(&mut self, rejected: Rejected) -> Result<String, Stop> {
        let text = replies::turned_away(&rejected.error);
        self.give_back(rejected.buf);
        text.ok_or(Outside("an error that has no number"))
    }

    fn answer(&mut self, a: &Answer, refusal: Option<Refusal>) -> Result<String, Stop> {
        self.flushes = a.flushes.unwrap_or(self.flushes);
        let result = match a.form {
            Form::Refused(_) => return self.refusal(a.qtag),
            Form::Count(count) => Ok(self.count(a.qtag, count)?),
            Form::Error(raw) => Err(raw),
        };
        if !self.queue().under_way.contains_key(&a.qtag) && !self.beyond() {
            return Err(Outside("the tag awaits no piece (14 or 15)"));
        }
        self.store.inner.domain.set_issued(self.flushes);
        self.queue_mut().refusal = refusal;
        self.queue_mut().answer(a.qtag, result, a.back);
        let replied = self.process(a.qtag);
        self.queue_mut().refusal = None;
        replied
    }

    /// The count, at most the piece.
    fn count(&self, qtag: u64, count: u64) -> Result<usize, Stop> {
        let piece = self.queue().under_way.get(&qtag).map(|p| p.buf.len() as u64);
        match piece {
            Some(most) if count > most && !self.beyond() => Err(Outside("a count above the piece (16)")),
            _ => usize::try_from(count).map_err(|_| Outside("a count wider than a length")),
        }
    }

    /// The line of a refusal, whose piece was refused when it was issued.
    fn refusal(&mut self, qtag: u64) -> Result<String, Stop> {
        match self.refused.take() {
            Some((tag, text)) if tag == qtag => Ok(text),
            _ => Err(Outside("a refusal that does not follow its piece")),
        }
    }

    /// Hands the queue's answers and the posted outcomes to the table, and says what became of `qtag`.
    fn process(&mut self, qtag: u64) -> Result<String, Stop> {
        let before = self.table().ready.len();
        drop(self.submitter.reap());
        let completed = self.table().ready.len() - before;
        let asked = self.submitter.take_asked();
        match (self.queue_mut().take_seen(), asked.as_slice(), completed) {
            (Some(piece), [], 0) if !piece.refused => Ok(replies::piece(&piece)),
            (Some(piece), [], 1) if piece.refused => {
                self.refused = Some((piece.tag, format!("done {}", piece.tag)));
                Ok(replies::piece(&piece))
            }
            (None, [(tag, need)], 0) => {
                self.flushing.insert(*tag);
                Ok(format!("flush {tag} {need}"))
            }
            (None, [], 1) => Ok(format!("done {qtag}")),
            (None, [], 0) if self.beyond() => Ok("nothing".to_owned()),
            _ => Err(Outside("the Rust did not do one thing")),
        }
    }

    fn flush(&mut self, qtag: u64, result: Flush) -> Result<String, Stop> {
        let outcome: Flushed = match result {
            Flush::Need(need) => Ok(need),
            Flush::Poisoned(first) => Err(Error::Poisoned { first }),
            Flush::Unknown(cause) => {
                let op = cause.op.ok_or(Outside("DurabilityUnknown always names an operation"))?;
                Err(Error::DurabilityUnknown { op, raw: cause.raw, ctx: ErrorContext::default() })
            }
        };
        if !self.flushing.remove(&qtag) {
            if !self.beyond() {
                return Err(Outside("the tag awaits no flush (14 or 15)"));
            }
            // A flush outcome that nobody asked for is looked at only when the table counts one more.
            self.submitter.core_mut().table.asked += 1;
        }
        self.submitter.post(qtag, outcome);
        self.process(qtag)
    }

    fn take(&mut self) -> String {
        let Some(mut completion) = self.submitter.reap().next() else {
            return "none".to_owned();
        };
        let text = replies::took(&completion);
        self.give_back(completion.buf.take());
        text
    }

    /// The bytes that the host may change: a buffer it holds, or a read's piece under way.
    fn changeable(&mut self, buffer: u64) -> Option<&mut [u8]> {
        let place = usize::try_from(buffer).ok()?;
        if self.holds(buffer) {
            return self.held[place].as_mut().map(IoBuf::as_mut_capacity);
        }
        let mut pieces = self.queue_mut().under_way.values_mut();
        let piece = pieces.find(|p| !p.write && p.buf.index() == buffer)?;
        Some(piece.buf.as_mut_slice())
    }

    fn fill(&mut self, buffer: u64, at: u64, length: u64, seed: u64) -> Result<String, Stop> {
        let bytes = self.changeable(buffer).ok_or(Bad)?;
        let range = range(at, length, bytes.len()).ok_or(Bad)?;
        for (byte, i) in bytes[range].iter_mut().zip(0u64..) {
            *byte = seed.wrapping_add(7 * i).wrapping_add(i / 256) as u8;
        }
        Ok("ok".to_owned())
    }

    /// A buffer wherever it is: with the host, under way, lost, in a completion or with a row that awaits its flush.
    fn find(&self, buffer: u64) -> Option<&IoBuf> {
        let queue = self.queue();
        let under_way = queue.under_way.values().map(|p| &p.buf);
        let completed = self.table().ready.iter().filter_map(|c| c.buf.as_ref());
        let with_rows = completed.chain(self.table().held_buffers());
        let mut all = self.held.iter().flatten().chain(under_way).chain(&queue.lost).chain(with_rows);
        all.find(|b| b.index() == buffer)
    }

    fn sum(&self, buffer: u64, at: u64, length: u64) -> Result<String, Stop> {
        if buffer >= self.opening.open.buffers {
            return Err(Bad);
        }
        let bytes = self.find(buffer).ok_or(Outside("the Rust let go of a buffer"))?.all();
        let range = range(at, length, bytes.len()).ok_or(Bad)?;
        Ok(replies::sum(&bytes[range]))
    }
}

/// A stretch within `whole` bytes.
fn range(at: u64, length: u64, whole: usize) -> Option<std::ops::Range<usize>> {
    let end = at.checked_add(length).filter(|end| *end <= whole as u64)?;
    Some(at as usize..end as usize)
}

impl Drop for Driver {
    /// Answers the flushes that are still asked for: the submitter's own drop waits for them.
    fn drop(&mut self) {
        for qtag in std::mem::take(&mut self.flushing) {
            self.submitter.post(qtag, Ok(0));
        }
    }
}
