//! Pseudo-random traces in the domain of comparison, or with writes off the block besides: an opening, then calls that
//! follow the Rust's own replies, so that every answer and flush result names a tag that awaits it.

use crate::card::{Refusal, UnderWay};
use crate::driver::{Driver, Reach};
use crate::error::{FirstCause, Op, OsError};
use crate::lines::{Answer, Call, Flush, Form, Open, Place, Region, Submission, call_text, open_text, region_text};
use crate::opening::Opening;

/// Splitmix64.
struct Dice(u64);

impl Dice {
    fn next(&mut self) -> u64 {
        self.0 = self.0.wrapping_add(0x9E37_79B9_7F4A_7C15);
        let x = (self.0 ^ (self.0 >> 30)).wrapping_mul(0xBF58_476D_1CE4_E5B9);
        let x = (x ^ (x >> 27)).wrapping_mul(0x94D0_49BB_1331_11EB);
        x ^ (x >> 31)
    }

    /// From `low` to `high`, both included.
    fn within(&mut self, low: u64, high: u64) -> u64 {
        low + self.next() % (high - low + 1)
    }

    fn percent(&mut self, of: u64) -> bool {
        self.next() % 100 < of
    }

    fn pick<T: Copy>(&mut self, list: &[T]) -> T {
        list[self.within(0, list.len() as u64 - 1) as usize]
    }

    /// Any number: small, at an end of the 64 bits, or anywhere.
    fn wide(&mut self) -> u64 {
        match self.within(0, 5) {
            0 => 0,
            1 => u64::MAX,
            2 => u64::MAX - 1,
            3 => self.next(),
            _ => self.within(1, 99),
        }
    }

    fn code(&mut self) -> u32 {
        match self.within(0, 4) {
            0 => 0,
            1 => u32::MAX,
            _ => self.within(1, 133) as u32,
        }
    }
}

/// How often things go wrong in a trace, in percent.
struct Mood {
    fail: u64,
    lose: u64,
    refuse: u64,
    wrong: u64,
    poison: u64,
    settings: u64,
    durable: u64,
    bad: u64,
}

impl Mood {
    fn draw(d: &mut Dice) -> Self {
        Self {
            fail: d.pick(&[0, 4, 30]),
            lose: d.pick(&[0, 2, 15]),
            refuse: d.pick(&[0, 5, 25]),
            wrong: d.pick(&[5, 20, 60]),
            poison: d.pick(&[0, 0, 2]),
            settings: d.pick(&[2, 8, 20]),
            durable: d.pick(&[0, 40, 90]),
            bad: d.pick(&[0, 0, 0, 5]),
        }
    }
}

/// A trace as it grows.
struct Drawing {
    dice: Dice,
    mood: Mood,
    driver: Driver,
    reach: Reach,
    lines: Vec<String>,
}

/// The longest runs and data of a region, in blocks.
const RUN: u64 = 6;

/// Regions with distinct ids, not yet on the card: their further runs have starts and no offsets.
fn regions(d: &mut Dice, block: u64) -> Vec<Region> {
    let mut list: Vec<Region> = Vec::new();
    for _ in 0..d.within(1, 3) {
        let id = [d.wide(), d.next(), d.next()].into_iter().find(|id| list.iter().all(|r| r.id != *id));
        let lengths: Vec<u64> = (0..=d.within(0, 4)).map(|_| d.within(1, RUN) * block).collect();
        let capacity = lengths.iter().sum();
        let mut start = 0;
        let starts = lengths.iter().map(|length| {
            start += length;
            (start, 0)
        });
        let runs: Vec<(u64, u64)> = starts.take(lengths.len() - 1).collect();
        let data = if d.percent(70) { capacity } else { d.within(0, capacity / block) * block };
        let generation = d.pick(&[0, 3, u64::from(u32::MAX), 77]);
        list.push(Region { id: id.expect("three ids"), generation, first: 0, capacity, data, runs });
    }
    list
}

/// Places every run on the card, in an order of its own; returns the end of the last.
fn place(d: &mut Dice, regions: &mut [Region], block: u64) -> u64 {
    let mut order: Vec<(usize, usize, u64)> = Vec::new();
    for (r, region) in regions.iter().enumerate() {
        order.extend(region.runs().iter().enumerate().map(|(run, at)| (r, run, at.2)));
    }
    for last in (1..order.len()).rev() {
        order.swap(last, d.within(0, last as u64) as usize);
    }
    let mut at = d.pick(&[0, block, 1 << 40, (1 << 63) - (1 << 24)]);
    let mut before = None;
    for (r, run, length) in order {
        // A run right after the one it continues would be joined to it in the Rust.
        let joined = run > 0 && before == Some((r, run - 1));
        at += d.within(u64::from(joined), 2) * block;
        match run {
            0 => regions[r].first = at,
            _ => regions[r].runs[run - 1].1 = at,
        }
        at += length;
        before = Some((r, run));
    }
    at
}

fn opening(d: &mut Dice) -> Opening {
    let block = d.pick(&[512, 512, 1024, 4096]);
    let mut regions = regions(d, block);
    let end = place(d, &mut regions, block);
    let open = Open {
        depth: d.within(1, 8),
        block,
        buffers: d.within(1, 9),
        capacity: d.within(1, 12) * block,
        lifetime: d.pick(&[1 << 62, 1 << 20, 5000]),
        card: end + d.within(0, 3) * 100,
        read_only: d.percent(5),
        flush_policy: d.percent(40),
        volume: d.wide(),
        class: d.wide(),
        label: d.wide(),
        epoch: d.wide(),
    };
    Opening { open, regions }
}

impl Drawing {
    fn new(seed: u64, reach: Reach) -> Self {
        let mut dice = Dice(seed);
        let mood = Mood::draw(&mut dice);
        let opening = opening(&mut dice);
        let mut lines = vec![format!("# drawn from seed {seed}"), open_text(&opening.open)];
        lines.extend(opening.regions.iter().map(region_text));
        lines.push("start".to_owned());
        let driver = Driver::new(opening, reach).expect("the drawn opening keeps the rules");
        Self { dice, mood, driver, reach, lines }
    }

    /// Makes a call and keeps its line; the refusal of its piece follows at once.
    fn make(&mut self, call: &Call, refusal: Option<Refusal>) {
        let reply = self.driver.call(call, refusal).unwrap_or_else(|stop| {
            panic!("{stop:?} at `{}` after\n{}", call_text(call), self.lines.join("\n"));
        });
        self.lines.push(call_text(call));
        let Some(refusal) = refusal.filter(|_| self.driver.refusal_pending()) else {
            return;
        };
        let tag = reply.split(' ').nth(1).expect("a piece has a tag");
        let qtag = tag.parse().expect("a tag is a number");
        let flushes = Some(self.dice.wide());
        let line = Call::Answer(Answer { qtag, flushes, back: refusal.back, form: Form::Refused(refusal.raw) });
        self.make(&line, None);
    }

    fn os_error(&mut self) -> OsError {
        OsError { code: self.dice.code(), media: self.dice.percent(40) }
    }

    /// A refusal of the next piece, now and then.
    fn refusal(&mut self) -> Option<Refusal> {
        if !self.dice.percent(self.mood.refuse) {
            return None;
        }
        let raw = if self.dice.percent(50) { Some(self.os_error()) } else { None };
        Some(Refusal { tag: None, raw, back: !self.dice.percent(self.mood.lose) })
    }

    fn cause(&mut self) -> FirstCause {
        let op = self.dice.pick(&[None, Some(Op::Read), Some(Op::Write), Some(Op::FlushData)]);
        let raw = self.dice.percent(60).then(|| OsError { code: self.dice.code(), media: false });
        FirstCause { op, raw }
    }

    /// A buffer that the host holds, from a drawn place on.
    fn held(&mut self) -> Option<u64> {
        let count = self.driver.opening().open.buffers;
        let from = self.dice.within(0, count - 1);
        (0..count).map(|i| (from + i) % count).find(|b| self.driver.holds(*b))
    }

    /// A position and a length, most often within the data.
    fn stretch(&mut self, region: &Region) -> (u64, u64) {
        let (block, capacity) = (self.driver.opening().open.block, self.driver.opening().open.capacity);
        let blocks = region.data / block;
        let most = blocks.min(capacity / block);
        if most == 0 || self.dice.percent(self.mood.wrong / 3) {
            let position = self.dice.pick(&[0, block, region.data, u64::MAX - block + 1, u64::MAX, 3]);
            let length = self.dice.pick(&[0, block, block / 2, capacity, 1]);
            return (position, length);
        }
        let length = self.dice.within(1, most);
        let position = self.dice.within(0, blocks - length);
        let shift = if self.dice.percent(15) { self.dice.within(1, block - 1) } else { 0 };
        (position * block + shift, length * block)
    }

    /// What a position names, right or wrong in one part.
    fn named(&mut self, handle: usize) -> Place {
        let region = &self.driver.opening().regions[handle];
        let (id, generation) = (region.id, region.generation);
        let volume = self.driver.opening().open.volume;
        let right = Place { handle: handle as u64, volume, region: id, generation };
        if !self.dice.percent(self.mood.wrong / 2) {
            return right;
        }
        match self.dice.within(0, 3) {
            0 => Place { volume: volume.wrapping_add(1), ..right },
            1 => Place { region: id.wrapping_sub(1), ..right },
            2 => Place { generation: (generation + 1) & 0xFFFF_FFFF, ..right },
            _ => Place { generation: generation + (1 << 32), ..right },
        }
    }

    fn submit(&mut self) {
        let handle = self.dice.within(0, self.driver.opening().regions.len() as u64 - 1) as usize;
        let region = self.driver.opening().regions[handle].clone();
        let place = self.named(handle);
        let (position, length) = self.stretch(&region);
        let (write, durable) = (self.dice.percent(55), self.dice.percent(self.mood.durable));
        let off = position % self.driver.opening().open.block;
        let position = if write && self.reach == Reach::Domain { position - off } else { position };
        let own = self.own(&place);
        let (buffer, length) = match !write && !own && self.dice.percent(30) {
            // Turned away before the buffer is asked after, whoever holds it.
            true => (self.dice.within(0, self.driver.opening().open.buffers - 1), length),
            false => self.buffer(length),
        };
        let short = handle == 0 && own && self.dice.percent(30);
        let tag = self.dice.wide();
        let at = if short { None } else { Some(place) };
        let call = Call::Submit(Submission { write, at, position, buffer, length, durable, tag });
        let refusal = self.refusal();
        self.make(&call, refusal);
    }

    /// Whether a place names its handle's own volume, region and generation.
    fn own(&self, place: &Place) -> bool {
        let region = &self.driver.opening().regions[place.handle as usize];
        let volume = place.volume == self.driver.opening().open.volume;
        volume && place.region == region.id && place.generation == region.generation
    }

    /// A buffer that the host holds, or one that question 2 turns away.
    fn buffer(&mut self, length: u64) -> (u64, u64) {
        let open = self.driver.opening().open.clone();
        let wrong = self.dice.percent(self.mood.wrong / 4);
        match self.held() {
            Some(buffer) if !wrong => (buffer, length),
            _ if self.dice.percent(50) => (open.buffers + self.dice.wide() % (1 << 62), length),
            _ => (self.dice.within(0, open.buffers - 1), open.capacity + 1 + self.dice.wide() % (1 << 62)),
        }
    }

    /// An answer to a piece under way: whole most often, else short, or an error.
    fn answer(&mut self, qtag: u64) {
        let under_way = &self.driver.queue().under_way[&qtag];
        let piece = under_way.buf.len() as u64;
        // A write that fails poisons, and a poisoned store takes no more writes.
        let odds = if under_way.write { self.mood.fail / 4 } else { self.mood.fail };
        let form = match self.dice.percent(odds) {
            false => Form::Count(piece),
            true if self.dice.percent(50) => Form::Count(self.dice.within(0, piece - 1)),
            true => Form::Error(self.os_error()),
        };
        let plain = matches!(form, Form::Count(_)) && self.dice.percent(40);
        let flushes = if plain { None } else { Some(self.dice.wide()) };
        let back = plain || !self.dice.percent(self.mood.lose);
        let refusal = self.refusal();
        self.make(&Call::Answer(Answer { qtag, flushes, back, form }), refusal);
    }

    fn flush(&mut self, qtag: u64) {
        let result = match self.dice.within(0, 5) {
            0 => Flush::Poisoned(self.cause()),
            1 => {
                let op = Some(self.dice.pick(&[Op::Read, Op::Write, Op::FlushData]));
                Flush::Unknown(FirstCause { op, ..self.cause() })
            }
            _ => Flush::Need(self.dice.wide()),
        };
        self.make(&Call::Flush(qtag, result), None);
    }

    fn setting(&mut self) {
        let handle = self.dice.within(0, self.driver.opening().regions.len() as u64 - 1);
        let call = match self.dice.within(0, 11) {
            0 => Call::Gate(handle, self.dice.within(1, 2) as u8),
            1..=4 => Call::Gate(handle, 0),
            5..=7 => Call::ReadOnly(handle, self.dice.percent(20)),
            _ => Call::Force(handle, self.dice.percent(50)),
        };
        self.make(&call, None);
    }

    /// The host writes where it may: a held buffer, or the piece of a read under way.
    fn fill(&mut self) {
        let reads = self.driver.queue().under_way.values().filter(|p| !p.write);
        let pieces: Vec<(u64, u64)> = reads.map(|UnderWay { buf, .. }| (buf.index(), buf.len() as u64)).collect();
        let held = self.held().map(|b| (b, self.driver.opening().open.capacity));
        let (buffer, most) = match held {
            Some(own) if pieces.is_empty() || self.dice.percent(40) => own,
            _ if pieces.is_empty() => return,
            _ => self.dice.pick(&pieces),
        };
        let at = if self.dice.percent(50) { 0 } else { self.dice.within(0, most - 1) };
        let length = if self.dice.percent(50) { most - at } else { self.dice.within(1, most - at) };
        let seed = self.dice.wide();
        self.make(&Call::Fill { buffer, at, length, seed }, None);
    }

    fn look(&mut self) {
        let (buffers, capacity) = (self.driver.opening().open.buffers, self.driver.opening().open.capacity);
        let call = match self.dice.within(0, 5) {
            0 => Call::Writes,
            1 => Call::Mark,
            2 => Call::Rows,
            _ => {
                let at = self.dice.within(0, capacity);
                let length = if self.dice.percent(50) { capacity - at } else { self.dice.within(0, capacity - at) };
                Call::Sum { buffer: self.dice.within(0, buffers - 1), at, length }
            }
        };
        self.make(&call, None);
    }

    /// A line that changes nothing: a comment, or one of another form.
    fn passed_over(&mut self) {
        let buffers = self.driver.opening().open.buffers;
        let line = match self.dice.within(0, 7) {
            0 => "# passed over".to_owned(),
            1 => String::new(),
            2 => "t 1".to_owned(),
            3 => "w 0 0 512 2 1".to_owned(),
            4 => "mark  ".to_owned(),
            5 => "a 0 18446744073709551616".to_owned(),
            6 => format!("sum {buffers} 0 0"),
            _ => "start".to_owned(),
        };
        self.lines.push(line);
    }

    fn step(&mut self) {
        let pieces: Vec<u64> = self.driver.queue().under_way.keys().copied().collect();
        let flushes = self.driver.flushing();
        // A submission without a buffer and a taking without a completion are rare.
        let (held, ready) = (self.held().is_some(), !self.driver.table().ready.is_empty());
        let (may_submit, may_take) = (held || self.dice.percent(20), ready || self.dice.percent(15));
        match self.dice.within(0, 99) {
            _ if self.dice.percent(self.mood.bad) => self.passed_over(),
            _ if self.dice.percent(self.mood.settings) => self.setting(),
            _ if self.dice.percent(self.mood.poison) => {
                let cause = self.cause();
                self.make(&Call::Poison(cause), None);
            }
            0..35 if may_submit => self.submit(),
            35..62 if !pieces.is_empty() => {
                let qtag = self.dice.pick(&pieces);
                self.answer(qtag);
            }
            62..70 if !flushes.is_empty() => {
                let qtag = self.dice.pick(&flushes);
                self.flush(qtag);
            }
            70..82 if may_take => self.make(&Call::Take, None),
            82..92 => self.fill(),
            92.. => self.look(),
            _ => {}
        }
    }

    /// Answers what is open, takes every completion and looks at everything.
    fn finish(&mut self) {
        while let Some(qtag) = self.driver.queue().under_way.keys().next_back().copied() {
            self.answer(qtag);
        }
        while let Some(qtag) = self.driver.flushing().first().copied() {
            self.flush(qtag);
        }
        while !self.driver.table().ready.is_empty() {
            self.make(&Call::Take, None);
        }
        let (buffers, length) = (self.driver.opening().open.buffers, self.driver.opening().open.capacity);
        for buffer in 0..buffers {
            self.make(&Call::Sum { buffer, at: 0, length }, None);
        }
        for call in [Call::Take, Call::Rows, Call::Mark, Call::Writes] {
            self.make(&call, None);
        }
    }
}

/// The trace of a seed.
pub fn draw(seed: u64, reach: Reach) -> String {
    let mut drawing = Drawing::new(seed, reach);
    for _ in 0..drawing.dice.within(30, 600) {
        drawing.step();
    }
    if drawing.dice.percent(80) {
        drawing.finish();
    }
    let mut text = drawing.lines.join("\n");
    text.push('\n');
    text
}
