//! Event streams that know the state they meet.

use super::random::Random;
use crate::counts::{Cycles, Ticks};
use crate::kept::Kept;
use crate::scheduler::Scheduler;
use crate::sheet::Settings;
use crate::{RECORD, ROUND_ROBIN, THREADS};

pub const TICK: u8 = 1;
pub const CREATE: u8 = 2;
pub const READY: u8 = 3;
pub const BLOCK: u8 = 4;
pub const SET: u8 = 5;
pub const END: u8 = 6;
pub const RESUME: u8 = 7;

/// The fields of a record to be made.
#[derive(Clone, Copy, Default)]
struct Fields {
    kind: u8,
    thread: u8,
    partition: u8,
    priority: u8,
    stamp: u32,
    mask: u8,
    policy: u8,
}

impl Fields {
    fn bytes(self) -> [u8; RECORD] {
        let [s0, s1, s2, s3] = self.stamp.to_le_bytes();
        let Fields {
            kind,
            thread,
            partition,
            priority,
            mask,
            policy,
            ..
        } = self;
        [
            kind, thread, partition, priority, s0, s1, s2, s3, mask, policy, 0, 0,
        ]
    }
}

/// How time passes in a stretch of events.
#[derive(Clone, Copy, PartialEq)]
enum Pace {
    /// Every tick is one period long.
    Steady,
    /// Any length a tick may have.
    Loose,
    /// As long as a tick may be.
    Late,
    /// Charges that land on a limit or on another's fraction, or next to it.
    Aimed,
    /// Hardly any.
    Still,
}

/// Makes one case. What it has put is what the shadow has seen.
pub struct Maker {
    random: Random,
    shadow: Scheduler,
    events: Vec<u8>,
    /// How many events there shall be.
    length: usize,
    /// Thread numbers below this are used.
    crowd: u32,
    /// Priorities in use; few of them give ties.
    levels: Vec<u8>,
    /// Percent of threads whose mask leaves this core out.
    elsewhere: u32,
    /// Percent of threads that are round robin.
    in_turns: u32,
    /// Percent of events that are meant to be refused or damaged.
    faults: u32,
    pace: Pace,
    /// Fill the largest window as far as it goes, first of all.
    largest: bool,
}

impl Maker {
    pub fn new(mut random: Random, shadow: Scheduler) -> Maker {
        let length = match random.below(100) {
            0..=1 => random.below(4),
            2..=14 => random.range(4, 60),
            15..=91 => random.range(50, 400),
            92..=98 => random.range(400, 1500),
            _ => random.range(2500, 5000),
        } as usize;
        // With the largest numbers, often long enough to fill the window.
        let Settings { window, tick, .. } = *shadow.settings();
        let largest = window == Ticks(400) && tick == Cycles(999_900) && random.percent(60);
        let length = if largest { length.max(1000) } else { length };
        let crowd = match random.below(100) {
            0..=1 => 0,
            2..=4 => 1,
            5..=54 => random.range(2, 8),
            55..=84 => random.range(9, 24),
            85..=94 => random.range(25, 63),
            _ => 64,
        };
        // Mostly enough for a thread in every partition.
        let partitions = shadow.settings().partitions as u32;
        let crowd = if random.percent(60) {
            crowd.max(partitions + 1)
        } else {
            crowd
        };
        let levels = match random.below(5) {
            0 => vec![random.byte()],
            1 => vec![0, 255],
            2 => vec![10, 20, 30],
            3 => (0..8).map(|_| random.byte()).collect(),
            _ => (0..=255).collect(),
        };
        let elsewhere = random.pick(&[0, 0, 10, 10, 30, 60, 100]);
        let elsewhere = if elsewhere == 100 && random.percent(70) {
            10
        } else {
            elsewhere
        };
        let in_turns = random.pick(&[0, 30, 50, 80, 100]);
        let faults = random.pick(&[0, 0, 2, 5, 5, 10, 40]);
        Maker {
            random,
            shadow,
            events: Vec::with_capacity((length + 1) * RECORD),
            length,
            crowd,
            levels,
            elsewhere,
            in_turns,
            faults,
            pace: Pace::Loose,
            largest,
        }
    }

    /// The events.
    pub fn make(mut self) -> Vec<u8> {
        if self.random.percent(35) {
            self.resume();
        }
        self.settle();
        if self.largest {
            self.pace = Pace::Late;
            for _ in 0..self.random.range(300, 500) {
                self.put_kind(TICK);
            }
        }
        while !self.full() {
            self.pace = self.random.pick(&[
                Pace::Steady,
                Pace::Steady,
                Pace::Loose,
                Pace::Loose,
                Pace::Late,
                Pace::Aimed,
                Pace::Aimed,
                Pace::Still,
            ]);
            match self.random.below(100) {
                0..=22 => self.mixed(),
                23..=42 => self.busy(),
                43..=51 => self.peers(),
                52..=59 => self.wave(),
                60..=66 => self.reorder(),
                67..=77 => self.rivals(),
                78..=85 => self.places(),
                86..=89 => self.only_poor(),
                90..=94 => self.settle(),
                95..=97 => self.resume(),
                _ => self.clear_out(),
            }
        }
        self.spoil_end();
        self.events
    }

    fn full(&self) -> bool {
        self.events.len() >= self.length * RECORD
    }

    /// A cut last event, or, seldom, a byte lost somewhere.
    fn spoil_end(&mut self) {
        if self.random.percent(12) {
            let last = self.valid(TICK).unwrap_or_default().bytes();
            let cut = self.random.range(1, 11) as usize;
            self.events.extend_from_slice(&last[..cut]);
        } else if self.random.percent(1) && !self.events.is_empty() {
            let place = self.random.below(self.events.len() as u32) as usize;
            self.events.remove(place);
        }
    }

    // Stretches of events ---------------------------------------------------

    /// Creates threads and makes most of them ready, in mixed order: each
    /// soon after it is created, or all of them afterwards.
    fn settle(&mut self) {
        let some = self.random.below(self.crowd + 1);
        let many = if self.random.percent(60) {
            self.crowd
        } else {
            some
        };
        let readied = self.random.range(50, 100);
        let soon = self.random.percent(70);
        for _ in 0..many {
            self.put_kind(CREATE);
            if soon && self.random.percent(readied) {
                self.put_kind(READY);
            }
        }
        for _ in 0..many {
            if !soon && self.random.percent(readied) {
                self.put_kind(READY);
            }
        }
    }

    /// Everything, in any order.
    fn mixed(&mut self) {
        for _ in 0..self.random.range(10, 80) {
            let kind = match self.random.below(100) {
                0..=34 => TICK,
                35..=44 => CREATE,
                45..=67 => READY,
                68..=81 => BLOCK,
                82..=91 => SET,
                92..=98 => END,
                _ if self.random.percent(30) => RESUME,
                _ => TICK,
            };
            self.put_kind(kind);
        }
    }

    /// Ticks over up to three windows, with little else between them.
    fn busy(&mut self) {
        let window = self.shadow.settings().window.0;
        let room = (self.length - self.events.len() / RECORD) as u32;
        let ticks = self.random.range(window / 2, 3 * window).min(room);
        let between = self.random.pick(&[0, 0, 5, 30]);
        for _ in 0..ticks {
            while self.random.percent(between) {
                let kind = self.random.pick(&[READY, READY, BLOCK, BLOCK, SET, CREATE]);
                self.put_kind(kind);
            }
            self.put_kind(TICK);
            if self.full() {
                break;
            }
        }
    }

    /// A partition falls asleep, time passes, and it wakes.
    fn wave(&mut self) {
        let partition = self.random.below(self.shadow.settings().partitions as u32) as u8;
        let all_but = self.random.percent(25);
        let mut sleepers = 0;
        for t in bits(self.shadow.ready()) {
            if (self.shadow.partition_of(t) == partition) != all_but {
                sleepers |= 1_u64 << t;
                self.put_for(BLOCK, t);
            }
        }
        let window = self.shadow.settings().window.0;
        for _ in 0..self.random.range(0, 2 * window.min(30)) {
            self.put_kind(TICK);
        }
        for t in bits(sleepers & !self.shadow.ready() & self.shadow.existing()) {
            self.put_for(READY, t);
        }
    }

    /// Priorities change and threads step out of the line and back.
    fn reorder(&mut self) {
        for _ in 0..self.random.range(5, 30) {
            let kind = self
                .random
                .pick(&[SET, SET, SET, BLOCK, READY, READY, TICK]);
            self.put_kind(kind);
        }
    }

    /// Threads of one partition at one priority take turns: ticks, some of
    /// them of no time, and now and then something in the middle of a slice.
    fn rivals(&mut self) {
        let priority = self.random.pick(&self.levels);
        self.gather(&[priority]);
        let between = self.random.pick(&[0, 10, 30]);
        for _ in 0..self.random.range(4, 30) {
            if self.random.percent(between) {
                self.disturb(priority);
            }
            self.tick();
        }
    }

    /// Threads of one partition go up and down between two priorities, and
    /// slices end among them: where each stands in the line tells who runs.
    fn places(&mut self) {
        let levels = [0; 2].map(|_| self.random.pick(&self.levels));
        let partition = self.gather(&levels);
        for _ in 0..self.random.range(5, 40) {
            match self.random.below(10) {
                0..=4 => self.shift(partition),
                5 => {
                    let kind = self.random.pick(&[READY, BLOCK]);
                    self.put_kind(kind);
                }
                _ => self.tick(),
            }
        }
    }

    /// Threads of one priority in many partitions, often with nothing used by
    /// anybody, so that ties are frequent: then events that leave a tie, most of
    /// them of no time, and others that end it and bring it back.
    fn peers(&mut self) {
        let priority = self.random.pick(&self.levels);
        self.pace = self
            .random
            .pick(&[Pace::Still, Pace::Still, Pace::Aimed, Pace::Steady]);
        for _ in 0..self.random.range(0, 3) {
            self.put_peer(priority);
        }
        for t in bits(self.shadow.existing()) {
            if self.random.percent(70) {
                self.level(t, priority);
            }
        }
        if self.random.percent(50) {
            self.resume();
        }
        for _ in 0..self.random.range(5, 40) {
            self.among_peers(priority);
        }
    }

    /// A new thread of this priority, if there can be one, in the line: often
    /// in a partition that has another, so that one of the two can leave.
    fn put_peer(&mut self, priority: u8) {
        let beside = self.random.bit(self.shadow.existing());
        let Some(mut fields) = self.valid(CREATE) else {
            return;
        };
        fields.priority = priority;
        if let (Some(t), true) = (beside, self.random.percent(60)) {
            fields.partition = self.shadow.partition_of(t);
        }
        self.put(fields);
        self.put_now(READY, fields.thread);
    }

    /// An event among peers: mostly one that befalls the running thread.
    fn among_peers(&mut self, priority: u8) {
        let existing = self.shadow.existing();
        let ready = self.shadow.ready();
        let running = match self.shadow.running() {
            t if usize::from(t) < THREADS => Some(t),
            _ => self.random.bit(ready),
        };
        match (self.random.below(20), running) {
            (0..=4, _) => self.put_now(TICK, 0),
            (5..=7, _) => self.put_kind(TICK),
            (8..=9, Some(t)) => self.put_now(BLOCK, t),
            (10, Some(t)) => self.put_for(BLOCK, t),
            (11, Some(t)) => self.put_now(END, t),
            (12, Some(t)) => {
                let other = self.random.byte();
                let near = [
                    priority.saturating_add(1),
                    priority.saturating_sub(1),
                    other,
                ];
                let priority = self.random.pick(&near);
                self.level(t, priority);
            }
            (13, _) => self.put_peer(priority),
            (14, _) => self.resume(),
            (15, _) => self.put_kind(READY),
            _ => match self.random.bit(existing) {
                Some(t) => self.level(t, priority),
                None => self.put_peer(priority),
            },
        }
    }

    /// Some threads more for one partition, and most of its threads in the line
    /// with one of these priorities. Which partition it is comes back.
    fn gather(&mut self, levels: &[u8]) -> u8 {
        let partition = match self.random.bit(self.shadow.existing()) {
            Some(t) => self.shadow.partition_of(t),
            None => self.home(),
        };
        for _ in 0..self.random.range(1, 3) {
            if let Some(fields) = self.valid(CREATE) {
                let priority = self.random.pick(levels);
                self.put(Fields {
                    partition,
                    priority,
                    ..fields
                });
            }
        }
        for t in bits(self.of_partition(partition)) {
            if self.random.percent(80) {
                let priority = self.random.pick(levels);
                self.level(t, priority);
            }
        }
        partition
    }

    /// The threads of a partition.
    fn of_partition(&self, partition: u8) -> u64 {
        bits(self.shadow.existing())
            .filter(|&t| self.shadow.partition_of(t) == partition)
            .fold(0, |set, t| set | 1 << t)
    }

    /// A tick, now and then one that is seldom whole.
    fn tick(&mut self) {
        if self.random.percent(20) {
            self.put_for(TICK, 0);
        } else {
            self.put_kind(TICK);
        }
    }

    /// A new priority for the running thread, for one of this partition, ready
    /// or not, or for any: mostly that of a ready one beside it in its own
    /// partition, else the one it has, or next to that.
    fn shift(&mut self, partition: u8) {
        let own = self.of_partition(partition);
        let ready = self.shadow.ready();
        let thread = match (self.random.below(10), self.shadow.running()) {
            (0..=2, running) if usize::from(running) < THREADS => Some(running),
            (0..=7, _) => self.random.bit(own & ready),
            (8, _) => self.random.bit(own & !ready),
            _ => self.random.bit(self.shadow.existing()),
        };
        let Some(thread) = thread else {
            return self.put_kind(READY);
        };
        let beside = self.of_partition(self.shadow.partition_of(thread)) & ready;
        let other = self.random.bit(beside & !(1 << thread)).unwrap_or(thread);
        let [old, like] = [thread, other].map(|t| self.priority_of(t));
        let priority = match self.random.below(8) {
            0..=4 => like,
            5 => old,
            6 => old.saturating_add(1),
            _ => old.saturating_sub(1),
        };
        let stamp = self.stamp(false);
        self.put(Fields {
            kind: SET,
            thread,
            priority,
            stamp,
            ..Fields::default()
        });
    }

    fn priority_of(&self, thread: u8) -> u8 {
        let record = self.shadow.thread(thread.into());
        record.map_or(0, |record| record.priority)
    }

    /// Gives a thread this priority and makes it ready.
    fn level(&mut self, thread: u8, priority: u8) {
        let stamp = self.shadow.stamp();
        self.put(Fields {
            kind: SET,
            thread,
            priority,
            stamp,
            ..Fields::default()
        });
        if self.shadow.ready() & 1 << thread == 0 {
            self.put_for(READY, thread);
        }
    }

    /// Something that may befall a thread in the middle of its slice, mostly
    /// the running one: a new priority, which may be the old one, or higher
    /// ones of others; a block, with a ready soon after it; a resume.
    fn disturb(&mut self, priority: u8) {
        let ready = self.shadow.ready();
        let running = match self.shadow.running() {
            t if usize::from(t) < THREADS && self.random.percent(70) => Some(t),
            _ => self.random.bit(ready),
        };
        let Some(thread) = running else {
            return self.put_kind(READY);
        };
        match self.random.below(8) {
            0..=1 => self.level(thread, priority),
            2 => self.put_kind(SET),
            3..=4 => {
                self.put_for(BLOCK, thread);
                if self.random.percent(60) {
                    self.put_for(READY, thread);
                }
            }
            5 => self.put_kind(READY),
            6 => self.put_kind(END),
            _ => self.resume(),
        }
    }

    /// Leaves only partitions without a share in the line, if there are any
    /// with threads.
    fn only_poor(&mut self) {
        let poor = |shadow: &Scheduler, t: u8| {
            shadow.account(usize::from(shadow.partition_of(t))).0 == Cycles(0)
        };
        if !bits(self.shadow.existing()).any(|t| poor(&self.shadow, t)) {
            return self.mixed();
        }
        for t in bits(self.shadow.ready()) {
            if !poor(&self.shadow, t) {
                self.put_for(BLOCK, t);
            }
        }
        for _ in 0..self.random.range(1, 10) {
            self.put_kind(TICK);
        }
        for _ in 0..self.random.range(1, 10) {
            self.put_kind(READY);
        }
    }

    /// Ends most threads, so that numbers are used again.
    fn clear_out(&mut self) {
        for t in bits(self.shadow.existing()) {
            if self.random.percent(80) {
                self.put_for(END, t);
            }
        }
        if self.random.percent(80) {
            self.settle();
        }
    }

    /// A resume at any stamp, often shortly before the counter wraps.
    fn resume(&mut self) {
        let stamp = self.resume_stamp();
        self.put(Fields {
            kind: RESUME,
            stamp,
            ..Fields::default()
        });
    }

    fn resume_stamp(&mut self) -> u32 {
        let tick = self.shadow.settings().tick.0;
        match self.random.below(6) {
            0 => 0,
            1 => u32::MAX,
            2..=3 => 0_u32.wrapping_sub(self.random.below(8 * tick)),
            4 => self.shadow.stamp(),
            _ => self.random.next() as u32,
        }
    }

    // Single events ---------------------------------------------------------

    /// Puts an event of the kind, or a tick where the kind can't be, and now
    /// and then a fault before it.
    fn put_kind(&mut self, kind: u8) {
        if self.random.percent(self.faults) {
            self.put_fault();
        }
        // A clock that has stood long gets its tick.
        let since = self.shadow.since_tick();
        let tick = self.shadow.settings().tick;
        let kind = if since > tick && self.random.percent(30) {
            TICK
        } else {
            kind
        };
        let fields = match self.valid(kind) {
            Some(fields) => fields,
            None => match kind {
                CREATE | READY if self.crowd > 0 && self.random.percent(50) => self
                    .valid(BLOCK)
                    .or_else(|| self.valid(TICK))
                    .unwrap_or_default(),
                BLOCK if self.crowd > 0 && self.random.percent(70) => self
                    .valid(READY)
                    .or_else(|| self.valid(TICK))
                    .unwrap_or_default(),
                _ => self.valid(TICK).unwrap_or_default(),
            },
        };
        self.put(fields);
    }

    /// Puts a ready, block or end of a certain thread, or a tick that is seldom
    /// a whole one.
    fn put_for(&mut self, kind: u8, thread: u8) {
        let stamp = self.stamp(false);
        self.put(Fields {
            kind,
            thread,
            stamp,
            ..Fields::default()
        });
    }

    /// The same without any time.
    fn put_now(&mut self, kind: u8, thread: u8) {
        let stamp = self.shadow.stamp();
        self.put(Fields {
            kind,
            thread,
            stamp,
            ..Fields::default()
        });
    }

    fn put(&mut self, fields: Fields) {
        self.put_bytes(fields.bytes());
    }

    fn put_bytes(&mut self, record: [u8; RECORD]) {
        if !self.full() {
            self.shadow.event(&record);
            self.events.extend_from_slice(&record);
        }
    }

    /// An event of the kind that will be accepted, if there can be one.
    fn valid(&mut self, kind: u8) -> Option<Fields> {
        let stamp = match kind {
            RESUME => self.resume_stamp(),
            _ => self.stamp(kind == TICK),
        };
        let mut fields = Fields {
            kind,
            stamp,
            ..Fields::default()
        };
        let existing = self.shadow.existing();
        let ready = self.shadow.ready();
        let numbers = if self.crowd == 64 {
            u64::MAX
        } else {
            (1 << self.crowd) - 1
        };
        fields.thread = match kind {
            TICK | RESUME => 0,
            CREATE => self.random.bit(numbers & !existing)?,
            READY => self.random.bit(existing & !ready)?,
            BLOCK => self.random.bit(ready)?,
            // The line's priorities matter most.
            SET if ready != 0 && self.random.percent(80) => self.random.bit(ready)?,
            _ => self.random.bit(existing)?,
        };
        if kind == CREATE {
            fields.partition = self.home();
            fields.mask = self.mask();
            fields.policy = u8::from(self.random.percent(self.in_turns));
        }
        if kind == CREATE || kind == SET {
            fields.priority = self.random.pick(&self.levels);
        }
        Some(fields)
    }

    /// A partition for a new thread: often one that has a share and no
    /// thread yet, for only when all of those compete are there the modes
    /// underload and at limit.
    fn home(&mut self) -> u8 {
        let count = self.shadow.settings().partitions;
        if self.random.percent(60) {
            let mut empty = 0;
            for p in (0..count).filter(|&p| self.shadow.account(p).0 > Cycles(0)) {
                empty |= 1_u64 << p;
            }
            for t in bits(self.shadow.existing()) {
                empty &= !(1 << self.shadow.partition_of(t));
            }
            if let Some(p) = self.random.bit(empty) {
                return p;
            }
        }
        self.random.below(count as u32) as u8
    }

    fn mask(&mut self) -> u8 {
        let core = 1 << self.shadow.settings().core;
        if self.random.percent(self.elsewhere) {
            match self.random.byte() & !core {
                0 => !core,
                mask => mask,
            }
        } else {
            match self.random.below(3) {
                0 => core,
                1 => 255,
                _ => self.random.byte() | core,
            }
        }
    }

    // Time ------------------------------------------------------------------

    /// A stamp that will be accepted.
    fn stamp(&mut self, is_tick: bool) -> u32 {
        let elapsed = self.elapsed(is_tick);
        self.shadow.stamp().wrapping_add(elapsed)
    }

    /// How much more time there may be before the next tick.
    fn room(&self) -> u32 {
        2 * self.shadow.settings().tick.0 - self.shadow.since_tick().0
    }

    fn elapsed(&mut self, is_tick: bool) -> u32 {
        let tick = self.shadow.settings().tick.0;
        let room = self.room();
        let left = tick.saturating_sub(self.shadow.since_tick().0);
        match (self.pace, is_tick) {
            (Pace::Steady, true) => left,
            (Pace::Steady, false) if self.random.percent(60) => 0,
            (Pace::Steady, false) => self.random.range(0, left),
            (Pace::Loose, true) if self.random.percent(50) => left,
            (Pace::Loose, _) if self.random.percent(50) => self.random.range(0, left / 4),
            (Pace::Loose, _) => self.random.range(0, room),
            (Pace::Late, true) => room,
            (Pace::Late, false) => self.random.range(0, room / 8),
            (Pace::Aimed, _) => self
                .aimed(is_tick)
                .unwrap_or(if is_tick { left } else { 0 }),
            (Pace::Still, true) if self.random.percent(50) => left,
            (Pace::Still, _) => self.random.below(2).min(room),
        }
    }

    /// An elapsed after which the running partition stands at or next to a
    /// place where a decision tips over: what must remain in this edition of
    /// the budget test or in the other one, zero, or the fraction of another
    /// partition.
    fn aimed(&mut self, is_tick: bool) -> Option<u32> {
        let p = self.shadow.charged()?;
        let after = |shadow: &Scheduler, p: usize| {
            let (budget, used, leaving) = shadow.account(p);
            (
                i64::from(budget.0),
                i64::from(used.0) - if is_tick { i64::from(leaving.0) } else { 0 },
            )
        };
        let (budget, used) = after(&self.shadow, p);
        let [need, quarter] = [
            self.shadow.settings().need().0,
            self.shadow.settings().tick.0 / 4,
        ];
        let needs = [need, need, quarter, 2 * quarter].map(i64::from);
        for _ in 0..4 {
            let target = match self.random.below(5) {
                0..=1 => budget - self.random.pick(&needs),
                2 => budget,
                _ => {
                    let q = self.random.below(self.shadow.settings().partitions as u32) as usize;
                    let (other_budget, other_used) = after(&self.shadow, q);
                    if q == p || other_budget == 0 {
                        continue;
                    }
                    other_used * budget / other_budget
                }
            };
            let target = target + i64::from(self.random.pick(&[0, 0, 0, -1, 1]));
            let elapsed = target - used;
            if (0..=i64::from(self.room())).contains(&elapsed) {
                return Some(elapsed as u32);
            }
        }
        None
    }

    // Faults ----------------------------------------------------------------

    /// An event that is most probably refused.
    fn put_fault(&mut self) {
        let existing = self.shadow.existing();
        let ready = self.shadow.ready();
        let kind = self.random.range(1, 7) as u8;
        let mut fields = self.valid(kind).unwrap_or_else(|| Fields {
            kind,
            thread: self.random.below(64) as u8,
            stamp: self.shadow.stamp(),
            mask: u8::from(kind == CREATE),
            ..Fields::default()
        });
        match self.random.below(16) {
            // An unknown kind.
            0 => fields.kind = self.random.pick(&[0, 8, 9, 128, 255]),
            // Too long: just, by a clock gone back, by anything.
            1 => fields.stamp = self.too_late(1),
            2 => fields.stamp = self.shadow.stamp().wrapping_sub(self.random.range(1, 1000)),
            3 => fields.stamp = self.random.next() as u32,
            // A number above 63.
            4 => {
                fields = self.valid(CREATE).unwrap_or(fields);
                fields.kind = self.random.range(2, 6) as u8;
                fields.thread = self.random.pick(&[64, 65, 127, 128, 192, 254, 255]);
                fields = used_only(fields);
            }
            // One that exists.
            5 => {
                fields.kind = CREATE;
                fields.thread = self.random.bit(existing).unwrap_or(fields.thread);
                fields.mask = self.mask();
            }
            // One that doesn't.
            6 => {
                fields.kind = self.random.range(3, 6) as u8;
                fields.thread = self.random.bit(!existing).unwrap_or(64);
                fields = used_only(fields);
            }
            // A partition that isn't there, no core at all, or both.
            7 | 8 => {
                fields = self.valid(CREATE).unwrap_or(fields);
                fields.kind = CREATE;
                let count = self.shadow.settings().partitions as u8;
                let which = self.random.range(1, 3);
                if which & 1 != 0 {
                    fields.partition = self.random.pick(&[count, 16, 255]);
                }
                if which & 2 != 0 {
                    fields.mask = 0;
                }
            }
            // Ready twice, block twice.
            9 => {
                fields.kind = READY;
                fields.thread = self.random.bit(ready).unwrap_or(fields.thread);
                fields = used_only(fields);
            }
            10 => {
                fields.kind = BLOCK;
                fields.thread = self.random.bit(existing & !ready).unwrap_or(fields.thread);
                fields = used_only(fields);
            }
            // A policy that there isn't.
            11 => {
                fields = self.valid(CREATE).unwrap_or(fields);
                fields.kind = CREATE;
                fields.policy = self.policy_above_1();
            }
            // A policy where there is none.
            12 => fields.policy = ROUND_ROBIN,
            // The fields of another kind.
            13 => fields.kind = self.random.range(1, 7) as u8,
            _ => {}
        }
        // A second fault on top: the order of the tests shows.
        if self.random.percent(20) {
            match self.random.below(5) {
                0 => fields.stamp = self.too_late(1),
                1 => fields.thread = self.random.byte(),
                2 => fields.mask = self.random.byte(),
                3 => fields.policy = self.policy_above_1(),
                _ => fields.partition = self.random.byte(),
            }
        }
        let mut record = fields.bytes();
        match self.random.below(10) {
            // A stray byte in any place, any number of them.
            0 => record[self.random.pick(&[1, 2, 3, 8, 9, 10, 11])] ^= 1 << self.random.below(8),
            1 => {
                for _ in 0..self.random.range(1, 3) {
                    record[self.random.below(RECORD as u32) as usize] = self.random.byte();
                }
            }
            2 if self.random.percent(30) => record.fill_with(|| self.random.byte()),
            _ => {}
        }
        self.put_bytes(record);
    }

    fn policy_above_1(&mut self) -> u8 {
        let any = self.random.range(2, 255) as u8;
        self.random.pick(&[2, 3, 128, 255, any])
    }

    /// A stamp that is too late, by so much.
    fn too_late(&self, by: u32) -> u32 {
        self.shadow
            .stamp()
            .wrapping_add(self.room())
            .wrapping_add(by)
    }
}

/// Clears the fields that the kind doesn't use.
fn used_only(mut fields: Fields) -> Fields {
    if fields.kind != CREATE {
        fields.partition = 0;
        fields.mask = 0;
        fields.policy = 0;
        if fields.kind != SET {
            fields.priority = 0;
        }
    }
    fields
}

/// The numbers of the set bits, from below.
fn bits(mut set: u64) -> impl Iterator<Item = u8> {
    std::iter::from_fn(move || {
        let t = set.trailing_zeros();
        (t < THREADS as u32).then(|| {
            set &= set - 1;
            t as u8
        })
    })
}
