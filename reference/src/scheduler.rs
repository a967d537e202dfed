//! The scheduler: clock, events and the decision.

use crate::accounts::Accounts;
use crate::counts::{Balance, Cycles};
use crate::kept::{Kept, Record};
use crate::line::Line;
use crate::record::{Event, Kind, POLICY};
use crate::sheet::{read_sheet, Settings};
use crate::threads::Threads;
use crate::{refusal, NO_THREAD, RECORD};
use std::cmp::Ordering;

#[derive(Clone, Copy, Debug, PartialEq, Eq)]
pub enum Mode {
    Idle = 0,
    FreeTime = 1,
    Underload = 2,
    AtLimit = 3,
}

/// Who runs, and in which mode that was decided.
#[derive(Clone, Copy)]
struct Choice {
    mode: Mode,
    partition: u8,
    thread: u8,
}

const IDLE: Choice = Choice {
    mode: Mode::Idle,
    partition: 0,
    thread: NO_THREAD,
};

#[derive(Clone)]
pub struct Scheduler {
    settings: Settings,
    /// Policy 1: in free time, priorities don't count between partitions.
    by_ratio: bool,
    /// The longest time between two ticks, 2 × C.
    longest: Cycles,
    /// Time since the last tick, never above `longest`.
    since_tick: Cycles,
    /// The counter reading of the last accepted event.
    stamp: u32,
    /// The last decision. Its thread is the running one.
    choice: Choice,
    accounts: Accounts,
    threads: Threads,
}

impl Scheduler {
    /// A fresh scheduler for a sheet, or the sheet's refusal.
    pub fn start(sheet: &[u8]) -> Result<Scheduler, u8> {
        let settings = read_sheet(sheet)?;
        Ok(Scheduler {
            by_ratio: settings.policy == 1,
            longest: Cycles(2 * settings.tick.0),
            since_tick: Cycles(0),
            stamp: 0,
            choice: IDLE,
            accounts: Accounts::new(&settings),
            threads: Threads::new(&settings),
            settings,
        })
    }

    /// Takes one event. A refused one changes nothing.
    pub fn event(&mut self, record: &[u8]) -> Line {
        match self.take(record) {
            Ok(Choice {
                mode,
                partition,
                thread,
            }) => Line {
                refusal: 0,
                mode: mode as u8,
                partition,
                thread,
            },
            Err(number) => Line::refused(number),
        }
    }

    /// Takes events one after another and writes a line of twelve bytes for
    /// each; a last one that is cut gives a line too. Answers how many bytes
    /// of `lines` were written. Stops early when `lines` is full.
    pub fn run(&mut self, events: &[u8], lines: &mut [u8]) -> usize {
        let mut written = 0;
        for (record, line) in events.chunks(RECORD).zip(lines.chunks_exact_mut(RECORD)) {
            if let Ok(line) = line.try_into() {
                self.event(record).write(line);
                written += RECORD;
            }
        }
        written
    }

    /// The decision the rules give now, a tie by the thread that runs now. It is
    /// the last event's, too: what that one chose is among the best.
    pub fn decision(&self) -> Line {
        let Choice {
            mode,
            partition,
            thread,
        } = self.decide(self.favoured());
        Line {
            refusal: 0,
            mode: mode as u8,
            partition,
            thread,
        }
    }

    /// One partition's budget less what it used in the window.
    pub fn remaining(&self, partition: usize) -> Result<Balance, u8> {
        if partition < self.settings.partitions {
            Ok(self.accounts.remaining(partition))
        } else {
            Err(refusal::PARTITION)
        }
    }

    /// The partition that is charged, if any.
    pub fn charged(&self) -> Option<usize> {
        (self.choice.mode != Mode::Idle).then_some(usize::from(self.choice.partition))
    }

    /// Window budget, what was used of it, and what of that the next tick
    /// takes off, for a partition below 16.
    pub fn account(&self, partition: usize) -> (Cycles, Cycles, Cycles) {
        let accounts = &self.accounts;
        (
            accounts.budget(partition),
            accounts.used(partition),
            accounts.leaving(partition),
        )
    }

    /// Bit p: p is tied for best as things stand, or is the best alone.
    pub fn tied(&self) -> u16 {
        self.best().1
    }

    /// The decision that the rules would give now if so much, and not what the
    /// edition says, had to remain of a budget.
    pub fn decision_with(&self, need: Cycles) -> Line {
        let mut other = self.clone();
        other.accounts = other.accounts.with_need(need);
        other.decision()
    }

    /// Bit p: p competes.
    pub fn competing(&self) -> u16 {
        self.threads.competing()
    }

    /// Bit t: thread t exists.
    pub fn existing(&self) -> u64 {
        self.threads.existing()
    }

    /// Bit t: thread t is in the line.
    pub fn ready(&self) -> u64 {
        self.threads.ready_set()
    }

    /// The partition of an existing thread.
    pub fn partition_of(&self, thread: u8) -> u8 {
        self.threads.partition_of(thread)
    }

    #[inline]
    fn take(&mut self, record: &[u8]) -> Result<Choice, u8> {
        let record: &[u8; RECORD] = record.try_into().map_err(|_| refusal::EVENT_LENGTH)?;
        let event = Event::read(record)?;
        if event.kind == Kind::Resume {
            self.accounts.forget();
            self.since_tick = Cycles(0);
        } else {
            let elapsed = Cycles(event.stamp.wrapping_sub(self.stamp));
            if elapsed.0 > self.longest.0 - self.since_tick.0 {
                return Err(refusal::ELAPSED);
            }
            // The threads come first, because they alone may still refuse.
            // The charge goes by the last choice and doesn't see the change.
            match event.kind {
                Kind::Create => self.threads.create(&event, record[POLICY])?,
                Kind::Ready => self.threads.ready(event.thread)?,
                Kind::Block => self.threads.block(event.thread)?,
                Kind::SetPriority => self.threads.set_priority(event.thread, event.priority)?,
                Kind::End => self.threads.end(event.thread)?,
                // The thread that ran until the tick, however little of it.
                Kind::Tick if self.choice.mode != Mode::Idle => {
                    self.threads.count(self.choice.thread)
                }
                Kind::Tick | Kind::Resume => {}
            }
            if self.choice.mode != Mode::Idle {
                self.accounts
                    .charge(usize::from(self.choice.partition), elapsed);
            }
            if event.kind == Kind::Tick {
                self.accounts.advance();
                self.since_tick = Cycles(0);
            } else {
                self.since_tick += elapsed;
            }
        }
        self.stamp = event.stamp;
        // The last choice is still that of the thread that ran until now, also
        // where it has just left the line.
        self.choice = self.decide(self.favoured());
        Ok(self.choice)
    }

    /// The bit of the partition that the running thread works for; none while
    /// idle.
    #[inline]
    fn favoured(&self) -> u16 {
        u16::from(self.choice.mode != Mode::Idle) << self.choice.partition
    }

    /// Of those tied for best the favoured one wins, or else the lowest.
    #[inline]
    fn decide(&self, favoured: u16) -> Choice {
        let (mode, tied) = self.best();
        if tied == 0 {
            return IDLE;
        }
        let winner = prefer(tied, favoured).trailing_zeros() as usize;
        Choice {
            mode,
            partition: winner as u8,
            thread: self.threads.first(winner),
        }
    }

    /// The mode, and the bits of those partitions that are tied for best in it:
    /// what is left of the competing ones after a sieve by budget, one by
    /// priority where the mode asks for it, and one by fraction.
    #[inline]
    fn best(&self) -> (Mode, u16) {
        let competing = self.threads.competing();
        if competing == 0 {
            return (Mode::Idle, 0);
        }
        let solvent = self.accounts.solvent();
        let (mode, by_priority) = if self.accounts.funded() & !competing != 0 {
            (Mode::FreeTime, !self.by_ratio)
        } else if competing & solvent != 0 {
            (Mode::Underload, true)
        } else {
            (Mode::AtLimit, false)
        };
        // At limit nobody has budget, and all stay in.
        let mut left = prefer(competing, solvent);
        if by_priority {
            left = self.highest(left);
        }
        (mode, self.least_used(left))
    }

    /// Those of some competing partitions whose top priority is highest.
    #[inline]
    fn highest(&self, mut left: u16) -> u16 {
        let (mut kept, mut highest) = (0, 0);
        while left != 0 {
            let p = left.trailing_zeros() as usize;
            left &= left - 1;
            let top = self.threads.top(p);
            if top > highest {
                (kept, highest) = (0, top);
            }
            if top == highest {
                kept |= 1 << p;
            }
        }
        kept
    }

    /// Those of some partitions whose fraction used is smallest.
    #[inline]
    fn least_used(&self, mut left: u16) -> u16 {
        let mut best = left.trailing_zeros() as usize;
        let mut kept = 1 << best;
        left &= left - 1;
        while left != 0 {
            let p = left.trailing_zeros() as usize;
            left &= left - 1;
            match self.accounts.by_fraction(p, best) {
                Ordering::Greater => (kept, best) = (1 << p, p),
                Ordering::Equal => kept |= 1 << p,
                Ordering::Less => {}
            }
        }
        kept
    }
}

/// Those of a set that are in another set too, or all of it where none is.
#[inline]
fn prefer(set: u16, other: u16) -> u16 {
    match set & other {
        0 => set,
        both => both,
    }
}

impl Kept for Scheduler {
    fn settings(&self) -> &Settings {
        &self.settings
    }

    fn stamp(&self) -> u32 {
        self.stamp
    }

    fn slot(&self) -> usize {
        self.accounts.slot()
    }

    fn since_tick(&self) -> Cycles {
        self.since_tick
    }

    fn in_slot(&self, partition: usize, slot: usize) -> Cycles {
        self.accounts.in_slot(partition, slot)
    }

    fn used(&self, partition: usize) -> Cycles {
        self.accounts.used(partition)
    }

    fn thread(&self, number: usize) -> Option<Record> {
        self.threads.record(number)
    }

    fn line(&self) -> Vec<u8> {
        self.threads.line()
    }

    fn running(&self) -> u8 {
        self.choice.thread
    }
}
