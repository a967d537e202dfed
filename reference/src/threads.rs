//! The threads, and who comes first in each partition.
//!
//! The line is not stored as a list. A thread that goes to its tail draws a
//! number from a counter that only goes up, one that goes to its head from a
//! counter that only goes down; of two ready threads, the one with the smaller
//! number stands further ahead. Each partition keeps the set of its threads
//! that stand in the line and may run on this core, and the first of them with
//! the top priority.
//!
//! Nor is a slice stored as what is left of it: a round-robin thread has the
//! number of ticks that have found it running since its slice was full.

use crate::kept::Record;
use crate::record::Event;
use crate::sheet::Settings;
use crate::{refusal, PARTITIONS, ROUND_ROBIN, SLICE, THREADS};

#[derive(Clone, Copy, Default)]
struct Thread {
    /// Place in the line; means something while the thread is ready.
    place: i64,
    partition: u8,
    priority: u8,
    mask: u8,
    /// Ticks of the slice that are gone, always fewer than it has; 0 if the
    /// thread isn't round robin.
    gone: u8,
}

/// The runnable threads of one partition.
#[derive(Clone, Copy, Default)]
struct Group {
    /// Bit t: thread t is ready and may run on this core.
    runnable: u64,
    /// Top priority among them and the first that has it. Both mean
    /// something only while `runnable` isn't empty.
    top: u8,
    first: u8,
}

#[derive(Clone)]
pub struct Threads {
    /// How many partitions there are.
    partitions: u8,
    /// This core's bit in a mask.
    core: u8,
    /// Bit t: thread t exists, is ready, may run on this core.
    existing: u64,
    ready: u64,
    allowed: u64,
    /// Bit t: thread t exists and is round robin.
    in_turns: u64,
    /// Bit p: some thread of p is runnable.
    competing: u16,
    groups: [Group; PARTITIONS],
    /// What the next at the head draws, and the next at the tail.
    head: i64,
    tail: i64,
    table: [Thread; THREADS],
}

impl Threads {
    pub fn new(settings: &Settings) -> Threads {
        Threads {
            partitions: settings.partitions as u8,
            core: 1 << settings.core,
            existing: 0,
            ready: 0,
            allowed: 0,
            in_turns: 0,
            competing: 0,
            groups: [Group::default(); PARTITIONS],
            head: -1,
            tail: 0,
            table: [Thread::default(); THREADS],
        }
    }

    /// Bit p: p competes.
    pub fn competing(&self) -> u16 {
        self.competing
    }

    /// Top priority of a competing partition.
    pub fn top(&self, p: usize) -> u8 {
        self.groups[p].top
    }

    /// The thread a competing partition would run.
    pub fn first(&self, p: usize) -> u8 {
        self.groups[p].first
    }

    pub fn existing(&self) -> u64 {
        self.existing
    }

    pub fn ready_set(&self) -> u64 {
        self.ready
    }

    pub fn partition_of(&self, t: u8) -> u8 {
        self.table[usize::from(t)].partition
    }

    /// What is known of a thread that exists.
    pub fn record(&self, t: usize) -> Option<Record> {
        let Thread {
            partition,
            priority,
            mask,
            gone,
            ..
        } = self.table[t];
        let (policy, slice) = match self.in_turns & bit(t) {
            0 => (0, 0),
            _ => (ROUND_ROBIN, SLICE - gone),
        };
        (self.existing & bit(t) != 0).then_some(Record {
            partition,
            priority,
            mask,
            policy,
            slice,
        })
    }

    /// The ready threads, the one furthest ahead first.
    pub fn line(&self) -> Vec<u8> {
        let mut line: Vec<u8> = (0..THREADS as u8)
            .filter(|&t| self.ready & bit(t.into()) != 0)
            .collect();
        line.sort_unstable_by_key(|&t| self.table[usize::from(t)].place);
        line
    }

    /// A new thread, not ready, with a full slice if it is round robin.
    pub fn create(&mut self, event: &Event, policy: u8) -> Result<(), u8> {
        let t = usize::from(event.thread);
        if t >= THREADS || self.existing & bit(t) != 0 {
            return Err(refusal::THREAD);
        }
        if event.partition >= self.partitions || event.mask == 0 || policy > ROUND_ROBIN {
            return Err(refusal::PARTITION);
        }
        self.existing |= bit(t);
        if event.mask & self.core != 0 {
            self.allowed |= bit(t);
        }
        if policy == ROUND_ROBIN {
            self.in_turns |= bit(t);
        }
        self.table[t] = Thread {
            place: 0,
            partition: event.partition,
            priority: event.priority,
            mask: event.mask,
            gone: 0,
        };
        Ok(())
    }

    /// Joins the line at its tail, with a full slice.
    pub fn ready(&mut self, thread: u8) -> Result<(), u8> {
        let t = self.find(thread)?;
        if self.ready & bit(t) != 0 {
            return Err(refusal::READINESS);
        }
        self.ready |= bit(t);
        self.table[t].gone = 0;
        self.go_to_tail(t);
        if self.allowed & bit(t) != 0 {
            self.enter(t);
        }
        Ok(())
    }

    /// Leaves the line.
    pub fn block(&mut self, thread: u8) -> Result<(), u8> {
        let t = self.find(thread)?;
        if self.ready & bit(t) == 0 {
            return Err(refusal::READINESS);
        }
        self.leave(t);
        Ok(())
    }

    /// Takes a new priority. A ready thread that is raised goes to the line's
    /// tail, one that is lowered to its head; one that has this priority stays.
    /// For a thread that isn't ready the number is all that changes.
    pub fn set_priority(&mut self, thread: u8, priority: u8) -> Result<(), u8> {
        let t = self.find(thread)?;
        let old = self.table[t].priority;
        self.table[t].priority = priority;
        if self.ready & bit(t) == 0 || priority == old {
            return Ok(());
        }
        let p = usize::from(self.table[t].partition);
        let runs_here = self.allowed & bit(t) != 0;
        let is_first = runs_here && usize::from(self.groups[p].first) == t;
        if priority > old {
            self.go_to_tail(t);
            // Others that have the new priority already stand before it.
            let group = &mut self.groups[p];
            if runs_here && (is_first || priority > group.top) {
                group.top = priority;
                group.first = t as u8;
            }
        } else {
            self.go_to_head(t);
            if is_first {
                self.search(p);
            }
        }
        Ok(())
    }

    /// Is gone, from the line too. The number is free again.
    pub fn end(&mut self, thread: u8) -> Result<(), u8> {
        let t = self.find(thread)?;
        if self.ready & bit(t) != 0 {
            self.leave(t);
        }
        self.existing &= !bit(t);
        self.allowed &= !bit(t);
        self.in_turns &= !bit(t);
        Ok(())
    }

    /// A tick finds this thread running, the first of its partition. If it is
    /// round robin, that takes a tick of its slice, and the last one sends it
    /// to the tail with a full slice.
    #[inline]
    pub fn count(&mut self, thread: u8) {
        let t = usize::from(thread);
        if self.in_turns & bit(t) == 0 {
            return;
        }
        let thread = &mut self.table[t];
        thread.gone += 1;
        if thread.gone == SLICE {
            thread.gone = 0;
            let p = usize::from(thread.partition);
            self.go_to_tail(t);
            self.search(p);
        }
    }

    /// Draws a place behind all others.
    fn go_to_tail(&mut self, t: usize) {
        self.table[t].place = self.tail;
        self.tail += 1;
    }

    /// Draws a place before all others.
    fn go_to_head(&mut self, t: usize) {
        self.table[t].place = self.head;
        self.head -= 1;
    }

    fn find(&self, thread: u8) -> Result<usize, u8> {
        let t = usize::from(thread);
        if t < THREADS && self.existing & bit(t) != 0 {
            Ok(t)
        } else {
            Err(refusal::THREAD)
        }
    }

    /// Counts a thread at the line's tail among its partition's runnable
    /// ones. Only a higher priority puts it before those who were there.
    fn enter(&mut self, t: usize) {
        let Thread {
            partition,
            priority,
            ..
        } = self.table[t];
        let group = &mut self.groups[usize::from(partition)];
        if group.runnable == 0 || priority > group.top {
            group.top = priority;
            group.first = t as u8;
        }
        group.runnable |= bit(t);
        self.competing |= 1 << partition;
    }

    /// Takes a ready thread out of the line.
    fn leave(&mut self, t: usize) {
        self.ready &= !bit(t);
        if self.allowed & bit(t) == 0 {
            return;
        }
        let p = usize::from(self.table[t].partition);
        let group = &mut self.groups[p];
        group.runnable &= !bit(t);
        if group.runnable == 0 {
            self.competing &= !(1 << p);
        } else if usize::from(group.first) == t {
            self.search(p);
        }
    }

    /// Looks through a partition's runnable threads for the top priority
    /// and the first in the line that has it. There is at least one.
    fn search(&mut self, p: usize) {
        let group = &mut self.groups[p];
        let mut rest = group.runnable;
        let mut best = rest.trailing_zeros() as usize;
        rest &= rest - 1;
        while rest != 0 {
            let t = rest.trailing_zeros() as usize;
            rest &= rest - 1;
            let (one, other) = (&self.table[t], &self.table[best]);
            if one.priority > other.priority
                || one.priority == other.priority && one.place < other.place
            {
                best = t;
            }
        }
        group.top = self.table[best].priority;
        group.first = best as u8;
    }
}

fn bit(t: usize) -> u64 {
    1 << t
}
