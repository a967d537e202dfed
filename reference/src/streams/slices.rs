//! What of policies and time slices was reached.

use super::maker::{CREATE, RESUME, TICK};
use crate::kept::{Kept, Record};
use crate::scheduler::Scheduler;
use crate::{NO_THREAD, ROUND_ROBIN, SLICE, THREADS};
use std::fmt;

/// How often each thing was reached.
#[derive(Clone, Debug, Default, PartialEq, Eq)]
pub struct Slices {
    /// Creates refused with 12 for their policy and nothing else.
    by_policy: u64,
    /// Ticks that counted a slice down, and those of them that took no time.
    counted: u64,
    of_no_time: u64,
    /// Ticks that ended a slice, and those of them where another thread that
    /// could run had the same partition and priority.
    ended: u64,
    with_a_rival: u64,
    /// Accepted events, by kind, whose thread, or any for a resume, was in the
    /// middle of its slice.
    in_the_middle: [u64; 8],
}

impl Slices {
    /// Counts an event by the state that it met and the number it got.
    pub fn count(&mut self, met: &Scheduler, event: &[u8], refusal: usize) {
        let &[kind, thread, partition, _, s0, s1, s2, s3, mask, ..] = event else {
            return;
        };
        match (refusal, kind) {
            (12, _) => {
                let rest_is_right = usize::from(partition) < met.settings().partitions && mask != 0;
                self.by_policy += u64::from(rest_is_right);
            }
            (0, TICK) => self.tick(met, u32::from_le_bytes([s0, s1, s2, s3])),
            (0, RESUME) => {
                let any = (0..THREADS).any(|t| in_the_middle(met.thread(t)));
                self.in_the_middle[usize::from(kind)] += u64::from(any);
            }
            (0, kind) if kind != CREATE => {
                let is = in_the_middle(met.thread(thread.into()));
                self.in_the_middle[usize::from(kind)] += u64::from(is);
            }
            _ => {}
        }
    }

    fn tick(&mut self, met: &Scheduler, stamp: u32) {
        let running = met.running();
        if running == NO_THREAD {
            return;
        }
        let thread = met.thread(running.into());
        let Some(Record { slice: 1.., .. }) = thread else {
            return;
        };
        self.counted += 1;
        self.of_no_time += u64::from(stamp == met.stamp());
        self.in_the_middle[usize::from(TICK)] += u64::from(in_the_middle(thread));
        if matches!(thread, Some(Record { slice: 1, .. })) {
            self.ended += 1;
            self.with_a_rival += u64::from(has_a_rival(met, running));
        }
    }

    /// Was everything reached?
    pub fn complete(&self) -> bool {
        let kinds = self.in_the_middle.iter().enumerate();
        [self.by_policy, self.of_no_time, self.with_a_rival]
            .iter()
            .all(|&count| count > 0)
            && kinds
                .filter(|&(kind, _)| kind != 0 && kind != usize::from(CREATE))
                .all(|(_, &count)| count > 0)
    }
}

/// Whether a thread has used some of its slice.
fn in_the_middle(thread: Option<Record>) -> bool {
    thread.is_some_and(|thread| thread.policy == ROUND_ROBIN && thread.slice < SLICE)
}

/// Whether another thread in the line could run in this one's place.
fn has_a_rival(met: &Scheduler, running: u8) -> bool {
    let core = met.settings().core;
    let place = |t: u8| {
        met.thread(t.into())
            .filter(|thread| thread.mask >> core & 1 == 1)
            .map(|thread| (thread.partition, thread.priority))
    };
    met.line()
        .into_iter()
        .any(|t| t != running && place(t) == place(running))
}

impl fmt::Display for Slices {
    fn fmt(&self, f: &mut fmt::Formatter) -> fmt::Result {
        writeln!(f, "refusal 12 for the policy alone: {}", self.by_policy)?;
        writeln!(
            f,
            "slices counted down: {}, by ticks of no time: {}",
            self.counted, self.of_no_time
        )?;
        writeln!(
            f,
            "slices ended: {}, with an equal thread waiting: {}",
            self.ended, self.with_a_rival
        )?;
        write!(f, "in the middle of a slice, accepted kinds 1 and 3 to 7:")?;
        for kind in [1, 3, 4, 5, 6, 7] {
            write!(f, " {}", self.in_the_middle[kind])?;
        }
        writeln!(f)
    }
}
