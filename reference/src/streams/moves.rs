//! What of new priorities and the places that they give was reached.

use super::maker::{CREATE, END, READY, SET, TICK};
use crate::kept::{Kept, Record};
use crate::scheduler::Scheduler;
use crate::NO_THREAD;
use std::cmp::Ordering;
use std::fmt;

/// What a new priority is beside the old one, and the threads it is given to.
const WAYS: [&str; 3] = ["lowered", "kept", "raised"];
const WHOSE: [&str; 4] = ["running", "waiting", "of another core", "not ready"];

/// How often each thing was reached. The three numbers of each are of
/// priorities that were lowered, kept, raised.
#[derive(Clone, Debug, Default, PartialEq, Eq)]
pub struct Moves {
    /// Accepted new priorities: of the running thread, of one that waits in the
    /// line, of one there that this core may not run, of one not in the line.
    whose: [[u64; 3]; 4],
    /// Those that changed the order of the line. One that is kept never does.
    moved: [u64; 3],
    /// Of threads in the line that this core may run: other such threads of
    /// the partition have the new priority.
    among_equals: [u64; 3],
    /// Of these: the decision falls among the equals, so that the place alone
    /// tells whether the thread runs.
    decided: [u64; 3],
    /// Of these: in the place that the thread had before, the decision would be
    /// another. A priority that is kept has no such.
    otherwise: [u64; 3],
    /// Slices that ended while an equal waited, by what the thread's priority
    /// was set to in the slice; and by what that of the equal that stands next
    /// was set to.
    ended: [u64; 3],
    next: [u64; 3],
    /// Who has had such a priority since it joined the line or its last slice
    /// ended, in the case that is being counted.
    since: [u64; 3],
}

impl Moves {
    /// Nobody has had one yet.
    pub fn new_case(&mut self) {
        self.since = [0; 3];
    }

    /// Counts an accepted event by the state that it met and the one it left.
    pub fn count(&mut self, met: &Scheduler, event: &[u8], left: &Scheduler) {
        let &[kind, thread, _, priority, ..] = event else {
            return;
        };
        match kind {
            SET => self.set(met, thread, priority, left),
            TICK => self.tick(met, left),
            CREATE | READY | END => self.forget(thread),
            _ => {}
        }
    }

    fn forget(&mut self, thread: u8) {
        for set in &mut self.since {
            *set &= !(1 << thread);
        }
    }

    fn set(&mut self, met: &Scheduler, thread: u8, priority: u8, left: &Scheduler) {
        let Some(old) = met.thread(thread.into()) else {
            return;
        };
        let way = match priority.cmp(&old.priority) {
            Ordering::Less => 0,
            Ordering::Equal => 1,
            Ordering::Greater => 2,
        };
        let before = met.line();
        let ready = before.contains(&thread);
        let whose = match ready {
            _ if met.running() == thread => 0,
            true if runs_here(met, &old) => 1,
            true => 2,
            false => 3,
        };
        self.whose[whose][way] += 1;
        self.moved[way] += u64::from(before != left.line());
        if !ready {
            return;
        }
        self.since[way] |= 1 << thread;
        let equals = equals(left, thread);
        if whose == 2 || equals.is_empty() {
            return;
        }
        self.among_equals[way] += 1;
        let runs = left.running();
        if runs != thread && !equals.contains(&runs) {
            return;
        }
        self.decided[way] += 1;
        let place = |t: u8| before.iter().position(|&other| other == t);
        let was_first = equals.iter().all(|&other| place(thread) < place(other));
        self.otherwise[way] += u64::from(was_first != (runs == thread));
    }

    fn tick(&mut self, met: &Scheduler, left: &Scheduler) {
        let running = met.running();
        if running == NO_THREAD {
            return;
        }
        let Some(Record { slice: 1, .. }) = met.thread(running.into()) else {
            return;
        };
        let line = left.line();
        let equals = equals(left, running);
        let next = line.into_iter().find(|t| equals.contains(t));
        if let Some(next) = next {
            for way in 0..3 {
                self.ended[way] += self.since[way] >> running & 1;
                self.next[way] += self.since[way] >> next & 1;
            }
        }
        self.forget(running);
    }

    /// Was everything reached?
    pub fn complete(&self) -> bool {
        let rest = [self.among_equals, self.decided, self.ended, self.next];
        let changed = [self.moved, self.otherwise];
        let all = |counts: &[u64; 3]| counts.iter().all(|&count| count > 0);
        self.whose.iter().chain(&rest).all(all)
            && changed
                .iter()
                .all(|&[lowered, _, raised]| lowered > 0 && raised > 0)
    }
}

/// Other threads of a thread's partition that have its priority, in the line
/// and on this core.
fn equals(at: &Scheduler, thread: u8) -> Vec<u8> {
    let level = |t: u8| {
        at.thread(t.into())
            .filter(|record| runs_here(at, record))
            .map(|record| (record.partition, record.priority))
    };
    let mut line = at.line();
    line.retain(|&t| t != thread && level(t) == level(thread));
    line
}

fn runs_here(at: &Scheduler, record: &Record) -> bool {
    record.mask >> at.settings().core & 1 == 1
}

impl fmt::Display for Moves {
    fn fmt(&self, f: &mut fmt::Formatter) -> fmt::Result {
        writeln!(f, "new priorities, {}:", WAYS.join(", "))?;
        let whose = WHOSE.iter().zip(&self.whose);
        let rest = [
            ("that changed the line", &self.moved),
            (
                "to that of others who could run instead",
                &self.among_equals,
            ),
            ("and the place decides who runs", &self.decided),
            ("and in the old place another would", &self.otherwise),
            ("in slices that ended with an equal waiting", &self.ended),
            ("of the equal that is next", &self.next),
        ];
        let whose = whose.map(|(whose, counts)| (*whose, counts));
        for (what, [lowered, kept, raised]) in whose.chain(rest) {
            writeln!(f, "  {what}: {lowered}, {kept}, {raised}")?;
        }
        Ok(())
    }
}
