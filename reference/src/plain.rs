//! A slow scheduler: the paper's rules one by one, everything worked out
//! anew for each event. It checks what the fast one keeps at hand (best
//! threads, sums, sets); its reading of the paper is the same. It can be
//! set up with any sound state, which the fast one cannot, and so tells what
//! becomes of states that no events lead to.

use crate::counts::Cycles;
use crate::kept::{Kept, Record};
use crate::{Line, Settings, NO_THREAD, ROUND_ROBIN, SLICE};
use std::cmp::Ordering;

#[derive(Clone)]
pub struct Plain {
    settings: Settings,
    w: usize,
    c: u64,
    budgets: Vec<u64>,
    /// history[p][slot]
    pub history: Vec<Vec<u64>>,
    pub slot: usize,
    pub since: u64,
    pub stamp: u32,
    pub threads: Vec<Option<Record>>,
    /// The ready threads, the one furthest ahead first.
    pub line: Vec<usize>,
    /// The running thread.
    pub running: Option<usize>,
}

impl Plain {
    pub fn new(settings: &Settings) -> Plain {
        let w = settings.window.0 as usize;
        let c = u64::from(settings.tick.0);
        let shares = &settings.shares[..settings.partitions];
        Plain {
            settings: *settings,
            w,
            c,
            budgets: shares
                .iter()
                .map(|s| u64::from(s.0) * w as u64 * c / 100)
                .collect(),
            history: vec![vec![0; w]; shares.len()],
            slot: 0,
            since: 0,
            stamp: 0,
            threads: vec![None; 64],
            line: Vec::new(),
            running: None,
        }
    }

    pub fn event(&mut self, record: &[u8]) -> Line {
        // The event itself may block or end the thread that runs.
        let favoured = self.favoured();
        match self.accept(record) {
            Ok(()) => {
                let decision = self.decide(favoured);
                self.running = (decision.mode != 0).then_some(decision.thread.into());
                decision
            }
            Err(number) => Line::refused(number),
        }
    }

    pub fn remaining(&self, p: usize) -> i64 {
        self.budgets[p] as i64 - self.total(p) as i64
    }

    fn total(&self, p: usize) -> u64 {
        self.history[p].iter().sum()
    }

    fn accept(&mut self, record: &[u8]) -> Result<(), u8> {
        // 14
        if record.len() != 12 {
            return Err(14);
        }
        // 9
        let kind = record[0];
        let used: &[usize] = match kind {
            1 | 7 => &[],
            2 => &[1, 2, 3, 8, 9],
            3 | 4 | 6 => &[1],
            5 => &[1, 3],
            _ => return Err(9),
        };
        for place in [1, 2, 3, 8, 9, 10, 11] {
            if !used.contains(&place) && record[place] != 0 {
                return Err(9);
            }
        }
        let mut stamp = 0_u32;
        for place in (4..8).rev() {
            stamp = stamp * 256 + u32::from(record[place]);
        }
        if kind == 7 {
            self.history = vec![vec![0; self.w]; self.budgets.len()];
            self.slot = 0;
            self.since = 0;
            self.stamp = stamp;
            return Ok(());
        }
        // 10
        let wrap = 1_u64 << 32;
        let elapsed = (wrap + u64::from(stamp) - u64::from(self.stamp)) % wrap;
        if self.since + elapsed > 2 * self.c {
            return Err(10);
        }
        // 11
        let t = usize::from(record[1]);
        if kind != 1 {
            let exists = match self.threads.get(t) {
                Some(thread) => thread.is_some(),
                None => return Err(11),
            };
            if exists == (kind == 2) {
                return Err(11);
            }
        }
        // 12
        let no_partition = usize::from(record[2]) >= self.budgets.len();
        if kind == 2 && (no_partition || record[8] == 0 || record[9] > 1) {
            return Err(12);
        }
        // 13
        let ready = self.line.contains(&t);
        if kind == 3 && ready || kind == 4 && !ready {
            return Err(13);
        }
        if let Some(p) = self.favoured() {
            self.history[p][self.slot] += elapsed;
        }
        self.since += elapsed;
        self.stamp = stamp;
        match kind {
            1 => self.tick(),
            2 => {
                self.threads[t] = Some(Record {
                    partition: record[2],
                    priority: record[3],
                    mask: record[8],
                    policy: record[9],
                    slice: full_slice(record[9]),
                })
            }
            3 => {
                let thread = self.threads[t].as_mut().unwrap();
                thread.slice = full_slice(thread.policy);
                self.line.push(t);
            }
            4 => self.line.retain(|&other| other != t),
            5 => self.set_priority(t, record[3]),
            6 => {
                self.line.retain(|&other| other != t);
                self.threads[t] = None;
            }
            _ => unreachable!(),
        }
        Ok(())
    }

    /// A new priority, and the place in the line that a ready thread gets by
    /// it: the tail if it is raised, the head if it is lowered.
    fn set_priority(&mut self, t: usize, priority: u8) {
        let thread = self.threads[t].as_mut().unwrap();
        let old = thread.priority;
        thread.priority = priority;
        if !self.line.contains(&t) || priority == old {
            return;
        }
        self.line.retain(|&other| other != t);
        if priority > old {
            self.line.push(t);
        } else {
            self.line.insert(0, t);
        }
    }

    /// The window moves, and the thread that ran is counted down.
    fn tick(&mut self) {
        self.slot = (self.slot + 1) % self.w;
        for row in &mut self.history {
            row[self.slot] = 0;
        }
        self.since = 0;
        let Some(t) = self.running else {
            return;
        };
        let thread = self.threads[t].as_mut().unwrap();
        if thread.policy != ROUND_ROBIN {
            return;
        }
        thread.slice -= 1;
        if thread.slice == 0 {
            thread.slice = full_slice(thread.policy);
            self.line.retain(|&other| other != t);
            self.line.push(t);
        }
    }

    /// Threads of the line that p may run here, as (number, priority).
    fn runnable(&self, p: usize) -> Vec<(usize, u8)> {
        let mut found = Vec::new();
        for &t in &self.line {
            let thread = self.threads[t].unwrap();
            if usize::from(thread.partition) == p && thread.mask >> self.settings.core & 1 == 1 {
                found.push((t, thread.priority));
            }
        }
        found
    }

    fn top(&self, p: usize) -> u8 {
        self.runnable(p)
            .iter()
            .map(|&(_, priority)| priority)
            .max()
            .unwrap()
    }

    /// At least a quarter of a tick remains, or half of one in edition 2.
    fn has_budget(&self, p: usize) -> bool {
        let times = match self.settings.edition {
            2 => 2,
            _ => 4,
        };
        times * self.remaining(p) >= self.c as i64
    }

    /// Greater is the better fraction.
    fn by_fraction(&self, a: usize, b: usize) -> Ordering {
        match (self.budgets[a], self.budgets[b]) {
            (0, 0) => Ordering::Equal,
            (0, _) => Ordering::Less,
            (_, 0) => Ordering::Greater,
            (budget_a, budget_b) => {
                let a = u128::from(self.total(a)) * u128::from(budget_b);
                let b = u128::from(self.total(b)) * u128::from(budget_a);
                b.cmp(&a)
            }
        }
    }

    /// The better of two competing partitions is the greater.
    fn compare(&self, mode: u8, a: usize, b: usize) -> Ordering {
        let budget = self.has_budget(a).cmp(&self.has_budget(b));
        let priority = self.top(a).cmp(&self.top(b));
        let fraction = self.by_fraction(a, b);
        match (mode, self.settings.policy) {
            (1, 1) => budget.then(fraction),
            (1, _) | (2, _) => budget.then(priority).then(fraction),
            _ => fraction,
        }
    }

    /// The partition that the running thread works for: it is charged, and a
    /// tie is its.
    fn favoured(&self) -> Option<usize> {
        let thread = self.threads[self.running?]?;
        Some(thread.partition.into())
    }

    /// The partitions that are tied for best as things stand, lowest first.
    pub fn tied(&self) -> Vec<usize> {
        self.best().1
    }

    /// What the rules give now, a tie by the thread that runs now.
    pub fn decision(&self) -> Line {
        self.decide(self.favoured())
    }

    /// Of those tied for best the favoured one wins, or else the lowest.
    fn decide(&self, favoured: Option<usize>) -> Line {
        let (mode, tied) = self.best();
        let lowest = tied.first().copied();
        let winner = favoured.filter(|p| tied.contains(p)).or(lowest);
        let first = winner.map_or(NO_THREAD, |p| self.first(p));
        Line {
            refusal: 0,
            mode,
            partition: winner.unwrap_or(0) as u8,
            thread: first,
        }
    }

    /// The mode, and the partitions that are tied for best in it.
    fn best(&self) -> (u8, Vec<usize>) {
        let count = self.budgets.len();
        let mut competing: Vec<usize> = (0..count)
            .filter(|&p| !self.runnable(p).is_empty())
            .collect();
        let asleep = |p: usize| self.budgets[p] > 0 && !competing.contains(&p);
        let mode = if competing.is_empty() {
            return (0, competing);
        } else if (0..count).any(asleep) {
            1
        } else if competing.iter().any(|&p| self.has_budget(p)) {
            2
        } else {
            3
        };
        let better = |&a: &usize, &b: &usize| self.compare(mode, a, b);
        let best = competing.iter().copied().max_by(better).unwrap();
        competing.retain(|&p| self.compare(mode, p, best) == Ordering::Equal);
        (mode, competing)
    }

    /// The first in the line with the top priority of a competing partition.
    fn first(&self, p: usize) -> u8 {
        let top = self.top(p);
        let first = self
            .runnable(p)
            .into_iter()
            .find(|&(_, priority)| priority == top);
        first.unwrap().0 as u8
    }
}

impl Kept for Plain {
    fn settings(&self) -> &Settings {
        &self.settings
    }

    fn stamp(&self) -> u32 {
        self.stamp
    }

    fn slot(&self) -> usize {
        self.slot
    }

    fn since_tick(&self) -> Cycles {
        cycles(self.since)
    }

    fn in_slot(&self, partition: usize, slot: usize) -> Cycles {
        cycles(self.history[partition][slot])
    }

    fn used(&self, partition: usize) -> Cycles {
        cycles(self.total(partition))
    }

    fn thread(&self, number: usize) -> Option<Record> {
        self.threads[number]
    }

    fn line(&self) -> Vec<u8> {
        self.line.iter().map(|&t| t as u8).collect()
    }

    fn running(&self) -> u8 {
        self.running.map_or(NO_THREAD, |t| t as u8)
    }
}

/// The slice of a thread that has run none of it.
fn full_slice(policy: u8) -> u8 {
    if policy == ROUND_ROBIN {
        SLICE
    } else {
        0
    }
}

/// Numbers of a sound state are all below 2^32.
fn cycles(n: u64) -> Cycles {
    Cycles(u32::try_from(n).unwrap())
}
