//! The streams of the benchmark.

use reference::{Kept, Scheduler, NO_THREAD, RECORD};

const TICK: u32 = 1000;
/// Events of a batch through `run`, and through single events.
pub const RUN: usize = 2048;
pub const EVENTS: usize = 256;

/// What a row is measured at.
#[derive(Clone, Copy, PartialEq, Eq)]
pub struct Point {
    pub partitions: u8,
    pub threads: u8,
    pub window: u32,
    /// Of all threads.
    pub policy: u8,
}

/// A sheet, the events up to the point that batches start from, and those of
/// a batch.
pub struct Stream {
    pub sheet: Vec<u8>,
    pub lead: Vec<u8>,
    pub batch: Vec<u8>,
}

impl Stream {
    pub fn new(point: Point) -> Stream {
        let mut lead = Vec::new();
        for t in 0..point.threads {
            // A few levels, so that there are ties.
            let (p, priority) = (t % point.partitions, 10 + t % 5);
            put(&mut lead, [2, t, p, priority], 0, [1, point.policy]);
            put(&mut lead, [3, t, 0, 0], 0, [0, 0]);
        }
        let mut turns = Turns {
            threads: point.threads.into(),
            turn: 0,
        };
        turns.put(&mut lead, 8 * point.window as usize + 4);
        let mut batch = Vec::new();
        turns.put(&mut batch, RUN);
        Stream {
            sheet: sheet(point.partitions, point.window),
            lead,
            batch,
        }
    }

    /// How many of a hundred ticks of the batch end a slice, after the point
    /// that the scheduler is at.
    pub fn ends(&self, mut scheduler: Scheduler) -> f64 {
        let (mut ticks, mut ends) = (0, 0);
        for event in self.batch.chunks(RECORD) {
            let running = scheduler.running();
            let ran = (running != NO_THREAD).then(|| scheduler.thread(running.into()));
            let last = ran.flatten().is_some_and(|thread| thread.slice == 1);
            ticks += u32::from(event[0] == 1);
            ends += u32::from(event[0] == 1 && last);
            scheduler.event(event);
        }
        100.0 * f64::from(ends) / f64::from(ticks)
    }
}

/// Equal shares, the rest in the last partition.
fn sheet(partitions: u8, window: u32) -> Vec<u8> {
    let mut text = format!("W 00 {window:06}\nC 00 {TICK:06}\nP 00 000000\nM 00 000000\n");
    let mut left = 100;
    for p in 0..partitions {
        let share = left / u32::from(partitions - p);
        left -= share;
        text += &format!("S {p:02} {share:06}\n");
    }
    text.into_bytes()
}

/// Round through a tick, a block, a ready and a new priority, a quarter of a
/// tick apart, and through the threads.
struct Turns {
    threads: usize,
    turn: usize,
}

impl Turns {
    fn put(&mut self, events: &mut Vec<u8>, many: usize) {
        for _ in 0..many {
            let round = self.turn / 4;
            let t = (round % self.threads) as u8;
            let record = match self.turn % 4 {
                0 => [1, 0, 0, 0],
                1 => [4, t, 0, 0],
                2 => [3, t, 0, 0],
                _ => [5, t, 0, 10 + (round * 7 % 5) as u8],
            };
            self.turn += 1;
            put(events, record, TICK / 4 * self.turn as u32, [0, 0]);
        }
    }
}

/// Kind, thread, partition and priority; mask and policy.
fn put(events: &mut Vec<u8>, first: [u8; 4], stamp: u32, last: [u8; 2]) {
    events.extend(first);
    events.extend(stamp.to_le_bytes());
    events.extend(last);
    events.extend([0, 0]);
}
