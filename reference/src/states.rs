//! Between what a scheduler keeps and what the proved one is lent.

use crate::proved::{Settings, State};
use reference::plain::Plain;
use reference::{Cycles, Kept, Percent, Record, Ticks, NO_THREAD};

pub fn settings(given: &reference::Settings) -> Settings {
    Settings {
        window: given.window.0,
        tick: given.tick.0,
        policy: given.policy,
        core: given.core,
        edition: given.edition,
        edition_stated: given.edition_stated,
        count: given.partitions as u32,
        shares: given.shares.map(|share| share.0),
    }
}

/// The way back, also for numbers that are out of limits.
pub fn of_settings(given: &Settings) -> reference::Settings {
    reference::Settings {
        window: Ticks(given.window),
        tick: Cycles(given.tick),
        policy: given.policy,
        core: given.core,
        edition: given.edition,
        edition_stated: given.edition_stated,
        partitions: given.count as usize,
        shares: given.shares.map(Percent),
    }
}

/// How many numbers of history the settings want.
pub fn wanted(given: &reference::Settings) -> usize {
    given.partitions * given.window.0 as usize
}

/// A state and its history.
#[derive(Clone, PartialEq, Eq)]
pub struct Saved {
    pub state: State,
    pub history: Vec<u32>,
}

impl Saved {
    /// With this byte everywhere.
    pub fn filled(byte: u8, numbers: usize) -> Saved {
        Saved {
            state: State::filled(byte),
            history: vec![u32::from_ne_bytes([byte; 4]); numbers],
        }
    }

    /// Takes over what a scheduler keeps. Numbers after the rows stay.
    pub fn set(&mut self, kept: &impl Kept) {
        self.state = state(kept);
        let window = kept.settings().window.0 as usize;
        let rows = self.history.chunks_exact_mut(window);
        for (p, row) in rows.take(kept.settings().partitions).enumerate() {
            for (slot, number) in row.iter_mut().enumerate() {
                *number = kept.in_slot(p, slot).0;
            }
        }
    }
}

/// The state that a scheduler is in.
fn state(kept: &impl Kept) -> State {
    let mut state = State {
        settings: settings(kept.settings()),
        used: [0; 16],
        stamp: kept.stamp(),
        slot: kept.slot() as u32,
        since: kept.since_tick().0,
        queued: 0,
        running: kept.running().into(),
        exists: [0; 64],
        ready: [0; 64],
        partitions: [0; 64],
        priorities: [0; 64],
        masks: [0; 64],
        policies: [0; 64],
        slices: [0; 64],
        queue: [0; 64],
    };
    for p in 0..kept.settings().partitions {
        state.used[p] = kept.used(p).0;
    }
    for t in 0..64 {
        if let Some(record) = kept.thread(t) {
            state.exists[t] = 1;
            state.partitions[t] = record.partition;
            state.priorities[t] = record.priority;
            state.masks[t] = record.mask;
            state.policies[t] = record.policy;
            state.slices[t] = record.slice;
        }
    }
    for (place, t) in kept.line().into_iter().enumerate() {
        state.queue[place] = t;
        state.ready[usize::from(t)] = 1;
        state.queued += 1;
    }
    state
}

/// The plain scheduler in a sound state.
pub fn plain(Saved { state, history }: &Saved) -> Plain {
    let settings = of_settings(&state.settings);
    let mut plain = Plain::new(&settings);
    plain.history = history[..wanted(&settings)]
        .chunks(settings.window.0 as usize)
        .map(|row| row.iter().map(|&number| number.into()).collect())
        .collect();
    plain.slot = state.slot as usize;
    plain.since = state.since.into();
    plain.stamp = state.stamp;
    for t in (0..64).filter(|&t| state.exists[t] == 1) {
        plain.threads[t] = Some(Record {
            partition: state.partitions[t],
            priority: state.priorities[t],
            mask: state.masks[t],
            policy: state.policies[t],
            slice: state.slices[t],
        });
    }
    plain.line = state.queue[..state.queued as usize]
        .iter()
        .map(|&t| t.into())
        .collect();
    plain.running = (state.running != NO_THREAD.into()).then_some(state.running as usize);
    plain
}
