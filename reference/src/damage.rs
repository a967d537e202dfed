//! States and settings with something changed, mostly one thing by little.

use crate::proved::{Settings, State};
use crate::states::Saved;
use reference::streams::Random;
use std::ops::Range;

/// Bytes of a state that may be so much at most, wherever they stand in their
/// number: of the edition, of whether it is stated, of the flags `exists` and
/// `ready`, of the policies.
const LIMITS: [(Range<usize>, u8); 4] = [(16..20, 2), (20..24, 1), (176..304, 1), (496..560, 1)];

/// Whether one of these bytes, at this place, is above that.
pub fn is_beyond(place: usize, byte: u8) -> bool {
    let mut limits = LIMITS.iter();
    limits.any(|(range, most)| range.contains(&place) && byte > *most)
}

/// Half of what 32 bits hold: twice this is nothing to who adds in 32 bits.
const HALF: u32 = 1 << 31;

pub fn settings(random: &mut Random, settings: &mut Settings) {
    let by = step(random);
    let p = random.below(16) as usize;
    match random.below(11) {
        0 => settings.window = random.pick(&[0, 1, 2, 400, 401, u32::MAX]),
        1 => add(&mut settings.window, by),
        2 => add(&mut settings.tick, by),
        3 => add(&mut settings.policy, by),
        4 => add(&mut settings.core, by),
        5 => settings.count = random.pick(&[0, 1, 16, 17, 256, by]),
        6 => add(&mut settings.shares[p], by),
        7 => settings.shares.swap(p, 0),
        8 => {
            add(&mut settings.shares[0], HALF);
            add(&mut settings.shares[1], HALF);
        }
        _ => edition(random, settings),
    }
}

/// The edition or whether it is stated, or both: what they may be, and what they
/// may not.
pub fn edition(random: &mut Random, settings: &mut Settings) {
    let bit = 1 << random.below(32);
    let Settings {
        edition,
        edition_stated: stated,
        ..
    } = settings;
    match random.below(8) {
        0 => *edition = random.pick(&[0, 3, 4, 255, u32::MAX, bit]),
        // Only their low bytes are right.
        1 => *edition += random.pick(&[1 << 8, 1 << 16, HALF]),
        2 => *stated += random.pick(&[1 << 8, 1 << 16, HALF]),
        // 1 becomes 2 and 2 becomes 1, stated or not; and the other way about.
        3 => *edition ^= 3,
        4 => *stated ^= 1,
        5 => *stated = random.pick(&[2, 3, 255, u32::MAX, bit]),
        6 => (*edition, *stated) = random.pick(&[(0, 0), (0, 1), (2, 0), (2, 2), (3, 1), (1, 2)]),
        _ => (*edition, *stated) = random.pick(&[(1, 0), (1, 1), (2, 1)]),
    }
}

pub fn saved(random: &mut Random, Saved { state, history }: &mut Saved) {
    let by = step(random);
    let t = random.below(64) as usize;
    let byte = random.byte();
    let window = state.settings.window as usize;
    let place = random.below(history.len() as u32) as usize;
    let (row, slot) = (place / window, place % window);
    match random.below(36) {
        0..=3 => settings(random, &mut state.settings),
        4 => add(&mut state.used[row], by),
        5 => add(&mut state.stamp, by),
        6 => add(&mut state.slot, by),
        7 => add(&mut state.since, by),
        8 => add(&mut state.queued, by),
        9 => {
            // Also another one of the line, which is mostly sound.
            let other = state.queue[t % (state.queued as usize).clamp(1, 64)];
            state.running = random.pick(&[t as u32, other.into(), 64, 255, 256, by]);
        }
        10 => state.exists[t] ^= byte & 3,
        11 => state.ready[t] ^= byte & 3,
        12 => state.partitions[t] = byte % 17,
        13 => state.priorities[t] = byte,
        14 => state.masks[t] = byte & byte.rotate_left(3),
        15 => state.queue[t] = byte % 65,
        16 => state.queue.swap(t % 16, 0),
        17 => add(&mut history[place], by),
        18..=20 => {
            // The total goes along: slots are what is left to be wrong.
            add(&mut history[place], by);
            add(&mut state.used[row], by);
        }
        21 => {
            // Two of a row, its total as it was.
            add(&mut history[place], HALF);
            add(&mut history[row * window + (slot + 1) % window], HALF);
        }
        22 => {
            // Two of a slot, their totals going along.
            let count = state.settings.count as usize;
            for row in [row, (row + 1) % count] {
                add(&mut history[row * window + slot], HALF);
                add(&mut state.used[row], HALF);
            }
        }
        23 => {
            // One more in the line: a thread, flagged once more, or a
            // number that is no thread's.
            let entry = random.pick(&[t as u8, 64, 255]);
            state.queue[state.queued as usize % 64] = entry;
            state.queued += 1;
            state.ready[t] += u8::from(entry < 64);
        }
        24..=29 => turns(random, state),
        30..=32 => edition(random, &mut state.settings),
        33 => {
            // 8 comes before 7.
            edition(random, &mut state.settings);
            history.truncate(place);
        }
        _ => history.truncate(random.pick(&[history.len() - 1, place])),
    }
}

/// A policy or a slice: of a thread that exists, of the running one, or of
/// one that doesn't exist.
fn turns(random: &mut Random, state: &mut State) {
    let which = random.below(4);
    let exists = u8::from(which != 0);
    let some = (0..64).fold(0, |set, t| set | u64::from(state.exists[t] == exists) << t);
    let t = match state.running {
        running if which == 1 && running < 64 => running as usize,
        _ => random.bit(some).unwrap_or(0).into(),
    };
    let bit = 1 << random.below(8);
    let (policy, slice) = (&mut state.policies[t], &mut state.slices[t]);
    match random.below(9) {
        0 => *policy = random.pick(&[2, 3, 255]),
        1 => *policy ^= 1,
        2 => *policy ^= bit,
        3 => *slice = random.pick(&[0, 5, 255]),
        4 => *slice = random.pick(&[1, 2, 3, 4]),
        5 => *slice ^= bit,
        // Both, so that they fit.
        6 => (*policy, *slice) = (1, random.pick(&[1, 2, 3, 4])),
        7 => (*policy, *slice) = (0, 0),
        // Running, at the last tick of its slice, wherever it stands.
        _ => {
            (*policy, *slice) = (1, 1);
            state.running = t as u32;
        }
    }
}

/// One byte of some numbers.
pub fn byte(numbers: &mut [u32], place: usize) -> &mut u8 {
    let number: *mut u32 = &mut numbers[place / 4];
    unsafe { &mut *number.cast::<u8>().add(place % 4) }
}

/// Something to add.
fn step(random: &mut Random) -> u32 {
    let bit = 1 << random.below(32);
    random.pick(&[1, u32::MAX, 100, bit])
}

fn add(number: &mut u32, by: u32) {
    *number = number.wrapping_add(by);
}
