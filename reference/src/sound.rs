//! Whether the doors refuse a state, worked out in the plainest way from
//! "Sound means" of document 01 and requests (i) and (iv) of document 02. The
//! reference has no states that others may change; this is what the proved
//! doors' answers are compared with.

use crate::proved::{Settings, State};
use crate::states::Saved;

/// 7, 8 or 0 for a state beside a history.
pub fn refused(Saved { state, history }: &Saved) -> u8 {
    let settings = &state.settings;
    if !within_limits(settings) {
        return 8;
    }
    let rows = settings.count as usize * settings.window as usize;
    match history.get(..rows) {
        None => 7,
        Some(rows) if accounts(state, rows) && threads(state) => 0,
        Some(_) => 8,
    }
}

fn within_limits(settings: &Settings) -> bool {
    let Settings {
        window,
        tick,
        policy,
        core,
        count,
        shares,
        ..
    } = settings;
    (2..=400).contains(window)
        && (100..=999_900).contains(tick)
        && tick % 100 == 0
        && *policy <= 1
        && *core <= 7
        && misstated(settings).is_none()
        && (1..=16).contains(count)
        && sum(&shares[..*count as usize]) == 100
}

/// What the edition and whether it is stated may be wrong by.
#[derive(Clone, Copy)]
pub enum Misstated {
    /// Stated, and neither 1 nor 2.
    Number,
    /// Not stated, and not 1.
    Unstated,
    /// Neither stated nor not: a flag above 1.
    Flag,
}

fn misstated(settings: &Settings) -> Option<Misstated> {
    match (settings.edition_stated, settings.edition) {
        (0, 1) | (1, 1 | 2) => None,
        (0, _) => Some(Misstated::Unstated),
        (1, _) => Some(Misstated::Number),
        _ => Some(Misstated::Flag),
    }
}

/// What settings are refused for, if that is the edition and all else is within
/// its limits.
pub fn misstated_alone(settings: &Settings) -> Option<Misstated> {
    misstated(settings).filter(|_| within_limits(&unstated(settings)))
}

/// What a state's edition is wrong by, and what the state would be refused with
/// if it were not.
pub fn refused_for_edition(saved: &Saved) -> Option<(Misstated, u8)> {
    let cause = misstated(&saved.state.settings)?;
    let mut without = saved.clone();
    without.state.settings = unstated(&saved.state.settings);
    Some((cause, refused(&without)))
}

fn unstated(settings: &Settings) -> Settings {
    Settings {
        edition: 1,
        edition_stated: 0,
        ..*settings
    }
}

fn accounts(state: &State, rows: &[u32]) -> bool {
    let window = state.settings.window as usize;
    let count = state.settings.count as usize;
    let longest = 2 * u64::from(state.settings.tick);
    let since = u64::from(state.since);
    let slot = state.slot as usize;
    let in_slot = |k: usize| -> u64 { rows.iter().skip(k).step_by(window).map(wide).sum() };
    slot < window
        && since <= longest
        && rows
            .chunks(window)
            .zip(&state.used)
            .all(|(row, used)| sum(row) == wide(used))
        && (0..window).all(|k| in_slot(k) <= longest)
        && in_slot(slot) <= since
        && state.settings.shares[count..].iter().all(|&n| n == 0)
        && state.used[count..].iter().all(|&n| n == 0)
}

fn threads(state: &State) -> bool {
    let queued = state.queued as usize;
    if queued > 64 {
        return false;
    }
    let (line, unused) = state.queue.split_at(queued);
    let times = |t: usize| line.iter().filter(|&&u| usize::from(u) == t).count();
    line.iter().all(|&t| t < 64)
        && unused.iter().all(|&t| t == 0)
        && (0..64).all(|t| thread(state, t) && times(t) == usize::from(state.ready[t]))
        && (state.running == 255
            || line.iter().any(|&t| u32::from(t) == state.running)
                && state.masks[state.running as usize] >> state.settings.core & 1 == 1)
}

/// A thread's record: its flags are 0 or 1, and an absent one's are all 0.
fn thread(state: &State, t: usize) -> bool {
    let (partition, mask) = (state.partitions[t], state.masks[t]);
    state.ready[t] <= 1
        && unfit(state, t).is_none()
        && match state.exists[t] {
            0 => [state.ready[t], partition, state.priorities[t], mask] == [0; 4],
            1 => u32::from(partition) < state.settings.count && mask != 0,
            _ => false,
        }
}

/// What a thread's policy and slice may be wrong by.
#[derive(Clone, Copy)]
pub enum Unfit {
    /// A policy above 1.
    Policy,
    /// A round-robin slice that is not 1 to 4, or any other that is not 0.
    Slice,
    /// A policy or a slice of a thread that does not exist.
    Absent,
}

fn unfit(state: &State, t: usize) -> Option<Unfit> {
    match (state.exists[t], state.policies[t], state.slices[t]) {
        (_, 0, 0) => None,
        (0, ..) => Some(Unfit::Absent),
        (_, 1, 1..=4) => None,
        (_, 0..=1, _) => Some(Unfit::Slice),
        _ => Some(Unfit::Policy),
    }
}

/// What a state is refused for, if that is a policy or a slice and all else
/// is sound.
pub fn refused_for(saved: &Saved) -> Option<Unfit> {
    let unfit = (0..64).find_map(|t| unfit(&saved.state, t))?;
    let mut without = saved.clone();
    without.state.policies = [0; 64];
    without.state.slices = [0; 64];
    (refused(&without) == 0).then_some(unfit)
}

fn sum(numbers: &[u32]) -> u64 {
    numbers.iter().map(wide).sum()
}

fn wide(n: &u32) -> u64 {
    u64::from(*n)
}
