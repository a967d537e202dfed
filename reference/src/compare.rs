//! Compares the proved scheduler with the reference, in process, through
//! all doors of the C interface.
//!
//!   compare [count [first]]    fixed cases, then the streams of so many
//!                              seeds, 20,000 from 0 on if nothing is said
//!
//! Every case's sheet is read and written back, and its events go through
//! one run and through single events, after each of which the whole state
//! and history have to be the reference's. One of eight goes also through
//! runs of a few records, with decision and remaining asked after each
//! event, and on states changed on purpose: what the doors owe there is what
//! `sound.rs` says, and what the plain scheduler makes of a sound one. All
//! that is lent lies between fences (`fenced.rs`). A difference prints the
//! sheet and the events up to it, and ends with 1.

mod damage;
mod fenced;
mod fixed;
mod proved;
mod sound;
mod states;
mod tally;

use fenced::{Edge, Fenced};
use proved::{Settings, State};
use reference::plain::Plain;
use reference::streams::{answer, stream, Case, Random, Reach};
use reference::{
    read_sheet, write_sheet, Balance, Cycles, Kept, Line, Scheduler, NO_THREAD, RECORD,
};
use states::Saved;
use std::process::ExitCode;
use std::sync::atomic::{AtomicU64, Ordering};
use std::time::Instant;
use tally::Tally;

/// Bytes that the longest lent array may have: the longest streams have
/// 60,000.
const ROOM: usize = 100_000;
/// What stands in lent memory before a call.
const OLD_BYTE: u8 = 0xA5;
const OLD_NUMBER: u32 = u32::from_ne_bytes([OLD_BYTE; 4]);
/// Kinds of events.
const TICK: u8 = 1;
const BLOCK: u8 = 4;
const SET: u8 = 5;
const END: u8 = 6;
const RESUME: u8 = 7;
/// Numbers of history behind the rows.
const BEHIND: usize = 5;
/// Of how many states each byte takes all other values, and how long their
/// history may be, in numbers.
const THOROUGH: u64 = 24;
const SHORT: usize = 128;

/// What differs, and at which event if it is one.
struct Difference {
    what: String,
    event: Option<usize>,
}

type Checked = Result<(), Difference>;

fn differs(what: impl Into<String>) -> Difference {
    Difference {
        what: what.into(),
        event: None,
    }
}

fn check(fine: bool, what: &str) -> Checked {
    fine.then_some(()).ok_or_else(|| differs(what))
}

fn same<T: PartialEq + std::fmt::Debug>(what: &str, wanted: &T, found: &T) -> Checked {
    (wanted == found)
        .then_some(())
        .ok_or_else(|| differs(format!("{what}: {wanted:?} is wanted, and not {found:?}")))
}

/// Holds a state and its history to what they have to be.
fn same_saved(what: &str, wanted: &Saved, found: &Saved) -> Checked {
    if wanted == found {
        return Ok(());
    }
    let mut states = [wanted.state, found.state];
    let [state, other] = states.each_mut().map(|state| &state.bytes()[..]);
    first_difference(&format!("{what}, byte of the state"), state, other)?;
    let what = format!("{what}, number of the history");
    first_difference(&what, &wanted.history, &found.history)
}

fn first_difference<T: PartialEq + std::fmt::Debug>(
    what: &str,
    wanted: &[T],
    found: &[T],
) -> Checked {
    let mut pairs = wanted.iter().zip(found).enumerate();
    pairs.try_for_each(|(place, (wanted, found))| same(&format!("{what} {place}"), wanted, found))
}

struct Comparison {
    random: Random,
    fenced: Fenced,
    reach: Reach,
    tally: Tally,
}

impl Comparison {
    fn new() -> Comparison {
        Comparison {
            random: Random::new(0),
            fenced: Fenced::new(ROOM),
            reach: Reach::default(),
            tally: Tally::default(),
        }
    }

    /// A number below n.
    fn below(&mut self, n: usize) -> usize {
        self.random.below(n as u32) as usize
    }

    fn case(&mut self, seed: u64, case: &Case, lines: &[u8], closely: bool) -> Checked {
        self.random = Random::new(seed);
        self.fenced.edge = self.random.pick(&[Edge::First, Edge::Last]);
        self.reach.count(case, lines);
        let second = Scheduler::start(&case.sheet).ok();
        self.sheet(case, closely)?;
        self.start(case, second.as_ref())?;
        let Some(second) = second else {
            return Ok(());
        };
        self.run(case, &second, lines, lines.len() + 2 * RECORD)?;
        let last = self.events(case, &second, closely)?;
        if closely {
            let room = self.below(lines.len() + 1);
            self.run(case, &second, lines, room)?;
            self.records(case, &second, lines)?;
            self.each_byte(&last, seed % 320 == 0)?;
        }
        Ok(())
    }

    /// The sheet read, and written back.
    fn sheet(&mut self, case: &Case, closely: bool) -> Checked {
        let mut sheet = case.sheet.clone();
        let old = State::filled(OLD_BYTE).settings;
        let mut settings = old;
        let refusal = self.fenced.read_sheet(&mut sheet, &mut settings);
        let (told, read) = match read_sheet(&case.sheet) {
            Ok(read) => (0, states::settings(&read)),
            Err(number) => (number.into(), old),
        };
        same("read sheet", &(told, read), &(refusal, settings))?;
        check(sheet == case.sheet, "read sheet changed the sheet")?;
        if told != 0 {
            return Ok(());
        }
        self.written(&read, sheet.len())?;
        if closely {
            self.written(&read, sheet.len() - 1)?;
            let room = self.below(2 * sheet.len());
            self.written(&read, room)?;
            for _ in 0..4 {
                let mut other = read;
                damage::settings(&mut self.random, &mut other);
                let room = sheet.len() - RECORD + self.below(3 * RECORD);
                self.written(&other, room)?;
            }
            for _ in 0..4 {
                let mut other = read;
                damage::edition(&mut self.random, &mut other);
                let room = sheet.len() - 2 * RECORD + self.below(4 * RECORD);
                self.written(&other, room)?;
            }
        }
        Ok(())
    }

    /// Settings written to so much room.
    fn written(&mut self, settings: &Settings, room: usize) -> Checked {
        let mut wanted = vec![OLD_BYTE; room];
        let mut found = wanted.clone();
        let mut given = *settings;
        let told = write_sheet(&states::of_settings(settings), &mut wanted)
            .err()
            .unwrap_or(0);
        let refusal = self.fenced.write_sheet(&mut given, &mut found);
        same("write sheet", &u32::from(told), &refusal)?;
        same("what write sheet wrote", &wanted, &found)?;
        same("what write sheet was given", settings, &given)?;
        self.reach.refusals[usize::from(told)] += u64::from(told != 0);
        let cause = sound::misstated_alone(settings);
        self.tally.written(settings, room, told, cause);
        Ok(())
    }

    /// A start: with as much history as it wants, with more, with too little.
    fn start(&mut self, case: &Case, second: Option<&Scheduler>) -> Checked {
        let mut sheet = case.sheet.clone();
        let rows = second.map_or(0, |second| states::wanted(second.settings()));
        let told: u32 = match second {
            Some(_) => 0,
            None => read_sheet(&sheet).err().unwrap_or(0).into(),
        };
        for behind in [0, BEHIND] {
            let mut found = Saved::filled(OLD_BYTE, rows + behind);
            let mut wanted = found.clone();
            if let Some(second) = second {
                wanted.set(second);
            }
            let refusal = self.fenced.start(&mut sheet, &mut found);
            same("start", &told, &refusal)?;
            same_saved("a start", &wanted, &found)?;
        }
        if second.is_some() {
            // One number too few, or any number of them.
            let any = self.below(rows);
            let short = self.random.pick(&[rows - 1, any]);
            let mut found = Saved::filled(OLD_BYTE, short);
            let wanted = found.clone();
            let refusal = self.fenced.start(&mut sheet, &mut found);
            same("start with too short a history", &7, &refusal)?;
            same_saved("a start with too short a history", &wanted, &found)?;
            self.reach.refusals[7] += 1;
        }
        check(sheet == case.sheet, "start changed the sheet")
    }

    /// All events in one run, with so much room for lines.
    fn run(&mut self, case: &Case, second: &Scheduler, lines: &[u8], room: usize) -> Checked {
        let mut second = second.clone();
        let mut saved = Saved::filled(OLD_BYTE, states::wanted(second.settings()) + BEHIND);
        saved.set(&second);
        let mut wanted = saved.clone();
        let mut events = case.events.clone();
        let mut found = vec![OLD_BYTE; room];
        let refusal = self.fenced.run(&mut saved, &mut events, &mut found);
        same("run", &0, &refusal)?;
        let whole = lines.len().min(room - room % RECORD);
        let (written, rest) = found.split_at(whole);
        same_lines("the run", &lines[..whole], written)?;
        check(
            rest.iter().all(|&byte| byte == OLD_BYTE),
            "something was written after the lines",
        )?;
        check(events == case.events, "run changed the events")?;
        for event in case.events.chunks(RECORD).take(whole / RECORD) {
            second.event(event);
        }
        wanted.set(&second);
        same_saved("after the run", &wanted, &saved)
    }

    /// By single events, each followed by a look at the whole state. What
    /// the last one left comes back.
    fn events(
        &mut self,
        case: &Case,
        second: &Scheduler,
        closely: bool,
    ) -> Result<Saved, Difference> {
        let mut second = second.clone();
        let mut saved = Saved::filled(OLD_BYTE, states::wanted(second.settings()));
        saved.set(&second);
        let mut wanted = saved.clone();
        for (place, record) in case.events.chunks(RECORD).enumerate() {
            let here = |difference| Difference {
                event: Some(place),
                ..difference
            };
            if closely && self.below(16) == 0 {
                let mut changed = saved.clone();
                damage::saved(&mut self.random, &mut changed);
                self.on_any_state(&changed, record).map_err(here)?;
            }
            // A tie is where the running thread tells most.
            let seldom = if second.tied().count_ones() > 1 {
                2
            } else {
                16
            };
            if closely && self.below(seldom) == 0 {
                self.another_running(&saved, record).map_err(here)?;
            }
            if closely {
                self.another_edition(&second, &saved, record)
                    .map_err(here)?;
            }
            let mut event = record.to_vec();
            let line = self.fenced.event(&mut saved, &mut event);
            let told = second.event(record);
            same("an event", &told, &line).map_err(here)?;
            // A refused one leaves what was there before.
            if told.refusal == 0 {
                wanted.set(&second);
            }
            same_saved("after an event", &wanted, &saved).map_err(here)?;
            same("an event's bytes", &record, &&event[..]).map_err(here)?;
            self.tally.events += 1;
            if closely {
                self.asked(&second, &mut saved, &told).map_err(here)?;
                same_saved("after decision and remaining", &wanted, &saved).map_err(here)?;
            }
        }
        Ok(saved)
    }

    /// Decision, which is the event's where that was accepted, and remaining of
    /// each partition and of some that are not there.
    fn asked(&mut self, second: &Scheduler, saved: &mut Saved, told: &Line) -> Checked {
        let decision = self.fenced.decision(saved);
        same("decision", &second.decision(), &decision)?;
        if told.refusal == 0 {
            same("the decision after an event", told, &decision)?;
            let tied = second.tied();
            let lowest = (tied != 0).then_some(tied.trailing_zeros() as usize);
            self.tally.repeated(told, lowest);
        }
        let count = second.settings().partitions as u32;
        for partition in (0..=count).chain([16, 256, 1 << 16, 1 << 31, u32::MAX]) {
            let told = second.remaining(partition as usize);
            self.remaining(saved, partition, told)?;
        }
        self.tally.asked += 1;
        Ok(())
    }

    fn remaining(
        &mut self,
        saved: &mut Saved,
        partition: u32,
        told: Result<Balance, u8>,
    ) -> Checked {
        let mut found = OLD_NUMBER;
        let refusal = self.fenced.remaining(saved, partition, &mut found);
        let wanted = match told {
            Ok(Balance(remaining)) => (0, remaining as u32),
            Err(number) => (number.into(), OLD_NUMBER),
        };
        same("remaining", &wanted, &(refusal, found))
            .map_err(|difference| differs(format!("partition {partition}: {}", difference.what)))
    }

    /// By runs of a few records.
    fn records(&mut self, case: &Case, second: &Scheduler, lines: &[u8]) -> Checked {
        let mut second = second.clone();
        let mut saved = Saved::filled(OLD_BYTE, states::wanted(second.settings()));
        saved.set(&second);
        let mut wanted = saved.clone();
        let mut found = vec![OLD_BYTE; lines.len()];
        let mut at = 0;
        while at < case.events.len() {
            let end = case.events.len().min(at + RECORD * (1 + self.below(40)));
            let mut events = case.events[at..end].to_vec();
            let refusal = self.fenced.run(&mut saved, &mut events, &mut found[at..]);
            same("a run of a few records", &0, &refusal)?;
            for event in events.chunks(RECORD) {
                second.event(event);
                self.tally.records += 1;
            }
            wanted.set(&second);
            same_saved("after a run of a few records", &wanted, &saved)?;
            at = end;
        }
        same_lines("runs of a few records", lines, &found)
    }

    /// All doors that are given a state, on any state.
    fn on_any_state(&mut self, given: &Saved, record: &[u8]) -> Checked {
        let refusal = sound::refused(given);
        let mut plain = (refusal == 0).then(|| states::plain(given));
        let refused = Line::refused(refusal);

        let mut saved = given.clone();
        let decision = self.fenced.decision(&mut saved);
        let told = plain.as_ref().map_or(refused, Plain::decision);
        same("decision on a changed state", &told, &decision)?;
        if let Some(plain) = &plain {
            self.tally.decided(&given.state, plain);
        }
        let count = given.state.settings.count;
        let partition = self.random.below(18);
        let told = match &plain {
            None => Err(refusal),
            Some(_) if partition >= count => Err(12),
            Some(plain) => Ok(Balance(plain.remaining(partition as usize))),
        };
        self.remaining(&mut saved, partition, told)?;
        same_saved("decision or remaining on a changed state", given, &saved)?;

        let mut wanted = given.clone();
        let told = plain.as_mut().map_or(refused, |plain| plain.event(record));
        if let Some(plain) = &plain {
            wanted.set(plain);
        }
        let mut event = record.to_vec();
        let line = self.fenced.event(&mut saved, &mut event);
        same("an event on a changed state", &told, &line)?;
        if let Some(plain) = plain.as_ref().filter(|_| told.refusal == 0) {
            let decision = self.fenced.decision(&mut saved);
            same("the decision after it", &told, &decision)?;
            self.tally.repeated(&told, plain.tied().first().copied());
            self.tally
                .accepted(&given.state, record, plain, &wanted.state);
        }
        same_saved("after an event on a changed state", &wanted, &saved)?;

        let mut saved = given.clone();
        let mut lines = [OLD_BYTE; RECORD];
        let mut text = lines;
        if refusal == 0 {
            told.write(&mut text);
        }
        let run = self.fenced.run(&mut saved, &mut event, &mut lines);
        same("a run on a changed state", &u32::from(refusal), &run)?;
        same_saved("after a run on a changed state", &wanted, &saved)?;
        same("the line of a run on a changed state", &text, &lines)?;
        check(event == record, "an event's bytes were changed")?;

        self.reach.refusals[usize::from(refusal)] += u64::from(refusal != 0);
        self.tally.refused += u64::from(refusal != 0);
        self.tally.sound += u64::from(refusal == 0);
        if let Some(cause) = sound::refused_for(given) {
            self.tally.refused_for(cause);
        }
        if let Some((cause, otherwise)) = sound::refused_for_edition(given) {
            self.tally.misstated(cause, otherwise);
        }
        Ok(())
    }

    /// A sound state with another running thread, or with none, and nothing else
    /// changed: who runs is then not who an event left running, and is favoured
    /// all the same.
    fn another_running(&mut self, saved: &Saved, record: &[u8]) -> Checked {
        let State { masks, queue, .. } = &saved.state;
        let core = saved.state.settings.core;
        let line = queue[..saved.state.queued as usize].iter();
        let allowed = line.filter(|&&t| masks[usize::from(t)] >> core & 1 == 1);
        let running: Vec<u8> = allowed.copied().chain([NO_THREAD]).collect();
        let mut changed = saved.clone();
        changed.state.running = self.random.pick(&running).into();
        let thread = changed.state.running as u8;
        let state = &saved.state;
        let event = match self.below(8) {
            0 => self.like_another(state),
            1 => now(TICK, 0, state),
            2 => now(RESUME, 0, state),
            3 => now(BLOCK, thread, state),
            4 => now(END, thread, state),
            _ => return self.on_any_state(&changed, record),
        };
        let plains = [saved, &changed].map(states::plain);
        let decisions = plains.each_ref().map(Plain::decision);
        let answers = plains.map(|mut plain| plain.event(&event));
        self.tally.turned(decisions, answers);
        self.on_any_state(&changed, &event)
    }

    /// A sound state with another edition, or with the same one stated or not,
    /// and nothing else changed: mostly where the other edition would decide
    /// otherwise.
    fn another_edition(&mut self, second: &Scheduler, saved: &Saved, record: &[u8]) -> Checked {
        let settings = second.settings();
        let other_need = Cycles(3 * (settings.tick.0 / 4) - settings.need().0);
        let seldom = if second.decision_with(other_need) == second.decision() {
            16
        } else {
            2
        };
        if self.below(seldom) != 0 {
            return Ok(());
        }
        let mut changed = saved.clone();
        let other = &mut changed.state.settings;
        (other.edition, other.edition_stated) = self.random.pick(&[(1, 0), (1, 1), (2, 1), (2, 1)]);
        let plains = [saved, &changed].map(states::plain);
        let decisions = plains.each_ref().map(Plain::decision);
        let answers = plains.map(|mut plain| plain.event(record));
        self.tally.other_edition(decisions, answers);
        self.on_any_state(&changed, record)
    }

    /// Each byte of a state and of its history with other values: all of
    /// them for a few states, where flags, policies and editions above their
    /// limits have to be refused with 8, and some for more states. Every other
    /// value meets a tick, the rest a new priority.
    fn each_byte(&mut self, saved: &Saved, some: bool) -> Checked {
        let all = self.tally.thorough < THOROUGH
            && saved.history.len() <= SHORT
            && saved.state.queued >= 3;
        if !all && !some {
            return Ok(());
        }
        self.tally.thorough += u64::from(all);
        for place in 0..proved::STATE + 4 * saved.history.len() {
            let values = if all { 255 } else { 3 };
            for value in 1..=values {
                let bit = 1 << self.random.below(8);
                let by = if all { value } else { bit };
                let mut changed = saved.clone();
                let byte = match place.checked_sub(proved::STATE) {
                    None => &mut changed.state.bytes()[place],
                    Some(place) => damage::byte(&mut changed.history, place),
                };
                *byte ^= by;
                if damage::is_beyond(place, *byte) {
                    let refusal = sound::refused(&changed);
                    same("a byte above what it may be", &8, &refusal)?;
                    self.tally.beyond += 1;
                }
                let event = match (place + usize::from(value)) % 2 {
                    0 => now(TICK, 0, &saved.state),
                    _ => self.like_another(&saved.state),
                };
                self.on_any_state(&changed, &event)
                    .map_err(|Difference { what, event }| Difference {
                        what: format!("byte {place} changed by {by}: {what}"),
                        event,
                    })?;
            }
        }
        Ok(())
    }

    /// A thread of the line gets the priority of another there, at the time of
    /// a state; a tick where the line is empty.
    fn like_another(&mut self, state: &State) -> [u8; RECORD] {
        let mut event = now(TICK, 0, state);
        if let line @ [_, ..] = &state.queue[..state.queued as usize] {
            let [thread, other] = [0; 2].map(|_| self.random.pick(line));
            event[0] = SET;
            event[1] = thread;
            event[3] = state.priorities[usize::from(other)];
        }
        event
    }
}

/// An event of a thread, or of none, at the time of a state.
fn now(kind: u8, thread: u8, state: &State) -> [u8; RECORD] {
    let mut event = [0; RECORD];
    event[..2].copy_from_slice(&[kind, thread]);
    event[4..8].copy_from_slice(&state.stamp.to_le_bytes());
    event
}

/// Holds some lines to those of the reference.
fn same_lines(through: &str, expected: &[u8], lines: &[u8]) -> Checked {
    let records = || expected.chunks(RECORD).zip(lines.chunks(RECORD));
    match records().position(|(a, b)| a != b) {
        None => check(expected.len() == lines.len(), "the count of lines"),
        Some(place) => {
            let (a, b) = (&expected[place * RECORD..], &lines[place * RECORD..]);
            let text = |line: &[u8]| line[..RECORD - 1].escape_ascii().to_string();
            Err(Difference {
                what: format!(
                    "line {place} of {through}: {} from the reference, {} from the proved one",
                    text(a),
                    text(b)
                ),
                event: Some(place),
            })
        }
    }
}

/// The seed that is being compared, or none while the fixed cases are, for
/// the handler of a fault.
static SEED: AtomicU64 = AtomicU64::new(NO_SEED);
const NO_SEED: u64 = u64::MAX;

extern "C" fn fault(_: std::ffi::c_int) {
    let case = match SEED.load(Ordering::Relaxed) {
        NO_SEED => "a fixed case".into(),
        seed => format!("seed {seed}"),
    };
    println!("compare: {case}: memory was touched that was not lent");
    std::process::exit(1);
}

/// Prints a difference with its case, cut after the event that differs.
fn report(name: &str, case: &Case, difference: &Difference) -> ExitCode {
    let mut case = case.clone();
    if let Some(event) = difference.event {
        case.events.truncate((event + 1) * RECORD);
    }
    print!("{case}");
    println!("compare: {name}: {}", difference.what);
    ExitCode::FAILURE
}

fn fixed_cases(comparison: &mut Comparison) -> Result<usize, ExitCode> {
    let cases = fixed::cases();
    for fixed in &cases {
        let lines = answer(&fixed.case);
        comparison
            .case(0, &fixed.case, &lines, true)
            .and_then(|()| {
                let what = format!("{:?} is expected at the end", fixed.lines);
                check(lines.ends_with(fixed.lines.as_bytes()), &what)
            })
            .map_err(|difference| report(fixed.name, &fixed.case, &difference))?;
    }
    for (edition, due) in [(1, 7750), (2, 8500)] {
        let case = fixed::starved(edition);
        let lines = answer(&case);
        let charged = fixed::charged(&lines);
        let name = format!("the lowest priority, share 10, edition {edition}");
        comparison
            .case(0, &case, &lines, true)
            .and_then(|()| check(charged >= due, &format!("less than {due} cycles")))
            .map_err(|difference| report(&name, &case, &difference))?;
        println!("{name}: {charged} cycles in 200 ticks, at least {due} are due");
    }
    Ok(cases.len() + 2)
}

fn compare(many: u64, first: u64) -> Result<(), ExitCode> {
    let begin = Instant::now();
    let mut comparison = Comparison::new();
    fenced::on_fault(fault);
    let fixed = fixed_cases(&mut comparison)?;
    for seed in first..first.saturating_add(many) {
        SEED.store(seed, Ordering::Relaxed);
        let case = stream(seed);
        let lines = answer(&case);
        comparison
            .case(seed, &case, &lines, seed % 8 == 0)
            .map_err(|difference| report(&format!("seed {seed}"), &case, &difference))?;
    }
    let Comparison { reach, tally, .. } = comparison;
    print!("{reach}{tally}");
    let refusals = reach.refusals.iter().all(|&count| count > 0);
    let complete = refusals && reach.complete() && tally.complete();
    if !complete {
        println!("compare: some refusal, mode or cause was not reached");
        return Err(ExitCode::FAILURE);
    }
    println!(
        "{fixed} fixed cases and {many} streams: no difference, {:.1} s",
        begin.elapsed().as_secs_f64()
    );
    Ok(())
}

fn main() -> ExitCode {
    let numbers: Option<Vec<u64>> = std::env::args()
        .skip(1)
        .map(|word| word.parse().ok())
        .collect();
    let done = match numbers.as_deref() {
        Some([]) => compare(20_000, 0),
        Some(&[many]) => compare(many, 0),
        Some(&[many, first]) => compare(many, first),
        _ => {
            println!("compare [count [first]]");
            return ExitCode::FAILURE;
        }
    };
    match done {
        Ok(()) => ExitCode::SUCCESS,
        Err(code) => code,
    }
}
