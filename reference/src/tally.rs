//! What the comparison did, and what of it has to come up at least once.

use crate::proved::{Settings, State};
use crate::sound::{Misstated, Unfit};
use reference::plain::Plain;
use reference::{Line, NO_THREAD, RECORD};
use std::fmt;

/// Kinds of events.
const BLOCK: u8 = 4;
const SET: u8 = 5;
const END: u8 = 6;

#[derive(Default)]
pub struct Tally {
    pub events: u64,
    pub records: u64,
    pub asked: u64,
    written: u64,
    pub refused: u64,
    pub sound: u64,
    /// Bytes above what they may be.
    pub beyond: u64,
    pub thorough: u64,
    /// Refused for a policy, a slice, or one of them in an absent thread, and
    /// for nothing else.
    unfit: [u64; 3],
    /// Refused for an edition that is none, one that is not stated and not 1, and
    /// a flag above 1, and for nothing else; with 8, though the history is too
    /// short as well; and of settings to be written, with 5, and though there is
    /// too little room as well.
    misstated: [u64; 3],
    before_7: [u64; 3],
    unwritten: [u64; 3],
    unwritten_before_7: u64,
    /// Sheets written: without an E, with E 1, with E 2; and those that are
    /// refused because there is room for all records but the last.
    sheets: [u64; 3],
    short: [u64; 3],
    /// Decisions, and accepted events, that another edition answered otherwise
    /// in a state of which nothing else was changed: in mode, in thread.
    editions: [[u64; 2]; 2],
    /// Of states that are still sound: new priorities that moved a thread, to
    /// the head and to the tail.
    moved: [u64; 2],
    /// Of states that are still sound: decisions, and accepted events, where two
    /// partitions or more are tied and the state's running thread alone tells
    /// who wins; and where they are tied and the state idles.
    favoured: [u64; 2],
    idle: [u64; 2],
    /// Of these events, those that blocked and ended the state's running thread.
    left: [u64; 2],
    /// Decisions, and winners after an event of no time, that another running
    /// thread, or none, changed by itself.
    turned: [u64; 2],
    /// Decisions on what an accepted event left, which have to be that event's;
    /// and those where two or more were tied and the lowest did not win.
    repeated: [u64; 2],
}

impl Tally {
    /// A state was refused, for one of these causes alone.
    pub fn refused_for(&mut self, cause: Unfit) {
        self.unfit[cause as usize] += 1;
    }

    /// A state was refused for its edition, and would have been with a number,
    /// or 0, for something else.
    pub fn misstated(&mut self, cause: Misstated, otherwise: u8) {
        match otherwise {
            0 => self.misstated[cause as usize] += 1,
            7 => self.before_7[cause as usize] += 1,
            _ => {}
        }
    }

    /// Settings were written, or refused, to so much room; the cause is an
    /// edition, and nothing else.
    pub fn written(&mut self, given: &Settings, room: usize, told: u8, cause: Option<Misstated>) {
        self.written += 1;
        if let Some(cause) = cause {
            self.unwritten[cause as usize] += 1;
            self.unwritten_before_7 += u64::from(room < RECORD * (4 + given.count as usize));
            return;
        }
        let which = match (given.edition_stated, given.edition) {
            (0, _) => 0,
            (_, 1) => 1,
            _ => 2,
        };
        match told {
            0 => self.sheets[which] += 1,
            7 => {
                let records = 4 + given.edition_stated as usize + given.count as usize;
                self.short[which] += u64::from(room / RECORD + 1 == records);
            }
            _ => {}
        }
    }

    /// Two states that differ in the edition alone were asked for their decision,
    /// and given an event.
    pub fn other_edition(&mut self, decisions: [Line; 2], answers: [Line; 2]) {
        for (counts, [one, other]) in self.editions.iter_mut().zip([decisions, answers]) {
            if one.refusal == 0 && other.refusal == 0 {
                counts[0] += u64::from(one.mode != other.mode);
                counts[1] += u64::from(one.thread != other.thread);
            }
        }
    }

    /// A sound state was asked for its decision.
    pub fn decided(&mut self, given: &State, plain: &Plain) {
        let tie = Tie::of(given, plain);
        self.favoured[0] += u64::from(tie.favours);
        self.idle[0] += u64::from(tie.idle);
    }

    /// An event was accepted in a sound state, and the plain scheduler is in the
    /// one that it left.
    pub fn accepted(&mut self, given: &State, record: &[u8], plain: &Plain, left: &State) {
        let tie = Tie::of(given, plain);
        self.favoured[1] += u64::from(tie.favours);
        self.idle[1] += u64::from(tie.idle);
        let of_running = u32::from(record[1]) == given.running;
        for (count, kind) in self.left.iter_mut().zip([BLOCK, END]) {
            *count += u64::from(tie.favours && of_running && record[0] == kind);
        }
        if record[0] == SET && left.queue != given.queue {
            let raised = left.priorities > given.priorities;
            self.moved[usize::from(raised)] += 1;
        }
    }

    /// Two states that differ in the running thread alone were asked for their
    /// decision, and given an event of no time, or a resume.
    pub fn turned(&mut self, decisions: [Line; 2], answers: [Line; 2]) {
        for (count, [one, other]) in self.turned.iter_mut().zip([decisions, answers]) {
            let accepted = one.refusal == 0 && other.refusal == 0;
            *count += u64::from(accepted && one.partition != other.partition);
        }
    }

    /// The decision on what an accepted event left was the event's.
    pub fn repeated(&mut self, answer: &Line, lowest: Option<usize>) {
        let is_lowest = lowest.is_none_or(|lowest| lowest == usize::from(answer.partition));
        self.repeated[0] += 1;
        self.repeated[1] += u64::from(!is_lowest);
    }

    /// Did each thing come up?
    pub fn complete(&self) -> bool {
        let all = |counts: &[u64]| counts.iter().all(|&count| count > 0);
        all(&self.unfit)
            && all(&self.misstated)
            && all(&self.before_7)
            && all(&self.unwritten)
            && all(&[self.unwritten_before_7])
            && all(&self.sheets)
            && all(&self.short)
            && all(self.editions.as_flattened())
            && all(&self.moved)
            && all(&self.favoured)
            && all(&self.idle)
            && all(&self.left)
            && all(&self.turned)
            && all(&self.repeated)
    }
}

/// What the running thread of a given state is to the partitions that are tied
/// for best now.
struct Tie {
    /// It works for one of them that is not the lowest.
    favours: bool,
    /// There is none, and there are two or more.
    idle: bool,
}

impl Tie {
    fn of(given: &State, plain: &Plain) -> Tie {
        let tied = plain.tied();
        let running = given.running as usize;
        let favoured = given.partitions.get(running).map(|&p| usize::from(p));
        Tie {
            favours: favoured.is_some_and(|p| tied.iter().skip(1).any(|&q| q == p)),
            idle: given.running == u32::from(NO_THREAD) && tied.len() > 1,
        }
    }
}

impl fmt::Display for Tally {
    fn fmt(&self, f: &mut fmt::Formatter) -> fmt::Result {
        writeln!(
            f,
            "single events, each with its whole state and history: {}; with decision and remaining: {}",
            self.events, self.asked
        )?;
        writeln!(
            f,
            "events by runs of a few records: {}; sheets written: {}",
            self.records, self.written
        )?;
        writeln!(
            f,
            "states changed on purpose: {} refused, {} still sound; {} with each byte at all other values, flags, policies and editions above their limits: {}",
            self.refused, self.sound, self.thorough, self.beyond
        )?;
        let [number, unstated, flag] = self.misstated;
        let [short_number, short_unstated, short_flag] = self.before_7;
        writeln!(
            f,
            "refused for an edition alone that is none: {number}, that is not stated: {unstated}, whose flag is none: {flag}; \
             with too short a history as well: {short_number}, {short_unstated}, {short_flag}"
        )?;
        let [number, unstated, flag] = self.unwritten;
        writeln!(
            f,
            "not written for the same: {number}, {unstated}, {flag}; with too little room as well: {}",
            self.unwritten_before_7
        )?;
        let [none, one, two] = self.sheets;
        let [short_none, short_one, short_two] = self.short;
        writeln!(
            f,
            "written without E, with E 1, with E 2: {none}, {one}, {two}; one record too long for the room: {short_none}, {short_one}, {short_two}"
        )?;
        let [[mode, thread], [event_mode, event_thread]] = self.editions;
        writeln!(
            f,
            "another edition alone gave another mode: {mode} decisions, {event_mode} events; another thread: {thread} decisions, {event_thread} events"
        )?;
        let [policy, slice, absent] = self.unfit;
        writeln!(
            f,
            "refused for a policy alone: {policy}, a slice alone: {slice}, one of them in an absent thread: {absent}"
        )?;
        let [head, tail] = self.moved;
        writeln!(
            f,
            "changed states where a new priority moved a thread: {head} to the head, {tail} to the tail"
        )?;
        let [decisions, events] = self.favoured;
        let [blocked, ended] = self.left;
        writeln!(
            f,
            "changed states where who runs alone tells who wins a tie: {decisions} decisions, {events} events, {blocked} that block it, {ended} that end it"
        )?;
        let [decisions, events] = self.idle;
        writeln!(
            f,
            "changed states that idle before a tie: {decisions} decisions, {events} events"
        )?;
        let [decisions, events] = self.turned;
        writeln!(
            f,
            "another running thread, or none, alone made another partition win: {decisions} decisions, {events} events of no time"
        )?;
        let [all, ties] = self.repeated;
        writeln!(
            f,
            "decisions on what an accepted event left, each that event's: {all}, of ties that the lowest did not win: {ties}"
        )
    }
}
