//! Showing a case and counting what was reached.

use super::editions::Editions;
use super::maker::{BLOCK, CREATE, END, READY, RESUME, SET, TICK};
use super::moves::Moves;
use super::slices::Slices;
use super::ties::Ties;
use super::Case;
use crate::scheduler::Scheduler;
use crate::RECORD;
use std::fmt;

/// A case in readable form: the sheet's text, then a line for each event.
impl fmt::Display for Case {
    fn fmt(&self, f: &mut fmt::Formatter) -> fmt::Result {
        writeln!(f, "sheet, {} bytes", self.sheet.len())?;
        for record in self.sheet.split_inclusive(|&byte| byte == b'\n') {
            match record.strip_suffix(b"\n") {
                Some(text) => writeln!(f, "  {}", text.escape_ascii())?,
                None => writeln!(f, "  {} (no line feed)", record.escape_ascii())?,
            }
        }
        writeln!(f, "events, {} bytes", self.events.len())?;
        for (number, record) in self.events.chunks(RECORD).enumerate() {
            write!(f, "{number:6} ")?;
            write_event(f, record)?;
        }
        Ok(())
    }
}

/// One event's fields, used or not, and a line feed.
pub fn write_event(f: &mut impl fmt::Write, record: &[u8]) -> fmt::Result {
    let &[kind, thread, partition, priority, s0, s1, s2, s3, mask, policy, y, z] = record else {
        return writeln!(f, "cut     {record:02x?}");
    };
    let name = match kind {
        TICK => "tick",
        CREATE => "create",
        READY => "ready",
        BLOCK => "block",
        SET => "set",
        END => "end",
        RESUME => "resume",
        _ => "?",
    };
    let stamp = u32::from_le_bytes([s0, s1, s2, s3]);
    write!(
        f,
        "{name:6} {kind:3} thread {thread:3} partition {partition:3} priority {priority:3} \
         stamp {stamp:10} mask {mask:08b} policy {policy:3}"
    )?;
    match [y, z] {
        [0, 0] => writeln!(f),
        spare => writeln!(f, " spare {spare:02x?}"),
    }
}

/// How often each refusal, each mode and each thing about slices, places, ties
/// and editions was reached.
#[derive(Clone, Debug, Default, PartialEq, Eq)]
pub struct Reach {
    pub cases: u64,
    pub lines: u64,
    /// By number; place 0 counts what was accepted.
    pub refusals: [u64; 15],
    /// Of the accepted events alone.
    pub modes: [u64; 4],
    /// Accepted events by kind.
    pub kinds: [u64; 8],
    slices: Slices,
    moves: Moves,
    ties: Ties,
    editions: Editions,
}

impl Reach {
    /// Counts a case and the lines that some scheduler printed for it.
    pub fn count(&mut self, case: &Case, lines: &[u8]) {
        self.cases += 1;
        self.moves.new_case();
        self.editions.sheet(&case.sheet);
        let mut met = Scheduler::start(&case.sheet).ok();
        for (place, line) in lines.chunks_exact(RECORD).enumerate() {
            self.lines += 1;
            let refusal = usize::from(line[0] & 15) * 10 + usize::from(line[1] & 15);
            if let Some(count) = self.refusals.get_mut(refusal) {
                *count += 1;
            }
            if refusal == 0 {
                self.modes[usize::from(line[3] & 3)] += 1;
                if let Some(kind) = case.events.get(place * RECORD) {
                    self.kinds[usize::from(kind & 7)] += 1;
                }
            }
            if let Some(met) = &mut met {
                let event = &case.events[place * RECORD..];
                let event = &event[..event.len().min(RECORD)];
                self.slices.count(met, event, refusal);
                let mut left = met.clone();
                left.event(event);
                if refusal == 0 {
                    self.moves.count(met, event, &left);
                    self.ties.count(met, event, &left);
                    self.editions.count(event, &left);
                }
                *met = left;
            }
        }
    }

    /// Was every refusal a stream can give, every mode and everything about
    /// slices, places, ties and editions reached?
    pub fn complete(&self) -> bool {
        let refusals = (0..15).filter(|number| !(7..=8).contains(number));
        refusals
            .map(|number| self.refusals[number])
            .all(|count| count > 0)
            && self.modes.iter().all(|&count| count > 0)
            && self.slices.complete()
            && self.moves.complete()
            && self.ties.complete()
            && self.editions.complete()
    }
}

impl fmt::Display for Reach {
    fn fmt(&self, f: &mut fmt::Formatter) -> fmt::Result {
        writeln!(f, "cases {}, lines {}", self.cases, self.lines)?;
        writeln!(f, "accepted {}", self.refusals[0])?;
        for (number, count) in self.refusals.iter().enumerate().skip(1) {
            writeln!(f, "refusal {number:2}: {count}")?;
        }
        for (mode, count) in self.modes.iter().enumerate() {
            writeln!(f, "mode {mode}: {count}")?;
        }
        for (kind, count) in self.kinds.iter().enumerate().skip(1) {
            writeln!(f, "accepted kind {kind}: {count}")?;
        }
        write!(
            f,
            "{}{}{}{}",
            self.slices, self.moves, self.ties, self.editions
        )
    }
}
