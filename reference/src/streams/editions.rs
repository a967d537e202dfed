//! What of the editions of the budget test was reached.

use super::ties::{order, ORDERS};
use crate::counts::Cycles;
use crate::kept::Kept;
use crate::scheduler::Scheduler;
use crate::sheet::read_sheet;
use crate::{refusal, RECORD};
use std::fmt;

/// What a sheet says of the edition.
const SHEETS: [&str; 3] = ["no E", "E 1", "E 2"];
/// An edition's record that is right, and where it stands.
const RIGHT: &[u8; RECORD] = b"E 00 000001\n";
const FIFTH: usize = 4;

/// How often each thing was reached.
#[derive(Clone, Debug, Default, PartialEq, Eq)]
pub struct Editions {
    /// Sheets that are right, by what they say; and of these, those of as many
    /// records as there may be.
    right: [u64; 3],
    longest: [u64; 3],
    /// Refused with 1: five records of which the fifth begins with E, 21 without
    /// an E there, 22 with one.
    records: [u64; 3],
    /// Refused with 2 for nothing but the edition: of another form, with another
    /// number than 00, twice, in another place.
    form: [u64; 4],
    /// Refused with 5 for nothing but the edition: 0, 3, more.
    number: [u64; 3],
    /// Such an edition beside a window, a tick, and shares that are wrong, which
    /// are refused with 3, with 4, and with 5.
    beside: [u64; 3],
    /// Accepted events by what the sheet says, and on what they left the other
    /// edition would give another mode; another thread.
    told: [[u64; 2]; 3],
    /// The same by the event's kind, and by the order that partitions are
    /// compared in.
    kinds: [u64; 8],
    orders: [u64; 4],
    /// Those where as much remains as must, and nothing less would do as well;
    /// where one cycle less remains, and it would do.
    exact: [[u64; 2]; 3],
}

impl Editions {
    /// Counts a case's sheet.
    pub fn sheet(&mut self, sheet: &[u8]) {
        match read_sheet(sheet) {
            Ok(read) => {
                let which = which(read.edition, read.edition_stated);
                self.right[which] += 1;
                self.longest[which] += u64::from(read.partitions == 16);
            }
            Err(number) if sheet.len() % RECORD == 0 => self.refused(sheet, number),
            Err(_) => {}
        }
    }

    /// Counts a refused sheet of whole records.
    fn refused(&mut self, sheet: &[u8], number: u8) {
        let records: Vec<&[u8]> = sheet.chunks(RECORD).collect();
        let places: Vec<usize> = (0..records.len())
            .filter(|&place| records[place][0] == RIGHT[0])
            .collect();
        let is_fifth = places.contains(&FIFTH);
        if number == refusal::RECORD_COUNT {
            match (records.len(), is_fifth) {
                (5, true) => self.records[0] += 1,
                (21, false) => self.records[1] += 1,
                (22, true) => self.records[2] += 1,
                _ => {}
            }
            return;
        }
        // The sheet with all its editions taken out and a right one put in.
        let mut mended: Vec<&[u8]> = records.clone();
        mended.retain(|record| record[0] != RIGHT[0]);
        mended.insert(FIFTH.min(mended.len()), RIGHT);
        let mended = read_sheet(&mended.concat()).err();
        match (number, mended, &places[..]) {
            (refusal::FORM, None, [FIFTH]) => {
                let record = records[FIFTH];
                let rest_is_right = record[..2] == RIGHT[..2]
                    && record[2..4].iter().all(u8::is_ascii_digit)
                    && record[4] == RIGHT[4];
                self.form[usize::from(rest_is_right && record[2..4] != RIGHT[2..4])] += 1;
            }
            (refusal::FORM, None, [FIFTH, _]) => self.form[2] += 1,
            (refusal::FORM, None, [_]) => self.form[3] += 1,
            (refusal::WINDOW, Some(refusal::WINDOW), [FIFTH]) => self.misstated(records[FIFTH], 0),
            (refusal::TICK, Some(refusal::TICK), [FIFTH]) => self.misstated(records[FIFTH], 1),
            (refusal::POLICY_CORE_OR_EDITION, Some(refusal::SHARES), [FIFTH]) => {
                self.misstated(records[FIFTH], 2)
            }
            (refusal::POLICY_CORE_OR_EDITION, None, [FIFTH]) => {
                self.number[match &records[FIFTH][5..11] {
                    b"000000" => 0,
                    b"000003" => 1,
                    _ => 2,
                }] += 1
            }
            _ => {}
        }
    }

    /// Counts an edition that is none beside another fault.
    fn misstated(&mut self, record: &[u8], fault: usize) {
        let is_none = !matches!(&record[5..11], b"000001" | b"000002");
        self.beside[fault] += u64::from(is_none);
    }

    /// Counts an accepted event by the state that it left.
    pub fn count(&mut self, event: &[u8], left: &Scheduler) {
        let settings = left.settings();
        let sheet = which(settings.edition, settings.edition_stated);
        let need = settings.need().0;
        let quarter = settings.tick.0 / 4;
        let remains = |p: usize| {
            let (budget, used, _) = left.account(p);
            i64::from(budget.0) - i64::from(used.0)
        };
        let competing = (0..settings.partitions).filter(|p| left.competing() >> p & 1 == 1);
        let remaining: Vec<i64> = competing.map(remains).collect();
        let some = |low: u32, high: u32| {
            let range = i64::from(low)..i64::from(high);
            remaining.iter().any(|remains| range.contains(remains))
        };
        let is_otherwise = |need: u32| {
            let (now, other) = (left.decision(), left.decision_with(Cycles(need)));
            [now.mode != other.mode, now.thread != other.thread]
        };
        if some(quarter, 2 * quarter) {
            let told = is_otherwise(3 * quarter - need);
            for (count, told) in self.told[sheet].iter_mut().zip(told) {
                *count += u64::from(told);
            }
            let any = u64::from(told != [false; 2]);
            self.kinds[usize::from(event[0] & 7)] += any;
            self.orders[order(left)] += any;
        }
        for (less, count) in self.exact[sheet].iter_mut().enumerate() {
            let at = need - less as u32;
            let other = need + 1 - 2 * less as u32;
            *count += u64::from(some(at, at + 1) && is_otherwise(other) != [false; 2]);
        }
    }

    /// Was everything reached?
    pub fn complete(&self) -> bool {
        let all = |counts: &[u64]| counts.iter().all(|&count| count > 0);
        all(&self.right)
            && all(&self.longest)
            && all(&self.records)
            && all(&self.form)
            && all(&self.number)
            && all(&self.beside)
            && all(self.told.as_flattened())
            && all(&self.kinds[1..])
            && all(&self.orders)
            && all(self.exact.as_flattened())
    }
}

/// The place of an edition among [`SHEETS`].
fn which(edition: u32, stated: u32) -> usize {
    match (stated, edition) {
        (0, _) => 0,
        (_, 1) => 1,
        _ => 2,
    }
}

impl fmt::Display for Editions {
    fn fmt(&self, f: &mut fmt::Formatter) -> fmt::Result {
        let numbers = |counts: &[u64]| {
            let words: Vec<String> = counts.iter().map(u64::to_string).collect();
            words.join(", ")
        };
        let names = SHEETS.join(", ");
        writeln!(f, "right sheets, {names}: {}", numbers(&self.right))?;
        writeln!(f, "  of 16 partitions: {}", numbers(&self.longest))?;
        writeln!(
            f,
            "sheets refused for five records with E, 21 without, 22 with: {}",
            numbers(&self.records)
        )?;
        writeln!(
            f,
            "  for an edition alone, of another form, another number than 00, twice, elsewhere: {}",
            numbers(&self.form)
        )?;
        writeln!(
            f,
            "  for an edition alone of 0, of 3, of more: {}",
            numbers(&self.number)
        )?;
        writeln!(
            f,
            "  with such an edition and a wrong window, tick, shares: {}",
            numbers(&self.beside)
        )?;
        for ((name, [mode, thread]), [at, below]) in SHEETS.iter().zip(&self.told).zip(&self.exact)
        {
            writeln!(
                f,
                "{name}: the other edition would give another mode {mode}, another thread {thread}; \
                 decided by a cycle, with just enough {at}, with one too few {below}"
            )?;
        }
        writeln!(
            f,
            "  the edition tells, accepted kinds 1 to 7: {}",
            numbers(&self.kinds[1..])
        )?;
        for (name, count) in ORDERS.iter().zip(&self.orders) {
            writeln!(f, "  the edition tells, in the order of {name}: {count}")?;
        }
        Ok(())
    }
}
