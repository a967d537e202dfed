//! The share sheet: twelve-byte text records, read and written.

use crate::counts::{Cycles, Percent, Ticks};
use crate::{refusal, PARTITIONS, RECORD};

/// Letters of the records before the shares, in their order. The last one is
/// there only where the sheet states its edition.
const HEAD: [u8; 5] = *b"WCPME";
const EDITION: usize = 4;
const MOST_RECORDS: usize = HEAD.len() + PARTITIONS;

/// What a sheet says. The fields are plain, so that a caller can also fill
/// in numbers that are out of limits; [`write_sheet`] refuses those.
#[derive(Clone, Copy, Debug, PartialEq, Eq)]
pub struct Settings {
    /// W, the averaging window.
    pub window: Ticks,
    /// C, the cycles a tick.
    pub tick: Cycles,
    /// P: 0 default, 1 ratio.
    pub policy: u32,
    /// M: the core this scheduler decides for.
    pub core: u32,
    /// E, the edition of the budget test: 1 where a quarter of a tick must
    /// remain, 2 where a half must. It is 1 where the sheet doesn't state it.
    pub edition: u32,
    /// Whether the sheet states it: 0 or 1.
    pub edition_stated: u32,
    /// How many partitions there are.
    pub partitions: usize,
    /// Their shares. Those past the count are not looked at when writing
    /// and are 0 after reading.
    pub shares: [Percent; PARTITIONS],
}

impl Settings {
    /// The cycles that must remain of a budget: half a tick in edition 2, else
    /// a quarter. A tick is a multiple of 100, so both are whole.
    pub fn need(&self) -> Cycles {
        let parts = if self.edition == 2 { 2 } else { 4 };
        Cycles(self.tick.0 / parts)
    }
}

/// Reads a sheet. One byte, the fifth record's first, says how many records
/// there may be; then the form of all of them is tested before any limit.
pub fn read_sheet(sheet: &[u8]) -> Result<Settings, u8> {
    let stated = sheet.get(EDITION * RECORD) == Some(&HEAD[EDITION]);
    let head = head(stated);
    let count = sheet.len() / RECORD;
    if sheet.len() % RECORD != 0 || !(head.len() + 1..=head.len() + PARTITIONS).contains(&count) {
        return Err(refusal::RECORD_COUNT);
    }
    let mut numbers = [0; MOST_RECORDS];
    for (place, record) in sheet.chunks_exact(RECORD).enumerate() {
        let (letter, number) = label(head, place);
        numbers[place] = read_record(record, letter, number).ok_or(refusal::FORM)?;
    }
    let mut shares = [Percent(0); PARTITIONS];
    for (share, &number) in shares.iter_mut().zip(&numbers[head.len()..]) {
        *share = Percent(number);
    }
    let settings = Settings {
        window: Ticks(numbers[0]),
        tick: Cycles(numbers[1]),
        policy: numbers[2],
        core: numbers[3],
        edition: if stated { numbers[EDITION] } else { 1 },
        edition_stated: stated.into(),
        partitions: count - head.len(),
        shares,
    };
    within_limits(&settings)?;
    Ok(settings)
}

/// Writes a sheet and answers its length. The edition is written where it is
/// stated. Bytes after the sheet, and the whole buffer after a refusal, stay as
/// they were.
pub fn write_sheet(settings: &Settings, out: &mut [u8]) -> Result<usize, u8> {
    if !(1..=PARTITIONS).contains(&settings.partitions) {
        return Err(refusal::RECORD_COUNT);
    }
    within_limits(settings)?;
    let head = head(settings.edition_stated == 1);
    let count = head.len() + settings.partitions;
    let out = out.get_mut(..count * RECORD).ok_or(refusal::BUFFER)?;
    for (place, record) in out.chunks_exact_mut(RECORD).enumerate() {
        let (letter, number) = label(head, place);
        let value = match letter {
            b'W' => settings.window.0,
            b'C' => settings.tick.0,
            b'P' => settings.policy,
            b'M' => settings.core,
            b'E' => settings.edition,
            _ => settings.shares[usize::from(number)].0,
        };
        write_record(record, letter, number, value);
    }
    Ok(count * RECORD)
}

/// The limits 3 to 6, in their order. The count of partitions is known to
/// be right.
fn within_limits(settings: &Settings) -> Result<(), u8> {
    let Settings {
        window,
        tick,
        policy,
        core,
        edition,
        edition_stated,
        ..
    } = *settings;
    if !(2..=400).contains(&window.0) {
        return Err(refusal::WINDOW);
    }
    if tick.0 % 100 != 0 || !(100..=999_900).contains(&tick.0) {
        return Err(refusal::TICK);
    }
    // Not stated, the edition is 1 and no other.
    let is_edition = matches!((edition_stated, edition), (0, 1) | (1, 1 | 2));
    if policy > 1 || core > 7 || !is_edition {
        return Err(refusal::POLICY_CORE_OR_EDITION);
    }
    let mut sum = 0;
    for share in &settings.shares[..settings.partitions] {
        if share.0 > 100 {
            return Err(refusal::SHARES);
        }
        sum += share.0;
    }
    if sum == 100 {
        Ok(())
    } else {
        Err(refusal::SHARES)
    }
}

/// The letters before the shares of a sheet that states its edition or does
/// not.
fn head(stated: bool) -> &'static [u8] {
    if stated {
        &HEAD
    } else {
        &HEAD[..EDITION]
    }
}

/// The letter and the two-digit number that belong at a place, after such a
/// head.
fn label(head: &[u8], place: usize) -> (u8, u8) {
    match head.get(place) {
        Some(&letter) => (letter, 0),
        None => (b'S', (place - head.len()) as u8),
    }
}

/// The six-digit value of a record with the right form, or nothing.
fn read_record(record: &[u8], letter: u8, number: u8) -> Option<u32> {
    let head = [letter, b' ', b'0' + number / 10, b'0' + number % 10, b' '];
    if record[..5] != head || record[11] != b'\n' {
        return None;
    }
    let mut value = 0;
    for &byte in &record[5..11] {
        if !byte.is_ascii_digit() {
            return None;
        }
        value = value * 10 + u32::from(byte - b'0');
    }
    Some(value)
}

fn write_record(record: &mut [u8], letter: u8, number: u8, value: u32) {
    record[..5].copy_from_slice(&[letter, b' ', b'0' + number / 10, b'0' + number % 10, b' ']);
    let mut rest = value;
    for byte in record[5..11].iter_mut().rev() {
        *byte = b'0' + (rest % 10) as u8;
        rest /= 10;
    }
    record[11] = b'\n';
}
