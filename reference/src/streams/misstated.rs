//! Sheets that are wrong by their edition.

use super::random::Random;
use super::sheets::{right_settings, sheet_text, spoil_shares};
use crate::sheet::Settings;
use crate::{PARTITIONS, RECORD};

/// Where the fifth record, the edition's, starts.
const FIFTH: usize = 4 * RECORD;

/// A sheet that is wrong by its edition, in each way as often as in any other.
/// One of 16 partitions may have too many records instead.
pub fn misstated_sheet(random: &mut Random) -> Vec<u8> {
    let mut settings = right_settings(random);
    settings.edition_stated = 1;
    let wrong = random.range(4, 999_999);
    match random.below(13) {
        // Out of its limits.
        0 => settings.edition = 0,
        1 => settings.edition = 3,
        2 => settings.edition = random.pick(&[4, 10, 101, 100_001, 200_002, 999_999, wrong]),
        // With something else that is wrong: 3 and 4 come first, and 6 doesn't.
        3..=5 => {
            settings.edition = random.pick(&[0, 3, wrong]);
            match random.below(3) {
                0 => settings.window.0 = random.pick(&[0, 1, 401]),
                1 => settings.tick.0 = random.pick(&[0, 150, 999_999]),
                _ => spoil_shares(random, &mut settings),
            }
        }
        way => return misplaced(random, settings, way - 6),
    }
    sheet_text(&settings)
}

/// One whose edition's record, or whose number of records, is wrong.
fn misplaced(random: &mut Random, settings: Settings, way: u32) -> Vec<u8> {
    let partitions = settings.partitions;
    let mut stated = sheet_text(&settings);
    let mut unstated = sheet_text(&Settings {
        edition_stated: 0,
        ..settings
    });
    let edition = stated[FIFTH..FIFTH + RECORD].to_vec();
    let last = unstated.len() / RECORD;
    match way {
        // Of another form, in one byte or in all from there on.
        0 => {
            let place = FIFTH + random.range(1, 11) as usize;
            let end = random.pick(&[place + 1, FIFTH + RECORD]);
            stated[place..end].fill(b'x');
        }
        // With another two-digit number.
        1 => {
            let number = random.pick(b"1123456789");
            stated[FIFTH + random.pick(&[2, 3])] = number;
        }
        // Twice, side by side or apart.
        2 => {
            let second = random.pick(&[5, 5, 6, last]).min(last) * RECORD;
            stated.splice(second..second, edition);
        }
        // In another place, before the fifth record or after it.
        3 => {
            let other = random.pick(&[0, 3, 3, 5, 5, last]) * RECORD;
            unstated.splice(other..other, edition);
            return unstated;
        }
        // Five records, of which the fifth is an edition, or a share that begins
        // like one.
        4 => {
            let mut five = random.pick(&[&stated, &unstated])[..FIFTH + RECORD].to_vec();
            five[FIFTH] = edition[0];
            return five;
        }
        // A share too many, without an edition and with one.
        5 => return with_seventeen(unstated, partitions),
        _ => return with_seventeen(stated, partitions),
    }
    stated
}

/// Shares of nothing at a sheet's end, the last of them for a seventeenth
/// partition.
fn with_seventeen(mut sheet: Vec<u8>, partitions: usize) -> Vec<u8> {
    for p in partitions..=PARTITIONS {
        sheet.extend_from_slice(format!("S {p:02} 000000\n").as_bytes());
    }
    sheet
}
