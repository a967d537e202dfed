//! Sheets, right ones and ones of each refusal.

use super::random::Random;
use crate::counts::{Cycles, Percent, Ticks};
use crate::sheet::{read_sheet, Settings};
use crate::{refusal, PARTITIONS, RECORD};

/// The text of a sheet whose numbers may be anything below a million.
pub fn sheet_text(settings: &Settings) -> Vec<u8> {
    let Settings {
        window,
        tick,
        policy,
        core,
        edition,
        edition_stated,
        partitions,
        shares,
    } = settings;
    let mut text = format!(
        "W 00 {:06}\nC 00 {:06}\nP 00 {:06}\nM 00 {:06}\n",
        window.0, tick.0, policy, core
    );
    if *edition_stated == 1 {
        text.push_str(&format!("E 00 {edition:06}\n"));
    }
    for (p, share) in shares[..*partitions].iter().enumerate() {
        text.push_str(&format!("S {:02} {:06}\n", p, share.0));
    }
    text.into_bytes()
}

pub fn right_sheet(random: &mut Random) -> Vec<u8> {
    sheet_text(&right_settings(random))
}

pub fn right_settings(random: &mut Random) -> Settings {
    // Now and then both limits at once: the largest numbers there are.
    let largest = random.percent(2);
    let window = match random.below(100) {
        _ if largest => 400,
        0..=11 => 2,
        12..=59 => random.range(3, 8),
        60..=84 => random.range(9, 40),
        85..=94 => random.range(41, 399),
        _ => 400,
    };
    let hundreds = match random.below(100) {
        _ if largest => 9999,
        0..=19 => 1,
        20..=49 => random.range(2, 9),
        50..=69 => 10,
        70..=84 => random.range(11, 200),
        85..=91 => random.range(201, 9998),
        _ => 9999,
    };
    let partitions = match random.below(100) {
        0..=9 => 1,
        10..=34 => 2,
        35..=69 => random.range(3, 5),
        70..=89 => random.range(6, 15),
        _ => 16,
    } as usize;
    let (edition, edition_stated) = random.pick(&[(1, 0), (1, 0), (1, 1), (2, 1), (2, 1)]);
    Settings {
        window: Ticks(window),
        tick: Cycles(hundreds * 100),
        policy: random.below(2),
        core: if random.percent(40) {
            0
        } else {
            random.below(8)
        },
        edition,
        edition_stated,
        partitions,
        shares: right_shares(random, partitions),
    }
}

/// Shares that add up to 100.
fn right_shares(random: &mut Random, partitions: usize) -> [Percent; PARTITIONS] {
    let mut shares = [Percent(0); PARTITIONS];
    let own = &mut shares[..partitions];
    match random.below(10) {
        // As even as can be, the rest in the last one: ties are frequent.
        0..=3 => {
            let each = 100 / partitions as u32;
            own.fill(Percent(each));
            own[partitions - 1] = Percent(100 - each * (partitions as u32 - 1));
        }
        // All in one, the others have nothing.
        4 => own[random.below(partitions as u32) as usize] = Percent(100),
        // Some have nothing; the others get what is thrown at them.
        5..=6 => {
            let takers = 1 + random.below(partitions as u32);
            for _ in 0..10 {
                own[random.below(takers) as usize].0 += 10;
            }
            for p in (1..partitions).rev() {
                own.swap(p, random.below(p as u32 + 1) as usize);
            }
        }
        // Any.
        _ => {
            let mut rest = 100;
            for share in &mut own[1..] {
                share.0 = random.range(0, rest) / 2;
                rest -= share.0;
            }
            own[0].0 = rest;
            let p = random.below(partitions as u32) as usize;
            own.swap(0, p);
        }
    }
    shares
}

/// A sheet that gives a certain refusal, 1 to 6. Often a fault of a higher
/// number is in it as well.
pub fn refused_sheet(random: &mut Random, refusal: u8) -> Vec<u8> {
    let mut settings = right_settings(random);
    let also = |random: &mut Random, number: u8| refusal < number && random.percent(25);
    if refusal == 3 || also(random, 3) {
        settings.window.0 = match random.below(5) {
            0 => 0,
            1 => 1,
            2 => 401,
            3 => 999_999,
            _ => random.range(401, 999_999),
        };
    }
    if refusal == 4 || also(random, 4) {
        settings.tick.0 = match random.below(6) {
            0 => 0,
            1 => random.range(1, 99),
            2 => 150,
            3 => random.range(999_901, 999_999),
            4 => random.below(9999) * 100 + random.range(1, 99),
            _ => 101,
        };
    }
    if refusal == 5 || also(random, 5) {
        let which = random.range(1, 3);
        let far = random.percent(50);
        if which & 1 != 0 {
            settings.policy = if far { random.range(2, 999_999) } else { 2 };
        }
        if which & 2 != 0 {
            settings.core = if far { random.range(8, 999_999) } else { 8 };
        }
    }
    if refusal == 6 || also(random, 6) {
        spoil_shares(random, &mut settings);
    }
    let mut sheet = sheet_text(&settings);
    if refusal == 2 || also(random, 2) {
        spoil_form(random, &mut sheet);
    }
    if refusal == 1 {
        spoil_length(random, &mut sheet);
    }
    sheet
}

pub fn spoil_shares(random: &mut Random, settings: &mut Settings) {
    let own = &mut settings.shares[..settings.partitions];
    let p = random.below(own.len() as u32) as usize;
    match random.below(4) {
        // One above 100.
        0 => own[p].0 = random.pick(&[101, 200, 256, 65_636, 999_999]),
        // One too many or one too few.
        1 => own[p].0 += 1,
        2 => {
            let p = own.iter().position(|share| share.0 > 0).unwrap_or(0);
            own[p].0 -= 1;
        }
        // None at all.
        _ => own.fill(Percent(0)),
    }
}

fn spoil_form(random: &mut Random, sheet: &mut Vec<u8>) {
    let right = sheet.clone();
    let records = sheet.len() / RECORD;
    let record = random.below(records as u32) as usize;
    let start = record * RECORD;
    match random.below(8) {
        // A letter.
        0 => {
            sheet[start] = random
                .pick(b"wcpmesXWCPME \n0")
                .wrapping_add(sheet[start] & 0x80)
        }
        // A space.
        1 => sheet[start + random.pick(&[1, 4])] = random.pick(b"\t0_\x00\xA0"),
        // A comma, a point, a sign or another thing in place of a digit.
        2 => sheet[start + random.range(5, 10) as usize] = random.pick(b",.+- /:\x00\xFF"),
        // The line feed.
        3 => sheet[start + 11] = random.pick(b"\r 0\x00"),
        // The two-digit number.
        4 => {
            let place = start + random.range(2, 3) as usize;
            sheet[place] = b'0' + (sheet[place] - b'0' + random.range(1, 9) as u8) % 10;
        }
        // Two records swapped.
        5 => {
            let other = (record + random.range(1, records as u32 - 1) as usize) % records * RECORD;
            for i in 0..RECORD {
                sheet.swap(start + i, other + i);
            }
        }
        // Half a percent.
        6 => {
            let end = sheet.len();
            sheet[end - 7..end - 1].copy_from_slice(b"0000,5");
        }
        // A record missing from the middle, or an S too early.
        _ => {
            if records > 5 {
                let start = random.below(records as u32 - 1) as usize * RECORD;
                sheet.drain(start..start + RECORD);
            } else {
                sheet[3 * RECORD] = b'S';
            }
        }
    }
    // The pick may have hit the byte that was there, or there may be too many or
    // too few records for what the fifth begins with now.
    if read_sheet(sheet) != Err(refusal::FORM) {
        *sheet = right;
        sheet[0] = b'Z';
    }
}

fn spoil_length(random: &mut Random, sheet: &mut Vec<u8>) {
    match random.below(5) {
        0 => sheet.clear(),
        // Too few records.
        1 => sheet.truncate(random.range(1, 4) as usize * RECORD),
        // A cut last record.
        2 => {
            let cut = random.range(1, 11) as usize;
            sheet.truncate(sheet.len() - cut);
        }
        // Something after the last record.
        3 => sheet.push(random.pick(b"\n\r\x00 ")),
        // Too many records.
        _ => {
            let many = random.range(22, 40) as usize;
            let mut p = sheet.len() / RECORD - 4;
            while sheet.len() < many * RECORD {
                sheet.extend_from_slice(format!("S {p:02} 000000\n").as_bytes());
                p += 1;
            }
        }
    }
}
