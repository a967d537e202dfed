//! Seeded sheets and event streams for comparing schedulers.
//!
//! [`stream`] gives the same case for the same seed, always. A scheduler
//! runs along while events are made up, so that the maker knows which
//! threads exist, who runs, and how far each account is from a limit: most
//! events are accepted, and many charges are aimed at the exact places where
//! a decision tips over.

mod editions;
mod maker;
mod misstated;
mod moves;
mod random;
mod report;
mod sheets;
mod slices;
mod ties;

pub use random::Random;
pub use report::{write_event, Reach};

use crate::line::Line;
use crate::scheduler::Scheduler;
use crate::RECORD;
use maker::Maker;
use misstated::misstated_sheet;
use sheets::{refused_sheet, right_sheet};

/// A sheet and the events for it, as the desk program would get them.
#[derive(Clone, Debug, PartialEq, Eq)]
pub struct Case {
    pub sheet: Vec<u8>,
    pub events: Vec<u8>,
}

/// The case of a seed.
pub fn stream(seed: u64) -> Case {
    let mut random = Random::new(seed);
    match random.below(100) {
        0..=8 => {
            let refusal = random.range(1, 6) as u8;
            let sheet = refused_sheet(&mut random, refusal);
            let events = loose_bytes(&mut random);
            Case { sheet, events }
        }
        9..=10 => {
            // A right sheet with one byte changed, whatever comes of it.
            let mut sheet = right_sheet(&mut random);
            let place = random.below(sheet.len() as u32) as usize;
            sheet[place] = random.byte();
            live_case(random, sheet)
        }
        11..=16 => {
            let sheet = misstated_sheet(&mut random);
            live_case(random, sheet)
        }
        _ => {
            let sheet = right_sheet(&mut random);
            live_case(random, sheet)
        }
    }
}

/// What the reference answers to a case: the desk's output.
pub fn answer(case: &Case) -> Vec<u8> {
    let count = case.events.len().div_ceil(RECORD);
    match Scheduler::start(&case.sheet) {
        Ok(mut scheduler) => {
            let mut lines = vec![0; count * RECORD];
            let written = scheduler.run(&case.events, &mut lines);
            lines.truncate(written);
            lines
        }
        Err(number) => {
            let mut line = [0; RECORD];
            Line::refused(number).write(&mut line);
            line.to_vec()
        }
    }
}

fn live_case(mut random: Random, sheet: Vec<u8>) -> Case {
    let events = match Scheduler::start(&sheet) {
        Ok(shadow) => Maker::new(random, shadow).make(),
        Err(_) => loose_bytes(&mut random),
    };
    Case { sheet, events }
}

/// Some bytes for a sheet that is refused: nobody should read them.
fn loose_bytes(random: &mut Random) -> Vec<u8> {
    (0..random.below(40)).map(|_| random.byte()).collect()
}
