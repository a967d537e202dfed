//! A partition scheduler for one core, written from document 01, and requests
//! (i) to (iv) of document 02, alone.
//!
//! A share sheet starts it, event records drive it, and each event gives one
//! line: refusal, mode, partition, thread.
//!
//! The state is changed in place and nothing is allocated for an event. Each
//! partition keeps its best runnable thread at hand, so that a decision looks
//! at partitions only, never at threads.

#![forbid(unsafe_code)]

mod accounts;
mod counts;
mod kept;
mod line;
pub mod plain;
mod record;
pub mod refusal;
mod scheduler;
mod sheet;
pub mod streams;
mod threads;

#[cfg(test)]
mod tests;

pub use counts::{Balance, Cycles, Percent, Ticks};
pub use kept::{Kept, Record};
pub use line::Line;
pub use scheduler::{Mode, Scheduler};
pub use sheet::{read_sheet, write_sheet, Settings};

/// Most partitions a sheet may name.
pub const PARTITIONS: usize = 16;
/// Threads are numbered below this.
pub const THREADS: usize = 64;
/// Bytes in a sheet record, in an event record and in a printed line.
pub const RECORD: usize = 12;
/// The thread number that stands for "nothing runs".
pub const NO_THREAD: u8 = 255;
/// The policy of threads of equal priority that take turns. The other one,
/// 0, is first in, first out.
pub const ROUND_ROBIN: u8 = 1;
/// Ticks in a round-robin thread's slice.
pub const SLICE: u8 = 4;
