//! What a scheduler keeps, in the paper's words, so that two of them can be
//! held to each other however each has laid it out.

use crate::counts::Cycles;
use crate::sheet::Settings;

/// What an existing thread's create and set priority said, and the ticks that
/// are left of its slice.
#[derive(Clone, Copy, Debug, PartialEq, Eq)]
pub struct Record {
    pub partition: u8,
    pub priority: u8,
    pub mask: u8,
    pub policy: u8,
    pub slice: u8,
}

pub trait Kept {
    fn settings(&self) -> &Settings;
    /// The counter reading of the last accepted event.
    fn stamp(&self) -> u32;
    /// The slot of the history that is now charged.
    fn slot(&self) -> usize;
    fn since_tick(&self) -> Cycles;
    /// What a partition was charged in one slot, and in the whole window.
    fn in_slot(&self, partition: usize, slot: usize) -> Cycles;
    fn used(&self, partition: usize) -> Cycles;
    /// A thread that exists.
    fn thread(&self, number: usize) -> Option<Record>;
    /// The ready threads, the one furthest ahead first.
    fn line(&self) -> Vec<u8>;
    /// The running thread, or [`crate::NO_THREAD`].
    fn running(&self) -> u8;
}
