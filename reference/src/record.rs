//! Event records: twelve bytes taken apart.

use crate::{refusal, RECORD};

#[derive(Clone, Copy, Debug, PartialEq, Eq)]
pub enum Kind {
    Tick,
    Create,
    Ready,
    Block,
    SetPriority,
    End,
    Resume,
}

/// What a record says but for a create's policy, which stays in its byte: with
/// it here the fields no longer move as one, and an event was measured at 31 ns
/// in place of 22.
#[derive(Clone, Copy, Debug)]
pub struct Event {
    pub kind: Kind,
    pub thread: u8,
    pub partition: u8,
    pub priority: u8,
    pub stamp: u32,
    pub mask: u8,
}

/// Where a create has the thread's policy.
pub const POLICY: usize = 9;

// Bytes of the first word (kind, thread, partition, priority, low byte
// first) that have to be zero.
const NOTHING_UNUSED: u32 = 0;
const ALL_UNUSED: u32 = 0xFFFF_FF00;
const THREAD_USED: u32 = 0xFFFF_0000;
const THREAD_AND_PRIORITY_USED: u32 = 0x00FF_0000;

// The same for the last word (mask, policy and two spare bytes).
const MASK_AND_POLICY_USED: u32 = 0xFFFF_0000;
const NONE_USED: u32 = 0xFFFF_FFFF;

impl Event {
    /// Takes a record apart. Refuses unknown kinds and stray bytes.
    #[inline]
    pub fn read(record: &[u8; RECORD]) -> Result<Event, u8> {
        let [kind, thread, partition, priority, s0, s1, s2, s3, mask, policy, y, z] = *record;
        let (kind, first, last) = match kind {
            1 => (Kind::Tick, ALL_UNUSED, NONE_USED),
            2 => (Kind::Create, NOTHING_UNUSED, MASK_AND_POLICY_USED),
            3 => (Kind::Ready, THREAD_USED, NONE_USED),
            4 => (Kind::Block, THREAD_USED, NONE_USED),
            5 => (Kind::SetPriority, THREAD_AND_PRIORITY_USED, NONE_USED),
            6 => (Kind::End, THREAD_USED, NONE_USED),
            7 => (Kind::Resume, ALL_UNUSED, NONE_USED),
            0 | 8..=255 => return Err(refusal::KIND),
        };
        let stray = u32::from_le_bytes([0, thread, partition, priority]) & first
            | u32::from_le_bytes([mask, policy, y, z]) & last;
        if stray != 0 {
            return Err(refusal::KIND);
        }
        let stamp = u32::from_le_bytes([s0, s1, s2, s3]);
        Ok(Event {
            kind,
            thread,
            partition,
            priority,
            stamp,
            mask,
        })
    }
}
