//! The proved scheduler through its C interface, as include/saplingloft.h
//! declares it. A program need not use all of it.

#![allow(dead_code)]

use reference::Line;

#[repr(C)]
#[derive(Clone, Copy, Debug, Default, PartialEq, Eq)]
pub struct Settings {
    pub window: u32,
    pub tick: u32,
    pub policy: u32,
    pub core: u32,
    pub edition: u32,
    /// With the bytes of `reserved` above it: one word, as it is lent.
    pub edition_stated: u32,
    pub count: u32,
    pub shares: [u32; 16],
}

#[repr(C)]
#[derive(Clone, Copy, PartialEq, Eq)]
pub struct State {
    pub settings: Settings,
    pub used: [u32; 16],
    pub stamp: u32,
    pub slot: u32,
    pub since: u32,
    pub queued: u32,
    pub running: u32,
    pub exists: [u8; 64],
    pub ready: [u8; 64],
    pub partitions: [u8; 64],
    pub priorities: [u8; 64],
    pub masks: [u8; 64],
    pub policies: [u8; 64],
    pub slices: [u8; 64],
    pub queue: [u8; 64],
}

/// Bytes of a state: it has no padding.
pub const STATE: usize = 688;
const _: () = assert!(size_of::<State>() == STATE);

/// Settings as they are lent: in a struct, or each part by itself.
pub struct Sheet<'a> {
    /// Window, tick, policy, core, edition, edition stated, count.
    pub settings: &'a mut [u32; 7],
    pub shares: &'a mut [u32; 16],
}

/// A state as it is lent: in a struct, or each part by itself.
pub struct Parts<'a> {
    pub sheet: Sheet<'a>,
    pub used: &'a mut [u32; 16],
    /// Stamp, slot, since, queued, running.
    pub clock: &'a mut [u32; 5],
    pub exists: &'a mut [u8; 64],
    pub ready: &'a mut [u8; 64],
    pub partitions: &'a mut [u8; 64],
    pub priorities: &'a mut [u8; 64],
    pub masks: &'a mut [u8; 64],
    pub policies: &'a mut [u8; 64],
    pub slices: &'a mut [u8; 64],
    pub queue: &'a mut [u8; 64],
}

impl Sheet<'_> {
    pub fn copy_from(&mut self, other: &Sheet) {
        *self.settings = *other.settings;
        *self.shares = *other.shares;
    }
}

impl Parts<'_> {
    pub fn copy_from(&mut self, other: &Parts) {
        self.sheet.copy_from(&other.sheet);
        *self.used = *other.used;
        *self.clock = *other.clock;
        *self.exists = *other.exists;
        *self.ready = *other.ready;
        *self.partitions = *other.partitions;
        *self.priorities = *other.priorities;
        *self.masks = *other.masks;
        *self.policies = *other.policies;
        *self.slices = *other.slices;
        *self.queue = *other.queue;
    }
}

impl Settings {
    pub fn parts(&mut self) -> Sheet<'_> {
        let settings: *mut Settings = self;
        // The seven words stand one after the other from the start on, and
        // the shares after them.
        unsafe {
            Sheet {
                settings: &mut *settings.cast(),
                shares: &mut (*settings).shares,
            }
        }
    }
}

impl State {
    /// With this byte everywhere.
    pub fn filled(byte: u8) -> State {
        // Every pattern of bits is a state.
        unsafe { std::mem::transmute([byte; STATE]) }
    }

    pub fn parts(&mut self) -> Parts<'_> {
        let state: *mut State = self;
        // As in the settings: the clock is five words from the stamp on.
        unsafe {
            Parts {
                sheet: (*state).settings.parts(),
                used: &mut (*state).used,
                clock: &mut *(&raw mut (*state).stamp).cast(),
                exists: &mut (*state).exists,
                ready: &mut (*state).ready,
                partitions: &mut (*state).partitions,
                priorities: &mut (*state).priorities,
                masks: &mut (*state).masks,
                policies: &mut (*state).policies,
                slices: &mut (*state).slices,
                queue: &mut (*state).queue,
            }
        }
    }

    pub fn bytes(&mut self) -> &mut [u8; STATE] {
        unsafe { &mut *(self as *mut State).cast() }
    }
}

mod c {
    type Seven = [u32; 7];
    type Five = [u32; 5];
    type Words = [u32; 16];
    type Bytes = [u8; 64];
    extern "C" {
        pub fn saplingloft_lent_start(
            sheet: *const u8,
            sheet_length: u64,
            settings: &mut Seven,
            shares: &mut Words,
            used: &mut Words,
            clock: &mut Five,
            exists: &mut Bytes,
            ready: &mut Bytes,
            partitions: &mut Bytes,
            priorities: &mut Bytes,
            masks: &mut Bytes,
            policies: &mut Bytes,
            slices: &mut Bytes,
            queue: &mut Bytes,
            history: *mut u32,
            history_length: u64,
        ) -> u32;
        pub fn saplingloft_lent_event(
            settings: &Seven,
            shares: &Words,
            used: &mut Words,
            clock: &mut Five,
            exists: &mut Bytes,
            ready: &mut Bytes,
            partitions: &mut Bytes,
            priorities: &mut Bytes,
            masks: &mut Bytes,
            policies: &mut Bytes,
            slices: &mut Bytes,
            queue: &mut Bytes,
            history: *mut u32,
            history_length: u64,
            event: *const u8,
            event_length: u64,
        ) -> u32;
        pub fn saplingloft_lent_run(
            settings: &Seven,
            shares: &Words,
            used: &mut Words,
            clock: &mut Five,
            exists: &mut Bytes,
            ready: &mut Bytes,
            partitions: &mut Bytes,
            priorities: &mut Bytes,
            masks: &mut Bytes,
            policies: &mut Bytes,
            slices: &mut Bytes,
            queue: &mut Bytes,
            history: *mut u32,
            history_length: u64,
            events: *const u8,
            events_length: u64,
            lines: *mut u8,
            lines_length: u64,
        ) -> u32;
        pub fn saplingloft_lent_decision(
            settings: &Seven,
            shares: &Words,
            used: &Words,
            clock: &Five,
            exists: &Bytes,
            ready: &Bytes,
            partitions: &Bytes,
            priorities: &Bytes,
            masks: &Bytes,
            policies: &Bytes,
            slices: &Bytes,
            queue: &Bytes,
            history: *const u32,
            history_length: u64,
        ) -> u32;
        pub fn saplingloft_lent_remaining(
            settings: &Seven,
            shares: &Words,
            used: &Words,
            clock: &Five,
            exists: &Bytes,
            ready: &Bytes,
            partitions: &Bytes,
            priorities: &Bytes,
            masks: &Bytes,
            policies: &Bytes,
            slices: &Bytes,
            queue: &Bytes,
            history: *const u32,
            history_length: u64,
            partition: u32,
            remaining: &mut [u32; 1],
        ) -> u32;
        pub fn saplingloft_lent_read_sheet(
            sheet: *const u8,
            sheet_length: u64,
            settings: &mut Seven,
            shares: &mut Words,
        ) -> u32;
        pub fn saplingloft_lent_write_sheet(
            settings: &Seven,
            shares: &Words,
            sheet: *mut u8,
            sheet_length: u64,
        ) -> u32;
    }
}

// A reference and a slice's pointer are never null, aligned, and valid for
// their length. Two of which one can be written never overlap. That is all
// the header asks for.

/// The refusal, or 0.
pub fn start(sheet: &[u8], state: &mut Parts, history: &mut [u32]) -> u32 {
    unsafe {
        c::saplingloft_lent_start(
            sheet.as_ptr(),
            sheet.len() as u64,
            state.sheet.settings,
            state.sheet.shares,
            state.used,
            state.clock,
            state.exists,
            state.ready,
            state.partitions,
            state.priorities,
            state.masks,
            state.policies,
            state.slices,
            state.queue,
            history.as_mut_ptr(),
            history.len() as u64,
        )
    }
}

pub fn event(state: &mut Parts, history: &mut [u32], event: &[u8]) -> Line {
    unpacked(unsafe {
        c::saplingloft_lent_event(
            state.sheet.settings,
            state.sheet.shares,
            state.used,
            state.clock,
            state.exists,
            state.ready,
            state.partitions,
            state.priorities,
            state.masks,
            state.policies,
            state.slices,
            state.queue,
            history.as_mut_ptr(),
            history.len() as u64,
            event.as_ptr(),
            event.len() as u64,
        )
    })
}

/// The refusal, or 0.
pub fn run(state: &mut Parts, history: &mut [u32], events: &[u8], lines: &mut [u8]) -> u32 {
    unsafe {
        c::saplingloft_lent_run(
            state.sheet.settings,
            state.sheet.shares,
            state.used,
            state.clock,
            state.exists,
            state.ready,
            state.partitions,
            state.priorities,
            state.masks,
            state.policies,
            state.slices,
            state.queue,
            history.as_mut_ptr(),
            history.len() as u64,
            events.as_ptr(),
            events.len() as u64,
            lines.as_mut_ptr(),
            lines.len() as u64,
        )
    }
}

pub fn decision(state: &mut Parts, history: &[u32]) -> Line {
    unpacked(unsafe {
        c::saplingloft_lent_decision(
            state.sheet.settings,
            state.sheet.shares,
            state.used,
            state.clock,
            state.exists,
            state.ready,
            state.partitions,
            state.priorities,
            state.masks,
            state.policies,
            state.slices,
            state.queue,
            history.as_ptr(),
            history.len() as u64,
        )
    })
}

/// The refusal, or 0; what remains is written.
pub fn remaining(state: &mut Parts, history: &[u32], partition: u32, out: &mut [u32; 1]) -> u32 {
    unsafe {
        c::saplingloft_lent_remaining(
            state.sheet.settings,
            state.sheet.shares,
            state.used,
            state.clock,
            state.exists,
            state.ready,
            state.partitions,
            state.priorities,
            state.masks,
            state.policies,
            state.slices,
            state.queue,
            history.as_ptr(),
            history.len() as u64,
            partition,
            out,
        )
    }
}

/// The refusal, or 0.
pub fn read_sheet(sheet: &[u8], settings: &mut Sheet) -> u32 {
    unsafe {
        c::saplingloft_lent_read_sheet(
            sheet.as_ptr(),
            sheet.len() as u64,
            settings.settings,
            settings.shares,
        )
    }
}

/// The refusal, or 0.
pub fn write_sheet(settings: &mut Sheet, sheet: &mut [u8]) -> u32 {
    unsafe {
        c::saplingloft_lent_write_sheet(
            settings.settings,
            settings.shares,
            sheet.as_mut_ptr(),
            sheet.len() as u64,
        )
    }
}

/// The four numbers of an answer.
fn unpacked(answer: u32) -> Line {
    let [refusal, mode, partition, thread] = answer.to_le_bytes();
    Line {
        refusal,
        mode,
        partition,
        thread,
    }
}
