//! The doors on memory between fences. Each array that a call is lent is
//! copied to pages of its own, to their first byte or up to their last, and
//! the page next to that edge may be neither read nor written: who touches
//! it gets the signal that `on_fault` waits for. After the call all of it is
//! copied back, what was lent for reading too.

use crate::proved::{self, Parts, Settings, Sheet, State};
use crate::states::Saved;
use reference::Line;
use std::ffi::{c_int, c_void};

extern "C" {
    fn mmap(
        address: *mut c_void,
        length: usize,
        protection: c_int,
        flags: c_int,
        file: c_int,
        offset: i64,
    ) -> *mut c_void;
    fn mprotect(address: *mut c_void, length: usize, protection: c_int) -> c_int;
    fn signal(number: c_int, handler: extern "C" fn(c_int)) -> usize;
}

// Linux on x86-64.
const PAGE: usize = 4096;
const NO_ACCESS: c_int = 0;
const READ_AND_WRITE: c_int = 3;
const PRIVATE_ANONYMOUS: c_int = 0x22;
const SEGMENTATION_FAULT: c_int = 11;

/// Has a function called when a fence is touched. The fault comes from the
/// library's own code, where no lock is held, so the function may print; it
/// has to end the program.
pub fn on_fault(handler: extern "C" fn(c_int)) {
    unsafe { signal(SEGMENTATION_FAULT, handler) };
}

/// The edge that arrays lie at.
#[derive(Clone, Copy)]
pub enum Edge {
    First,
    Last,
}

/// Some pages between two fences. They are never given back.
struct Pages {
    start: *mut u8,
    size: usize,
}

impl Pages {
    fn new(bytes: usize) -> Pages {
        let size = bytes.next_multiple_of(PAGE);
        let length = size + 2 * PAGE;
        unsafe {
            let fence = mmap(
                std::ptr::null_mut(),
                length,
                NO_ACCESS,
                PRIVATE_ANONYMOUS,
                -1,
                0,
            );
            assert!(fence as isize != -1, "no memory");
            let start: *mut u8 = fence.cast::<u8>().add(PAGE);
            assert!(mprotect(start.cast(), size, READ_AND_WRITE) == 0);
            Pages { start, size }
        }
    }

    /// So many bytes, or numbers of 32 bits, at an edge.
    fn at<T>(&mut self, edge: Edge, count: usize) -> &mut [T] {
        let length = count * size_of::<T>();
        assert!(length <= self.size);
        let place = match edge {
            Edge::First => 0,
            Edge::Last => self.size - length,
        };
        unsafe { std::slice::from_raw_parts_mut(self.start.add(place).cast(), count) }
    }

    fn array<T, const N: usize>(&mut self, edge: Edge) -> &mut [T; N] {
        let Ok(array) = self.at(edge, N).try_into() else {
            unreachable!("the slice has N places");
        };
        array
    }

    /// A copy of something at an edge.
    fn copy<T: Copy>(&mut self, edge: Edge, from: &[T]) -> &mut [T] {
        let copy = self.at(edge, from.len());
        copy.copy_from_slice(from);
        copy
    }
}

struct SheetPages {
    settings: Pages,
    shares: Pages,
}

impl SheetPages {
    fn at(&mut self, edge: Edge) -> Sheet<'_> {
        Sheet {
            settings: self.settings.array(edge),
            shares: self.shares.array(edge),
        }
    }
}

struct StatePages {
    sheet: SheetPages,
    used: Pages,
    clock: Pages,
    exists: Pages,
    ready: Pages,
    partitions: Pages,
    priorities: Pages,
    masks: Pages,
    policies: Pages,
    slices: Pages,
    queue: Pages,
}

impl StatePages {
    fn copy(&mut self, edge: Edge, state: &mut State) -> Parts<'_> {
        let mut parts = Parts {
            sheet: self.sheet.at(edge),
            used: self.used.array(edge),
            clock: self.clock.array(edge),
            exists: self.exists.array(edge),
            ready: self.ready.array(edge),
            partitions: self.partitions.array(edge),
            priorities: self.priorities.array(edge),
            masks: self.masks.array(edge),
            policies: self.policies.array(edge),
            slices: self.slices.array(edge),
            queue: self.queue.array(edge),
        };
        parts.copy_from(&state.parts());
        parts
    }
}

pub struct Fenced {
    pub edge: Edge,
    state: StatePages,
    history: Pages,
    /// A sheet or events; lines or a sheet; what remains.
    input: Pages,
    output: Pages,
    remaining: Pages,
}

impl Fenced {
    /// With room for so many bytes in each array.
    pub fn new(room: usize) -> Fenced {
        let page = || Pages::new(PAGE);
        Fenced {
            edge: Edge::First,
            state: StatePages {
                sheet: SheetPages {
                    settings: page(),
                    shares: page(),
                },
                used: page(),
                clock: page(),
                exists: page(),
                ready: page(),
                partitions: page(),
                priorities: page(),
                masks: page(),
                policies: page(),
                slices: page(),
                queue: page(),
            },
            history: Pages::new(room),
            input: Pages::new(room),
            output: Pages::new(room),
            remaining: page(),
        }
    }

    pub fn start(&mut self, sheet: &mut [u8], saved: &mut Saved) -> u32 {
        let input = self.input.copy(self.edge, sheet);
        let mut parts = self.state.copy(self.edge, &mut saved.state);
        let rows = self.history.copy(self.edge, &saved.history);
        let refusal = proved::start(input, &mut parts, rows);
        sheet.copy_from_slice(input);
        saved.state.parts().copy_from(&parts);
        saved.history.copy_from_slice(rows);
        refusal
    }

    pub fn event(&mut self, saved: &mut Saved, event: &mut [u8]) -> Line {
        let mut parts = self.state.copy(self.edge, &mut saved.state);
        let rows = self.history.copy(self.edge, &saved.history);
        let input = self.input.copy(self.edge, event);
        let line = proved::event(&mut parts, rows, input);
        saved.state.parts().copy_from(&parts);
        saved.history.copy_from_slice(rows);
        event.copy_from_slice(input);
        line
    }

    pub fn run(&mut self, saved: &mut Saved, events: &mut [u8], lines: &mut [u8]) -> u32 {
        let mut parts = self.state.copy(self.edge, &mut saved.state);
        let rows = self.history.copy(self.edge, &saved.history);
        let input = self.input.copy(self.edge, events);
        let output = self.output.copy(self.edge, lines);
        let refusal = proved::run(&mut parts, rows, input, output);
        saved.state.parts().copy_from(&parts);
        saved.history.copy_from_slice(rows);
        events.copy_from_slice(input);
        lines.copy_from_slice(output);
        refusal
    }

    pub fn decision(&mut self, saved: &mut Saved) -> Line {
        let mut parts = self.state.copy(self.edge, &mut saved.state);
        let rows = self.history.copy(self.edge, &saved.history);
        let line = proved::decision(&mut parts, rows);
        saved.state.parts().copy_from(&parts);
        saved.history.copy_from_slice(rows);
        line
    }

    pub fn remaining(&mut self, saved: &mut Saved, partition: u32, out: &mut u32) -> u32 {
        let mut parts = self.state.copy(self.edge, &mut saved.state);
        let rows = self.history.copy(self.edge, &saved.history);
        let word = self.remaining.array(self.edge);
        *word = [*out];
        let refusal = proved::remaining(&mut parts, rows, partition, word);
        saved.state.parts().copy_from(&parts);
        saved.history.copy_from_slice(rows);
        [*out] = *word;
        refusal
    }

    pub fn read_sheet(&mut self, sheet: &mut [u8], settings: &mut Settings) -> u32 {
        let input = self.input.copy(self.edge, sheet);
        let mut parts = self.state.sheet.at(self.edge);
        parts.copy_from(&settings.parts());
        let refusal = proved::read_sheet(input, &mut parts);
        sheet.copy_from_slice(input);
        settings.parts().copy_from(&parts);
        refusal
    }

    pub fn write_sheet(&mut self, settings: &mut Settings, sheet: &mut [u8]) -> u32 {
        let mut parts = self.state.sheet.at(self.edge);
        parts.copy_from(&settings.parts());
        let output = self.output.copy(self.edge, sheet);
        let refusal = proved::write_sheet(&mut parts, output);
        settings.parts().copy_from(&parts);
        sheet.copy_from_slice(output);
        refusal
    }
}
