//! The proved library as another commit has it, for the benchmark, with the
//! state that it has since there are editions. tools/bench gives its functions
//! these names, so that one program has both libraries.

type Seven = [u32; 7];
type Five = [u32; 5];
type Words = [u32; 16];
type Bytes = [u8; 64];

/// The state of 688 bytes, part by part.
#[repr(C)]
#[derive(Clone, Copy)]
pub struct State {
    settings: Seven,
    shares: Words,
    used: Words,
    clock: Five,
    exists: Bytes,
    ready: Bytes,
    partitions: Bytes,
    priorities: Bytes,
    masks: Bytes,
    policies: Bytes,
    slices: Bytes,
    queue: Bytes,
}

const _: () = assert!(size_of::<State>() == 688);

extern "C" {
    fn before_lent_start(
        sheet: *const u8,
        sheet_length: u64,
        settings: &mut Seven,
        shares: &mut Words,
        used: &mut Words,
        clock: &mut Five,
        exists: &mut Bytes,
        ready: &mut Bytes,
        partitions: &mut Bytes,
        priorities: &mut Bytes,
        masks: &mut Bytes,
        policies: &mut Bytes,
        slices: &mut Bytes,
        queue: &mut Bytes,
        history: *mut u32,
        history_length: u64,
    ) -> u32;
    fn before_lent_event(
        settings: &Seven,
        shares: &Words,
        used: &mut Words,
        clock: &mut Five,
        exists: &mut Bytes,
        ready: &mut Bytes,
        partitions: &mut Bytes,
        priorities: &mut Bytes,
        masks: &mut Bytes,
        policies: &mut Bytes,
        slices: &mut Bytes,
        queue: &mut Bytes,
        history: *mut u32,
        history_length: u64,
        event: *const u8,
        event_length: u64,
    ) -> u32;
    fn before_lent_run(
        settings: &Seven,
        shares: &Words,
        used: &mut Words,
        clock: &mut Five,
        exists: &mut Bytes,
        ready: &mut Bytes,
        partitions: &mut Bytes,
        priorities: &mut Bytes,
        masks: &mut Bytes,
        policies: &mut Bytes,
        slices: &mut Bytes,
        queue: &mut Bytes,
        history: *mut u32,
        history_length: u64,
        events: *const u8,
        events_length: u64,
        lines: *mut u8,
        lines_length: u64,
    ) -> u32;
}

impl State {
    /// A fresh start; the refusal, or 0.
    pub fn start(sheet: &[u8], history: &mut [u32]) -> (State, u32) {
        // Numbers only: zeros are a state.
        let mut state: State = unsafe { std::mem::zeroed() };
        let refusal = unsafe {
            before_lent_start(
                sheet.as_ptr(),
                sheet.len() as u64,
                &mut state.settings,
                &mut state.shares,
                &mut state.used,
                &mut state.clock,
                &mut state.exists,
                &mut state.ready,
                &mut state.partitions,
                &mut state.priorities,
                &mut state.masks,
                &mut state.policies,
                &mut state.slices,
                &mut state.queue,
                history.as_mut_ptr(),
                history.len() as u64,
            )
        };
        (state, refusal)
    }

    /// The four numbers of the answer, a byte each.
    pub fn event(&mut self, history: &mut [u32], event: &[u8]) -> u32 {
        unsafe {
            before_lent_event(
                &self.settings,
                &self.shares,
                &mut self.used,
                &mut self.clock,
                &mut self.exists,
                &mut self.ready,
                &mut self.partitions,
                &mut self.priorities,
                &mut self.masks,
                &mut self.policies,
                &mut self.slices,
                &mut self.queue,
                history.as_mut_ptr(),
                history.len() as u64,
                event.as_ptr(),
                event.len() as u64,
            )
        }
    }

    /// The refusal, or 0.
    pub fn run(&mut self, history: &mut [u32], events: &[u8], lines: &mut [u8]) -> u32 {
        unsafe {
            before_lent_run(
                &self.settings,
                &self.shares,
                &mut self.used,
                &mut self.clock,
                &mut self.exists,
                &mut self.ready,
                &mut self.partitions,
                &mut self.priorities,
                &mut self.masks,
                &mut self.policies,
                &mut self.slices,
                &mut self.queue,
                history.as_mut_ptr(),
                history.len() as u64,
                events.as_ptr(),
                events.len() as u64,
                lines.as_mut_ptr(),
                lines.len() as u64,
            )
        }
    }
}
