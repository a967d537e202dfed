//! The schedulers that the benchmark measures, each behind the same kind of
//! boundary: a C function, pointers, lengths and a number for an answer.

#[cfg(against)]
use crate::before;
use crate::proved;
use reference::{Line, Scheduler, RECORD};
use std::hint::black_box;
use std::time::{Duration, Instant};

/// A scheduler at some point of a stream.
pub trait Measured {
    /// A fresh start, with so many numbers of history.
    fn start(sheet: &[u8], rows: usize) -> Self;
    /// A copy whose history lies at another place of its pages.
    fn moved(&self, place: usize) -> Self;
    fn run(&mut self, events: &[u8], lines: &mut [u8]);
    fn event(&mut self, event: &[u8]) -> u32;
}

/// How many numbers there are in a page, and in a line of the cache.
const PAGE: usize = 1024;
const LINE: usize = 16;

/// So many numbers, from the start of some line of a page on. Where memory
/// lies, beside the stack for instance, may cost a call a tenth or more; each
/// batch has another place, so that each scheduler has its best one.
struct History {
    room: Vec<u32>,
    start: usize,
    rows: usize,
}

impl History {
    fn new(rows: usize, place: usize) -> History {
        let room = vec![0; rows + 2 * PAGE];
        let page = room.as_ptr().align_offset(PAGE * size_of::<u32>());
        let start = page + place * LINE % PAGE;
        History { room, start, rows }
    }

    fn moved(&self, place: usize) -> History {
        let mut copy = History::new(self.rows, place);
        let numbers = &self.room[self.start..][..self.rows];
        copy.numbers().copy_from_slice(numbers);
        copy
    }

    fn numbers(&mut self) -> &mut [u32] {
        &mut self.room[self.start..][..self.rows]
    }
}

/// The proved one.
pub struct Proved {
    state: proved::State,
    history: History,
}

impl Measured for Proved {
    fn start(sheet: &[u8], rows: usize) -> Proved {
        let mut state = proved::State::filled(0);
        let mut history = History::new(rows, 0);
        assert!(proved::start(sheet, &mut state.parts(), history.numbers()) == 0);
        Proved { state, history }
    }

    fn moved(&self, place: usize) -> Proved {
        let history = self.history.moved(place);
        Proved { history, ..*self }
    }

    fn run(&mut self, events: &[u8], lines: &mut [u8]) {
        let history = self.history.numbers();
        let refusal = proved::run(&mut self.state.parts(), history, events, lines);
        assert!(refusal == 0);
    }

    fn event(&mut self, event: &[u8]) -> u32 {
        packed(proved::event(
            &mut self.state.parts(),
            self.history.numbers(),
            event,
        ))
    }
}

/// The proved one of the commit before.
#[cfg(against)]
pub struct Before {
    state: before::State,
    history: History,
}

#[cfg(against)]
impl Measured for Before {
    fn start(sheet: &[u8], rows: usize) -> Before {
        let mut history = History::new(rows, 0);
        let (state, refusal) = before::State::start(sheet, history.numbers());
        assert!(refusal == 0);
        Before { state, history }
    }

    fn moved(&self, place: usize) -> Before {
        let history = self.history.moved(place);
        Before { history, ..*self }
    }

    fn run(&mut self, events: &[u8], lines: &mut [u8]) {
        assert!(self.state.run(self.history.numbers(), events, lines) == 0);
    }

    fn event(&mut self, event: &[u8]) -> u32 {
        self.state.event(self.history.numbers(), event)
    }
}

#[inline(never)]
extern "C" fn reference_run(
    scheduler: &mut Scheduler,
    events: *const u8,
    n: usize,
    lines: *mut u8,
    room: usize,
) -> usize {
    let events = unsafe { std::slice::from_raw_parts(events, n) };
    let lines = unsafe { std::slice::from_raw_parts_mut(lines, room) };
    scheduler.run(events, lines)
}

#[inline(never)]
extern "C" fn reference_event(scheduler: &mut Scheduler, event: *const u8, n: usize) -> u32 {
    packed(scheduler.event(unsafe { std::slice::from_raw_parts(event, n) }))
}

impl Measured for Scheduler {
    fn start(sheet: &[u8], _: usize) -> Scheduler {
        Scheduler::start(sheet).unwrap_or_else(|number| panic!("the sheet is refused: {number}"))
    }

    fn moved(&self, _: usize) -> Scheduler {
        self.clone()
    }

    fn run(&mut self, events: &[u8], lines: &mut [u8]) {
        let (input, output) = (events.as_ptr(), lines.as_mut_ptr());
        reference_run(self, input, events.len(), output, lines.len());
    }

    fn event(&mut self, event: &[u8]) -> u32 {
        reference_event(self, event.as_ptr(), event.len())
    }
}

fn packed(line: Line) -> u32 {
    u32::from_le_bytes([line.refusal, line.mode, line.partition, line.thread])
}

/// Whether these are all lines of accepted events.
fn accepted(lines: &[u8]) -> bool {
    lines.chunks(RECORD).all(|line| line.starts_with(b"00"))
}

/// A scheduler where a row's batches start from, and the best times so far.
pub struct Timed<S> {
    pub point: S,
    /// How many there were.
    batches: usize,
    run: Duration,
    event: Duration,
}

impl<S: Measured> Timed<S> {
    /// After some events, which have to be accepted, and their lines.
    pub fn new(sheet: &[u8], rows: usize, lead: &[u8]) -> (Timed<S>, Vec<u8>) {
        let mut point = S::start(sheet, rows);
        let mut lines = vec![0; lead.len()];
        point.run(lead, &mut lines);
        assert!(accepted(&lines));
        let timed = Timed {
            point,
            batches: 0,
            run: Duration::MAX,
            event: Duration::MAX,
        };
        (timed, lines)
    }

    /// A copy of the point for the next batch.
    fn next(&mut self) -> S {
        self.batches += 1;
        self.point.moved(self.batches / 2)
    }

    /// A batch more through one `run`.
    pub fn run(&mut self, batch: &[u8], lines: &mut [u8]) {
        let mut at = self.next();
        let begin = Instant::now();
        black_box(at.run(batch, lines));
        self.run = self.run.min(begin.elapsed());
    }

    /// A batch more through single events.
    pub fn events(&mut self, batch: &[u8]) {
        let mut at = self.next();
        let begin = Instant::now();
        for event in batch.chunks_exact(RECORD) {
            black_box(at.event(event));
        }
        self.event = self.event.min(begin.elapsed());
    }

    pub fn times(&mut self) -> [&mut Duration; 2] {
        [&mut self.run, &mut self.event]
    }

    /// Nanoseconds an event through `run` and through `event`, in batches of
    /// so many.
    pub fn each(&self, run: usize, events: usize) -> (f64, f64) {
        let each = |time: Duration, events: usize| time.as_nanos() as f64 / events as f64;
        (each(self.run, run), each(self.event, events))
    }
}
