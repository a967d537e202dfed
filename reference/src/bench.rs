//! Events a second of the proved scheduler and of the reference: the same
//! streams, each behind a C function, in turns, the best of many batches.
//!
//!   bench ROUNDS TIMES     so many batches a row
//!
//! A row is a sheet of so many partitions with so many ready threads and a
//! window of W ticks. Its stream goes round through a tick, a block, a ready
//! and a new priority, a quarter of a tick apart, and each event is accepted.
//! Both start a batch from the same point, after two windows. What is timed
//! is the call, or the calls: one `run` over all records, or an `event` for
//! each. All rows take their turns, a few batches at a time, so that a slow
//! while of the machine falls on all of them. The threads are first in, first
//! out; a table at the end has some rows again with round-robin threads.
//!
//! The best times of earlier programs are read from the file TIMES, if there is
//! one, and those of both are printed and written back: code runs faster or
//! slower by where it lies, and tools/bench makes programs in which the
//! libraries lie at each place that a line of the cache has for them.
//!
//! Built with `--cfg against` it links the library of the commit before too,
//! and takes its runs and single events in turns with the others. No sheet here
//! states its edition, so that its lines have to be the same.

mod batches;
#[cfg(against)]
mod before;
mod measured;
mod proved;

use batches::{Point, Stream, EVENTS, RUN};
#[cfg(against)]
use measured::Before;
use measured::{Proved, Timed};
use reference::{Scheduler, RECORD, ROUND_ROBIN};
use std::time::Duration;

/// A point and each scheduler's best times there.
struct Row {
    point: Point,
    batch: Vec<u8>,
    /// Of a hundred ticks, those that end a slice.
    ends: f64,
    proved: Timed<Proved>,
    second: Timed<Scheduler>,
    #[cfg(against)]
    before: Timed<Before>,
}

impl Row {
    fn new(point: Point) -> Row {
        let stream = Stream::new(point);
        let rows = usize::from(point.partitions) * point.window as usize;
        let Stream { sheet, lead, .. } = &stream;
        let (proved, lines) = Timed::new(sheet, rows, lead);
        let (second, others) = Timed::<Scheduler>::new(sheet, rows, lead);
        assert!(lines == others);
        Row {
            point,
            ends: stream.ends(second.point.clone()),
            proved,
            second,
            #[cfg(against)]
            before: Timed::new(sheet, rows, lead).0,
            batch: stream.batch,
        }
    }

    /// A few batches more.
    fn measure(&mut self, batches: usize) {
        let mut lines = vec![0; self.batch.len()];
        let mut other = lines.clone();
        let singles = &self.batch[..EVENTS * RECORD];
        for _ in 0..batches {
            self.proved.run(&self.batch, &mut lines);
            self.second.run(&self.batch, &mut other);
            assert!(lines == other);
            self.proved.events(singles);
            self.second.events(singles);
            #[cfg(against)]
            {
                self.before.run(&self.batch, &mut other);
                assert!(lines == other);
                self.before.events(singles);
            }
        }
    }

    /// All best times, in the order of the file that keeps them.
    fn times(&mut self) -> Vec<&mut Duration> {
        let mut times = Vec::new();
        times.extend(self.proved.times());
        times.extend(self.second.times());
        #[cfg(against)]
        times.extend(self.before.times());
        times
    }

    /// Nanoseconds an event, through `run` and through `event`.
    fn proved(&self) -> (f64, f64) {
        self.proved.each(RUN, EVENTS)
    }

    fn second(&self) -> (f64, f64) {
        self.second.each(RUN, EVENTS)
    }

    /// The row's first columns.
    fn name(&self) -> String {
        let Point {
            partitions,
            threads,
            window,
            ..
        } = self.point;
        format!("| {partitions} | {threads} | {window} |")
    }
}

/// A table's head.
fn head(columns: &str) {
    println!();
    println!("{columns}");
    println!("{}", "|---".repeat(columns.matches('|').count() - 1) + "|");
}

/// Prints millions of events a second, and the proved scheduler's as a part of
/// the reference's.
fn beside_the_reference(rows: &[Row]) {
    println!(
        "Millions of events a second, and the proved scheduler's as a part of the reference's:"
    );
    head("| partitions | ready threads | W | run: proved | reference | ratio | event: proved | reference | ratio |");
    for row in rows {
        let ((run, event), (other_run, other_event)) = (row.proved(), row.second());
        println!(
            "{} {:.1} | {:.1} | {:.2} | {:.2} | {:.1} | {:.3} |",
            row.name(),
            1000.0 / run,
            1000.0 / other_run,
            other_run / run,
            1000.0 / event,
            1000.0 / other_event,
            other_event / event,
        );
    }
}

/// Prints how fast the proved scheduler is as a part of what it was at the
/// commit before, and the least of each column.
#[cfg(against)]
fn beside_the_commit_before<'a>(rows: impl Iterator<Item = &'a Row>) {
    println!();
    println!("Nanoseconds an event, now and at the commit before, and the speed now as a part of the speed before:");
    head("| partitions | ready threads | W | policy | run: now | before | ratio | event: now | before | ratio |");
    let mut least = [(f64::MAX, String::new()), (f64::MAX, String::new())];
    for row in rows {
        let ((run, event), (old_run, old_event)) = (row.proved(), row.before.each(RUN, EVENTS));
        let ratios = [old_run / run, old_event / event];
        let name = format!("{} {} |", row.name(), row.point.policy);
        println!(
            "{name} {run:.1} | {old_run:.1} | {:.2} | {event:.0} | {old_event:.0} | {:.2} |",
            ratios[0], ratios[1]
        );
        for (least, ratio) in least.iter_mut().zip(ratios) {
            if ratio < least.0 {
                *least = (ratio, name.clone());
            }
        }
    }
    println!();
    for (what, (ratio, name)) in ["run", "event"].iter().zip(least) {
        println!("The least ratio of {what} is {ratio:.3}, at {name}.");
    }
}

/// Prints how the time of an event grows with one thing.
fn grows(what: &str, rows: &[Row], number: impl Fn(&Point) -> u32) {
    head(&format!(
        "| {what} | run, ns | event, ns | reference run, ns |"
    ));
    for row in rows {
        let ((run, event), (other_run, _)) = (row.proved(), row.second());
        let number = number(&row.point);
        println!("| {number} | {run:.0} | {event:.0} | {other_run:.0} |");
    }
}

/// Prints rows with round-robin threads beside those with the same numbers
/// whose threads are first in, first out.
fn in_turns(rows: &[Row], others: &[Row]) {
    println!();
    println!("Nanoseconds an event where all threads are round robin, beside the same where they are first in, first out:");
    head("| partitions | ready threads | W | of 100 ticks end a slice | run | first in | event | first in | reference run | first in |");
    for row in rows {
        let point = Point {
            policy: 0,
            ..row.point
        };
        let Some(other) = others.iter().find(|other| other.point == point) else {
            continue;
        };
        let ((run, event), (other_run, other_event)) = (row.proved(), other.proved());
        println!(
            "{} {:.0} | {run:.1} | {other_run:.1} | {event:.0} | {other_event:.0} | {:.1} | {:.1} |",
            row.name(),
            row.ends,
            row.second().0,
            other.second().0
        );
    }
}

/// The rows of one table.
fn rows(points: impl IntoIterator<Item = (u8, u8, u32)>, policy: u8) -> Vec<Row> {
    let point = |(partitions, threads, window)| Point {
        partitions,
        threads,
        window,
        policy,
    };
    points.into_iter().map(point).map(Row::new).collect()
}

/// Every number of partitions with every number of threads and every window.
fn all() -> Vec<(u8, u8, u32)> {
    let threads = |partitions| [1, 8, 64].map(|threads| (partitions, threads));
    let windows = |(partitions, threads)| [4, 100, 400].map(|window| (partitions, threads, window));
    [1, 4, 16]
        .into_iter()
        .flat_map(threads)
        .flat_map(windows)
        .collect()
}

/// Takes the better times of a file, and writes the best ones back.
fn keep(tables: &mut [Vec<Row>], file: &str) -> std::io::Result<()> {
    let kept = std::fs::read_to_string(file).unwrap_or_default();
    let mut kept = kept.lines().filter_map(|line| line.parse().ok());
    let mut text = String::new();
    for time in tables.iter_mut().flatten().flat_map(Row::times) {
        let other = kept.next().map_or(Duration::MAX, Duration::from_nanos);
        *time = other.min(*time);
        text += &format!("{}\n", time.as_nanos());
    }
    std::fs::write(file, text)
}

fn main() -> std::io::Result<()> {
    let words: Vec<String> = std::env::args().skip(1).collect();
    let [rounds, times] = &words[..] else {
        panic!("bench ROUNDS TIMES");
    };
    let rounds: usize = rounds.parse().expect("ROUNDS: a whole number");
    let mut tables = [
        rows(all(), 0),
        rows([1, 2, 4, 8, 16, 32, 64].map(|threads| (4, threads, 100)), 0),
        rows([1, 2, 4, 8, 16].map(|partitions| (partitions, 16, 100)), 0),
        rows([4, 25, 50, 100, 200, 400].map(|window| (4, 16, window)), 0),
        rows(
            all().into_iter().filter(|point| point.2 == 100),
            ROUND_ROBIN,
        ),
    ];
    for _ in 0..rounds.div_ceil(10) {
        for row in tables.iter_mut().flatten() {
            row.measure(10);
        }
    }
    keep(&mut tables, times)?;
    let [table, threads, partitions, windows, turns] = &tables;
    beside_the_reference(table);
    #[cfg(against)]
    beside_the_commit_before(tables.iter().flatten());
    println!();
    println!("Nanoseconds an event, as one thing grows:");
    grows("threads (4 partitions, W 100)", threads, |point| {
        point.threads.into()
    });
    grows("partitions (16 threads, W 100)", partitions, |point| {
        point.partitions.into()
    });
    grows("W (4 partitions, 16 threads)", windows, |point| {
        point.window
    });
    in_turns(turns, table);
    Ok(())
}
