//! What of ties was reached.

use super::maker::{BLOCK, END};
use crate::counts::Cycles;
use crate::kept::Kept;
use crate::scheduler::Scheduler;
use std::fmt;

/// The orders that partitions are compared in.
pub const ORDERS: [&str; 4] = ["free time", "free time by ratio", "underload", "at limit"];

/// How often each thing was reached. The favoured partition is that of the
/// thread that ran until the event.
#[derive(Clone, Debug, Default, PartialEq, Eq)]
pub struct Ties {
    /// Decisions in which two partitions or more were tied for best.
    tied: u64,
    /// Of these, where the favoured one is among them and not the lowest, so
    /// that it alone tells who wins: by the event's kind and by the order.
    favoured: [u64; 8],
    orders: [u64; 4],
    /// Of these, where another thread of the favoured partition runs than
    /// before, by the event's kind.
    other_thread: [u64; 8],
    /// And where those that are tied have no share; where they have used
    /// something, of budgets that are not all the same.
    without_share: u64,
    of_budgets: u64,
    /// Decisions in which two or more are tied and the favoured one is not among
    /// them, by the event's kind.
    beaten: [u64; 8],
    /// Ties after the thread that ran was blocked and ended by the event: its
    /// partition is among the best and not the lowest; it is not among them.
    left: [[u64; 2]; 2],
}

impl Ties {
    /// Counts an accepted event by the state that it met and the one it left.
    pub fn count(&mut self, met: &Scheduler, event: &[u8], left: &Scheduler) {
        let &[kind, thread, ..] = event else {
            return;
        };
        let tied = left.tied();
        let Some(favoured) = met.charged() else {
            return;
        };
        if tied.count_ones() < 2 {
            return;
        }
        self.tied += 1;
        let is_tied = tied >> favoured & 1 == 1;
        let is_lowest = tied.trailing_zeros() as usize == favoured;
        if thread == met.running() && (kind == BLOCK || kind == END) {
            let [stays, is_gone] = &mut self.left[usize::from(kind == END)];
            *stays += u64::from(is_tied && !is_lowest);
            *is_gone += u64::from(!is_tied);
        }
        let kind = usize::from(kind);
        if !is_tied {
            self.beaten[kind] += 1;
        } else if !is_lowest {
            self.favoured[kind] += 1;
            self.orders[order(left)] += 1;
            self.other_thread[kind] += u64::from(left.running() != met.running());
            self.accounts(left, tied);
        }
    }

    fn accounts(&mut self, left: &Scheduler, tied: u16) {
        let of = |p: usize| (left.account(p).0, left.account(p).1);
        let all: Vec<_> = (0..16).filter(|p| tied >> p & 1 == 1).map(of).collect();
        let (budget, used) = all[0];
        let same_budget = all.iter().all(|&(other, _)| other == budget);
        self.without_share += u64::from(budget == Cycles(0));
        self.of_budgets += u64::from(used > Cycles(0) && !same_budget);
    }

    /// Was everything reached?
    pub fn complete(&self) -> bool {
        let all = |counts: &[u64]| counts.iter().all(|&count| count > 0);
        all(&self.favoured[1..])
            && all(&self.orders)
            && all(&[1, 4, 5, 6].map(|kind| self.other_thread[kind]))
            && all(&[self.without_share, self.of_budgets])
            && all(&self.beaten[1..])
            && all(self.left.as_flattened())
    }
}

/// The order that the last decision was made in.
pub fn order(left: &Scheduler) -> usize {
    match (left.decision().mode, left.settings().policy) {
        (1, 0) => 0,
        (1, _) => 1,
        (2, _) => 2,
        _ => 3,
    }
}

impl fmt::Display for Ties {
    fn fmt(&self, f: &mut fmt::Formatter) -> fmt::Result {
        let numbers = |counts: &[u64]| {
            let words: Vec<String> = counts.iter().map(u64::to_string).collect();
            words.join(" ")
        };
        writeln!(f, "ties after somebody ran: {}", self.tied)?;
        writeln!(
            f,
            "  where the favoured is not the lowest, accepted kinds 1 to 7: {}",
            numbers(&self.favoured[1..])
        )?;
        writeln!(
            f,
            "  and another of its threads runs than before: {}",
            numbers(&self.other_thread[1..])
        )?;
        for (name, count) in ORDERS.iter().zip(&self.orders) {
            writeln!(f, "  in the order of {name}: {count}")?;
        }
        writeln!(
            f,
            "  of partitions without a share: {}, of different budgets in part used: {}",
            self.without_share, self.of_budgets
        )?;
        writeln!(
            f,
            "  where the favoured is not among the best, kinds 1 to 7: {}",
            numbers(&self.beaten[1..])
        )?;
        for (what, [stays, is_gone]) in ["blocked", "ended"].iter().zip(&self.left) {
            writeln!(
                f,
                "  who ran was {what}: favoured and not the lowest {stays}, not among the best {is_gone}"
            )?;
        }
        Ok(())
    }
}
