//! What each partition may use and has used in the sliding window.
//!
//! The history is kept slot by slot, not partition by partition. A slot
//! knows who was charged in it, so that a tick looks only at those whose
//! time leaves the window.

use crate::counts::{budget, Balance, Cycles};
use crate::sheet::Settings;
use crate::PARTITIONS;
use std::cmp::Ordering;

/// One number for each partition. Those past the count stay 0.
type Row = [Cycles; PARTITIONS];

/// One tick of the window.
#[derive(Clone, Copy, Default)]
struct Slot {
    /// What each partition was charged.
    charged: Row,
    /// Bit p: p was charged. The others have 0.
    who: u16,
}

#[derive(Clone)]
pub struct Accounts {
    budget: Row,
    /// Sum over the window of what was charged.
    used: Row,
    /// The least remaining that counts as budget: a quarter of a tick, or half
    /// of one.
    need: Cycles,
    /// Bit p: p's budget is above 0.
    funded: u16,
    /// Bit p: p's remaining is at least that. Kept up with `used`.
    solvent: u16,
    /// The slot now charged.
    now: usize,
    /// One for each tick of the window.
    slots: Box<[Slot]>,
}

impl Accounts {
    pub fn new(settings: &Settings) -> Accounts {
        let mut accounts = Accounts {
            budget: Row::default(),
            used: Row::default(),
            need: settings.need(),
            funded: 0,
            solvent: 0,
            now: 0,
            slots: vec![Slot::default(); settings.window.0 as usize].into(),
        };
        for (p, share) in settings.shares[..settings.partitions].iter().enumerate() {
            let budget = budget(*share, settings.window, settings.tick);
            accounts.budget[p] = budget;
            accounts.funded |= u16::from(budget > Cycles(0)) << p;
            accounts.weigh(p);
        }
        accounts
    }

    /// Charges the current slot of a partition.
    #[inline]
    pub fn charge(&mut self, p: usize, elapsed: Cycles) {
        let slot = &mut self.slots[self.now];
        slot.charged[p] += elapsed;
        slot.who |= 1 << p;
        self.used[p] += elapsed;
        self.weigh(p);
    }

    /// Moves to the next slot. What was charged a window ago is forgotten.
    #[inline]
    pub fn advance(&mut self) {
        self.now = self.next();
        let mut who = std::mem::take(&mut self.slots[self.now].who);
        while who != 0 {
            let p = who.trailing_zeros() as usize;
            who &= who - 1;
            self.used[p] -= std::mem::take(&mut self.slots[self.now].charged[p]);
            self.weigh(p);
        }
    }

    /// Clears all history.
    pub fn forget(&mut self) {
        self.slots.fill(Slot::default());
        self.used = Row::default();
        self.now = 0;
        for p in 0..PARTITIONS {
            self.weigh(p);
        }
    }

    /// The same accounts where so much must remain, which is above 0.
    pub fn with_need(mut self, need: Cycles) -> Accounts {
        self.need = need;
        for p in 0..PARTITIONS {
            self.weigh(p);
        }
        self
    }

    /// Compares two partitions by the fraction used: greater is better, that
    /// is, the smaller fraction. One without budget is worse than every other
    /// and equal to another one without.
    #[inline]
    pub fn by_fraction(&self, a: usize, b: usize) -> Ordering {
        let wide = |row: &Row, p: usize| u64::from(row[p].0);
        let [some_a, some_b] = [a, b].map(|p| self.budget[p].0 != 0);
        if !(some_a && some_b) {
            return some_a.cmp(&some_b);
        }
        let of_a = wide(&self.used, a) * wide(&self.budget, b);
        let of_b = wide(&self.used, b) * wide(&self.budget, a);
        of_b.cmp(&of_a)
    }

    /// Bit p: p's budget is above 0.
    pub fn funded(&self) -> u16 {
        self.funded
    }

    /// Bit p: p has budget, that is, at least what the edition needs remains.
    pub fn solvent(&self) -> u16 {
        self.solvent
    }

    pub fn budget(&self, p: usize) -> Cycles {
        self.budget[p]
    }

    pub fn used(&self, p: usize) -> Cycles {
        self.used[p]
    }

    /// The slot now charged.
    pub fn slot(&self) -> usize {
        self.now
    }

    /// What p was charged in a slot.
    pub fn in_slot(&self, p: usize, slot: usize) -> Cycles {
        self.slots[slot].charged[p]
    }

    /// What the next tick will take off p's `used`.
    pub fn leaving(&self, p: usize) -> Cycles {
        self.slots[self.next()].charged[p]
    }

    /// Budget less used.
    pub fn remaining(&self, p: usize) -> Balance {
        Balance(i64::from(self.budget[p].0) - i64::from(self.used[p].0))
    }

    fn next(&self) -> usize {
        let next = self.now + 1;
        if next == self.slots.len() {
            0
        } else {
            next
        }
    }

    /// Works out p's bit in `solvent`: used and what must remain are together
    /// at most the budget. The sum is below 2^32, because used is at most
    /// 799,920,000. A place past the count has budget 0 and so never gets its
    /// bit.
    #[inline]
    fn weigh(&mut self, p: usize) {
        let solvent = self.used[p].0 + self.need.0 <= self.budget[p].0;
        self.solvent = self.solvent & !(1 << p) | u16::from(solvent) << p;
    }
}
