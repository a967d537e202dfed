//! The worked run, both sides of each line, the slips, time slices, priorities
//! that change, ties, editions, and the comparison with the plain model.

use crate::accounts::Accounts;
use crate::plain::Plain;
use crate::streams::{answer, stream, Reach};
use crate::{
    read_sheet, write_sheet, Balance, Cycles, Kept, Line, Percent, Scheduler, Settings, Ticks,
};
use std::cmp::Ordering;

// Helpers -------------------------------------------------------------------

fn settings(w: u32, c: u32, policy: u32, core: u32, shares: &[u32]) -> Settings {
    let mut all = [Percent(0); 16];
    for (place, &share) in all.iter_mut().zip(shares) {
        *place = Percent(share);
    }
    let (window, tick, partitions) = (Ticks(w), Cycles(c), shares.len());
    Settings {
        window,
        tick,
        policy,
        core,
        edition: 1,
        edition_stated: 0,
        partitions,
        shares: all,
    }
}

fn sheet(w: u32, c: u32, policy: u32, core: u32, shares: &[u32]) -> Vec<u8> {
    let mut text = format!("W 00 {w:06}\nC 00 {c:06}\nP 00 {policy:06}\nM 00 {core:06}\n");
    for (p, share) in shares.iter().enumerate() {
        text += &format!("S {p:02} {share:06}\n");
    }
    text.into_bytes()
}

/// A sheet with a record put in at a place.
fn with(record: &[u8], place: usize, sheet: &[u8]) -> Vec<u8> {
    [&sheet[..12 * place], record, &sheet[12 * place..]].concat()
}

/// A sheet that states this edition.
fn stated(edition: u32, sheet: &[u8]) -> Vec<u8> {
    with(format!("E 00 {edition:06}\n").as_bytes(), 4, sheet)
}

fn start(w: u32, c: u32, policy: u32, core: u32, shares: &[u32]) -> Scheduler {
    Scheduler::start(&sheet(w, c, policy, core, shares)).unwrap()
}

fn record(kind: u8, t: u8, p: u8, priority: u8, stamp: u32, mask: u8) -> [u8; 12] {
    let s = stamp.to_le_bytes();
    [kind, t, p, priority, s[0], s[1], s[2], s[3], mask, 0, 0, 0]
}

fn tick(stamp: u32) -> [u8; 12] {
    record(1, 0, 0, 0, stamp, 0)
}
fn create(t: u8, p: u8, priority: u8, mask: u8, stamp: u32) -> [u8; 12] {
    record(2, t, p, priority, stamp, mask)
}
/// A create with byte 9, for a thread that every core may run.
fn create_with(policy: u8, t: u8, p: u8, priority: u8, stamp: u32) -> [u8; 12] {
    let mut event = create(t, p, priority, 255, stamp);
    event[9] = policy;
    event
}
fn ready(t: u8, stamp: u32) -> [u8; 12] {
    record(3, t, 0, 0, stamp, 0)
}
fn block(t: u8, stamp: u32) -> [u8; 12] {
    record(4, t, 0, 0, stamp, 0)
}
fn set(t: u8, priority: u8, stamp: u32) -> [u8; 12] {
    record(5, t, 0, priority, stamp, 0)
}
fn end(t: u8, stamp: u32) -> [u8; 12] {
    record(6, t, 0, 0, stamp, 0)
}
fn resume(stamp: u32) -> [u8; 12] {
    record(7, 0, 0, 0, stamp, 0)
}

/// Creates a thread that every core may run and makes it ready.
fn join(s: &mut Scheduler, t: u8, p: u8, priority: u8) -> (u8, u8, u8) {
    let stamp = s.stamp();
    took(s, create(t, p, priority, 255, stamp));
    took(s, ready(t, stamp))
}

/// The same for a round-robin thread.
fn join_in_turns(s: &mut Scheduler, t: u8, p: u8, priority: u8) -> (u8, u8, u8) {
    let stamp = s.stamp();
    took(s, create_with(1, t, p, priority, stamp));
    took(s, ready(t, stamp))
}

/// A tick, one period after the last event: who runs after it.
fn next(s: &mut Scheduler) -> u8 {
    let stamp = s.stamp().wrapping_add(s.settings().tick.0);
    took(s, tick(stamp)).2
}

/// Policy and slice of an existing thread.
fn turn(s: &Scheduler, t: usize) -> (u8, u8) {
    let thread = s.thread(t).unwrap();
    (thread.policy, thread.slice)
}

/// Mode, partition and thread of an event that has to be accepted.
fn took(s: &mut Scheduler, event: [u8; 12]) -> (u8, u8, u8) {
    let line = s.event(&event);
    assert_eq!(line.refusal, 0, "{event:?}");
    (line.mode, line.partition, line.thread)
}

/// The number of an event that has to be refused and to change nothing.
fn refused(s: &mut Scheduler, event: &[u8]) -> u8 {
    let state = |s: &Scheduler| {
        let accounts: Vec<_> = (0..16).map(|p| s.account(p)).collect();
        let threads: Vec<_> = (0..64).map(|t| s.thread(t)).collect();
        (
            s.stamp(),
            s.since_tick(),
            threads,
            s.line(),
            s.charged(),
            accounts,
            s.decision(),
        )
    };
    let before = state(s);
    let line = s.event(event);
    assert_ne!(line.refusal, 0, "{event:?}");
    assert_eq!(line, Line::refused(line.refusal));
    assert_eq!(state(s), before);
    line.refusal
}

fn remaining(s: &Scheduler, p: usize) -> i64 {
    s.remaining(p).unwrap().0
}

// The worked run ------------------------------------------------------------

#[test]
fn worked_run() {
    let mut s = start(4, 1000, 0, 0, &[50, 50]);
    let events = [
        create(0, 0, 10, 1, 0),
        create(1, 1, 20, 1, 0),
        ready(0, 0),
        ready(1, 0),
        tick(1000),
        tick(2000),
        tick(3000),
        tick(4000),
        ready(1, 4500),
        tick(7000),
    ]
    .concat();
    let mut lines = [0; 120];
    assert_eq!(s.run(&events, &mut lines), 120);
    let wanted = "\
00 0 00 255
00 0 00 255
00 1 00 000
00 2 01 001
00 2 01 001
00 2 00 000
00 2 00 000
00 2 01 001
13 0 00 000
10 0 00 000
";
    assert_eq!(std::str::from_utf8(&lines).unwrap(), wanted);
}

// The sheet -----------------------------------------------------------------

#[test]
fn sheet_right() {
    let read = read_sheet(&sheet(2, 100, 1, 7, &[0, 100])).unwrap();
    assert_eq!(read, settings(2, 100, 1, 7, &[0, 100]));
    let most = [7, 7, 7, 7, 7, 7, 7, 7, 7, 7, 5, 5, 5, 5, 5, 5];
    assert!(read_sheet(&sheet(400, 999_900, 0, 0, &most)).is_ok());
}

#[test]
fn sheet_length() {
    let right = sheet(4, 1000, 0, 0, &[50, 50]);
    assert_eq!(read_sheet(b""), Err(1));
    for length in 0..right.len() {
        let whole = length % 12 == 0 && length >= 60;
        // Five whole records are a sheet whose shares come to 50.
        assert_eq!(read_sheet(&right[..length]), Err(if whole { 6 } else { 1 }));
    }
    let mut many = right.clone();
    for p in 2..17 {
        many.extend_from_slice(format!("S {p:02} 000000\n").as_bytes());
        assert_eq!(read_sheet(&many).err(), (p == 16).then_some(1));
    }
    let mut long = right.clone();
    long.push(b'\n');
    assert_eq!(read_sheet(&long), Err(1));
}

#[test]
fn sheet_form() {
    let right = sheet(4, 1000, 0, 0, &[50, 50]);
    assert!(read_sheet(&right).is_ok());
    // Any other byte in any place is refused, and 2 comes first wherever
    // the new byte isn't a digit of the value.
    for place in 0..right.len() {
        for byte in 0..=255 {
            if byte == right[place] {
                continue;
            }
            let mut sheet = right.clone();
            sheet[place] = byte;
            let value = (5..11).contains(&(place % 12)) && byte.is_ascii_digit();
            match read_sheet(&sheet) {
                Err(2) => assert!(!value),
                _ => assert!(value),
            }
        }
    }
    let half = [&right[..60], b"S 01 0000,5\n"].concat();
    assert_eq!(read_sheet(&half), Err(2));
    let point = [&right[..60], b"S 01 0050.0\n"].concat();
    assert_eq!(read_sheet(&point[..72]), Err(2));
    let twice = [&right[..60], b"S 00 000050\n"].concat();
    assert_eq!(read_sheet(&twice), Err(2));
    // Form in the last record before a limit in the first.
    let both = [&sheet(1, 150, 2, 8, &[101])[..], b"S 02 000000\n"].concat();
    assert_eq!(read_sheet(&both), Err(2));
}

#[test]
fn sheet_limits() {
    let read = |w, c, p, m, shares: &[u32]| read_sheet(&sheet(w, c, p, m, shares)).err();
    for (w, wanted) in [
        (0, Some(3)),
        (1, Some(3)),
        (2, None),
        (400, None),
        (401, Some(3)),
    ] {
        assert_eq!(read(w, 1000, 0, 0, &[100]), wanted);
    }
    for (c, wanted) in [
        (0, Some(4)),
        (50, Some(4)),
        (99, Some(4)),
        (100, None),
        (101, Some(4)),
        (150, Some(4)),
        (999_900, None),
        (999_999, Some(4)),
    ] {
        assert_eq!(read(4, c, 0, 0, &[100]), wanted);
    }
    assert_eq!(read(4, 1000, 1, 7, &[100]), None);
    assert_eq!(read(4, 1000, 2, 0, &[100]), Some(5));
    assert_eq!(read(4, 1000, 0, 8, &[100]), Some(5));
    assert_eq!(read(4, 1000, 0, 0, &[99]), Some(6));
    assert_eq!(read(4, 1000, 0, 0, &[101]), Some(6));
    assert_eq!(read(4, 1000, 0, 0, &[100, 1]), Some(6));
    assert_eq!(read(4, 1000, 0, 0, &[0, 100, 0]), None);
    assert_eq!(read(4, 1000, 0, 0, &[0]), Some(6));
    assert_eq!(read(4, 1000, 0, 0, &[999_999, 999_999]), Some(6));
    // In their order.
    assert_eq!(read(1, 150, 2, 8, &[101]), Some(3));
    assert_eq!(read(2, 150, 2, 8, &[101]), Some(4));
    assert_eq!(read(2, 100, 2, 7, &[101]), Some(5));
    assert_eq!(read(2, 100, 1, 7, &[101]), Some(6));
}

#[test]
fn sheet_written() {
    let good = settings(400, 999_900, 1, 7, &[30, 0, 70]);
    let text = sheet(400, 999_900, 1, 7, &[30, 0, 70]);
    let mut out = [b'x'; 100];
    assert_eq!(write_sheet(&good, &mut out), Ok(84));
    assert_eq!(&out[..84], &text[..]);
    assert_eq!(out[84..], [b'x'; 16]);
    assert_eq!(read_sheet(&out[..84]), Ok(good));
    let mut exact = [0; 84];
    assert_eq!(write_sheet(&good, &mut exact), Ok(84));

    let untouched = |settings: &Settings, length: usize| {
        let mut out = [b'x'; 300];
        let answer = write_sheet(settings, &mut out[..length]);
        assert!(out.iter().all(|&byte| byte == b'x'));
        answer
    };
    assert_eq!(untouched(&good, 83), Err(7));
    assert_eq!(untouched(&good, 0), Err(7));
    let mut bad = good;
    bad.shares[1] = Percent(u32::MAX);
    assert_eq!(untouched(&bad, 0), Err(6));
    bad.core = 8;
    assert_eq!(untouched(&bad, 0), Err(5));
    bad.tick = Cycles(1_000_000);
    assert_eq!(untouched(&bad, 0), Err(4));
    bad.window = Ticks(401);
    assert_eq!(untouched(&bad, 0), Err(3));
    bad.partitions = 0;
    assert_eq!(untouched(&bad, 0), Err(1));
    bad.partitions = 17;
    assert_eq!(untouched(&bad, 300), Err(1));
    bad.partitions = usize::MAX;
    assert_eq!(untouched(&bad, 300), Err(1));
}

#[test]
fn start_refuses_like_the_sheet() {
    assert_eq!(Scheduler::start(b"").err(), Some(1));
    assert_eq!(
        Scheduler::start(&sheet(1, 1000, 0, 0, &[100])).err(),
        Some(3)
    );
}

// Both sides of each line ---------------------------------------------------

#[test]
fn quarter_of_a_tick() {
    // Budgets 2000 and 2000. Partition 1 runs by priority until too little
    // remains.
    for (used, winner) in [(1750, 1), (1751, 0)] {
        let mut s = start(4, 1000, 0, 0, &[50, 50]);
        join(&mut s, 0, 0, 10);
        join(&mut s, 1, 1, 20);
        took(&mut s, tick(1000));
        assert_eq!(took(&mut s, set(1, 20, used)), (2, winner, winner));
        assert_eq!(remaining(&s, 1), 2000 - i64::from(used));
    }
}

#[test]
fn fractions() {
    let both_ways = |accounts: &Accounts, a, b| {
        let there = accounts.by_fraction(a, b);
        assert_eq!(accounts.by_fraction(b, a), there.reverse());
        there
    };
    // Used 40 of 80 against 5 of 20 and against 10 of 20.
    let mut accounts = Accounts::new(&settings(2, 100, 0, 0, &[40, 10, 50, 0, 0]));
    accounts.charge(0, Cycles(40));
    accounts.charge(1, Cycles(5));
    assert_eq!(both_ways(&accounts, 1, 0), Ordering::Greater);
    accounts.charge(1, Cycles(5));
    assert_eq!(both_ways(&accounts, 1, 0), Ordering::Equal);
    // Budget 0, used 0 against budget 80, used 200; two of budget 0.
    accounts.charge(0, Cycles(160));
    assert_eq!(both_ways(&accounts, 0, 3), Ordering::Greater);
    accounts.charge(4, Cycles(7));
    assert_eq!(both_ways(&accounts, 3, 4), Ordering::Equal);
    // The same seen from outside, forty times as large, so that both have
    // budget: 1600 of 3200 against 200, 399, 400 and 401 of 800. In the tie
    // the one that runs goes on, whichever it is.
    let cases = [
        (200, 0, 1),
        (399, 0, 1),
        (400, 0, 0),
        (400, 1, 1),
        (401, 1, 0),
    ];
    for (second, runs, winner) in cases {
        let mut s = start(4, 1000, 0, 0, &[80, 20]);
        took(&mut s, create(0, 0, 10, 1, 0));
        took(&mut s, create(1, 1, 10, 1, 0));
        took(&mut s, ready(0, 0));
        took(&mut s, tick(1000));
        took(&mut s, block(0, 1600));
        took(&mut s, ready(1, 1600));
        took(&mut s, tick(1600));
        took(&mut s, block(1, 1600 + second));
        took(&mut s, ready(runs, 1600 + second));
        // Both have budget and the same priority.
        let both = took(&mut s, ready(1 - runs, 1600 + second));
        assert_eq!(both, (2, winner, winner));
        assert_eq!(remaining(&s, 0), 1600);
        assert_eq!(remaining(&s, 1), 800 - i64::from(second));
    }
}

#[test]
fn no_budget_is_worst() {
    // Budget 0, used 0, against budget 100, used 200, in free time by ratio
    // (partition 2 sleeps).
    let mut s = start(2, 100, 1, 0, &[0, 50, 50]);
    join(&mut s, 1, 1, 1);
    took(&mut s, set(1, 1, 200));
    assert_eq!((remaining(&s, 0), remaining(&s, 1)), (0, -100));
    assert_eq!(join(&mut s, 0, 0, 255), (1, 1, 1));
    // At limit: budget 0, used 0, against budget 200, used 400.
    let mut s = start(2, 100, 0, 0, &[0, 100]);
    join(&mut s, 1, 1, 1);
    took(&mut s, tick(200));
    assert_eq!(took(&mut s, set(1, 1, 400)), (3, 1, 1));
    assert_eq!(remaining(&s, 1), -200);
    assert_eq!(join(&mut s, 0, 0, 255), (3, 1, 1));
    // Two such are equal, whatever they used: the one that runs goes on.
    let mut s = start(2, 100, 0, 0, &[0, 0, 100]);
    join(&mut s, 1, 1, 7);
    assert_eq!(took(&mut s, tick(150)), (1, 1, 1));
    assert_eq!(join(&mut s, 0, 0, 7), (1, 1, 1));
    assert_eq!(took(&mut s, set(0, 8, 250)), (1, 0, 0));
    assert_eq!(took(&mut s, set(0, 7, 300)), (1, 0, 0));
    assert_eq!(took(&mut s, set(1, 8, 310)), (1, 1, 1));
}

#[test]
fn stamps_wrap() {
    let mut s = start(4, 1000, 0, 0, &[100]);
    join(&mut s, 0, 0, 1);
    took(&mut s, resume(4_294_967_290));
    took(&mut s, set(0, 1, 4));
    assert_eq!(s.since_tick(), Cycles(10));
    assert_eq!(remaining(&s, 0), 4000 - 10);
}

#[test]
fn too_long() {
    let mut s = start(4, 1000, 0, 0, &[100]);
    assert_eq!(refused(&mut s, &tick(2001)), 10);
    assert_eq!(refused(&mut s, &tick(u32::MAX)), 10);
    took(&mut s, create(0, 0, 0, 1, 1500));
    assert_eq!(refused(&mut s, &ready(0, 2001)), 10);
    assert_eq!(refused(&mut s, &ready(0, 1499)), 10);
    took(&mut s, ready(0, 2000));
    assert_eq!(s.since_tick(), Cycles(2000));
    assert_eq!(refused(&mut s, &tick(2001)), 10);
    took(&mut s, tick(2000));
    took(&mut s, tick(4000));
    assert_eq!(remaining(&s, 0), 4000 - 2000);
    // A refused event doesn't move the stamp.
    assert_eq!(refused(&mut s, &tick(6001)), 10);
    took(&mut s, tick(6000));
    // A resume at any stamp is fine.
    took(&mut s, resume(123));
    assert_eq!((s.stamp(), s.since_tick()), (123, Cycles(0)));
    took(&mut s, resume(122));
}

#[test]
fn zero_share_in_free_time() {
    let mut s = start(4, 1000, 0, 0, &[100, 0]);
    assert_eq!(join(&mut s, 5, 1, 9), (1, 1, 5));
    took(&mut s, set(5, 9, 5));
    assert_eq!(s.remaining(1), Ok(Balance(-5)));
    assert_eq!(s.remaining(0), Ok(Balance(4000)));
    assert_eq!(s.remaining(2), Err(12));
}

#[test]
fn another_core() {
    let mut s = start(4, 1000, 0, 0, &[100]);
    took(&mut s, create(0, 0, 10, 2, 0));
    assert_eq!(took(&mut s, ready(0, 0)), (0, 0, 255));
    // Idle time goes to no account.
    assert_eq!(took(&mut s, tick(1000)), (0, 0, 255));
    assert_eq!(remaining(&s, 0), 4000);
    let mut s = start(4, 1000, 0, 1, &[100]);
    took(&mut s, create(0, 0, 10, 2, 0));
    assert_eq!(took(&mut s, ready(0, 0)), (2, 0, 0));
}

#[test]
fn starved_partition_gets_its_share() {
    // W 100, C 1000, four partitions, share 10: at least 7,750 cycles in 200
    // ticks, whatever the others do. Here they wake and sleep at random, and
    // stand above it in priority. "Demand 3 loses three quarters of a tick period
    // for each other partition under 1, and half under 2": then 8,500.
    for seed in 0..40_u64 {
        let (edition, due) = [(1, 7750), (2, 8500)][(seed / 2 % 2) as usize];
        let sheet = sheet(100, 1000, (seed % 2) as u32, 0, &[30, 30, 10, 30]);
        let mut s = Scheduler::start(&stated(edition, &sheet)).unwrap();
        for t in 0..4 {
            took(&mut s, create(t, t, if t == 2 { 1 } else { 50 + t }, 1, 0));
        }
        took(&mut s, ready(2, 0));
        let mut x = seed.wrapping_mul(0x9E37_79B9_7F4A_7C15) | 1;
        let mut next = move |n: u32| {
            x ^= x << 13;
            x ^= x >> 7;
            x ^= x << 17;
            (x >> 33) as u32 % n
        };
        let mut charged = [0; 300];
        let (mut now, mut runs) = (0_u32, 255);
        for period in charged.iter_mut() {
            let until = now + 1000;
            for _ in 0..next(4) {
                let stamp = now + next(until - now + 1);
                let t = [0, 1, 3][next(3) as usize];
                let event = if s.ready() >> t & 1 == 1 {
                    block(t, stamp)
                } else {
                    ready(t, stamp)
                };
                *period += if runs == 2 { stamp - now } else { 0 };
                (runs, now) = (took(&mut s, event).2, stamp);
            }
            *period += if runs == 2 { until - now } else { 0 };
            (runs, now) = (took(&mut s, tick(until)).2, until);
        }
        for opening in 0..=100 {
            let sum: u32 = charged[opening..opening + 200].iter().sum();
            assert!(sum >= due, "{sum}");
        }
    }
}

// Refusals of events --------------------------------------------------------

#[test]
fn stray_bytes_and_kinds() {
    let mut s = start(4, 1000, 0, 0, &[50, 50]);
    join(&mut s, 0, 0, 1);
    took(&mut s, create(1, 1, 1, 1, 0));
    assert_eq!(refused(&mut s, &[0; 12]), 9);
    for kind in 8..=255 {
        assert_eq!(refused(&mut s, &record(kind, 0, 0, 0, 0, 0)), 9);
    }
    let right = [
        (tick(0), &[][..]),
        (create(9, 1, 1, 1, 0), &[1, 2, 3, 8, 9]),
        (ready(1, 0), &[1]),
        (block(0, 0), &[1]),
        (set(0, 1, 0), &[1, 3]),
        (end(0, 0), &[1]),
        (resume(0), &[]),
    ];
    for (event, used) in right {
        for place in [1, 2, 3, 8, 9, 10, 11] {
            for bit in 0..8 {
                let mut stray = event;
                stray[place] |= 1 << bit;
                if !used.contains(&place) {
                    assert_eq!(refused(&mut s, &stray), 9, "{stray:?}");
                }
            }
        }
    }
    // Also where another number would come next.
    let mut stray = tick(5000);
    stray[11] = 1;
    assert_eq!(refused(&mut s, &stray), 9);
}

#[test]
fn threads_and_partitions() {
    let mut s = start(4, 1000, 0, 0, &[50, 50]);
    join(&mut s, 63, 0, 1);
    took(&mut s, create(0, 1, 1, 255, 0));
    for t in [64, 65, 128, 191, 255] {
        for event in [
            create(t, 0, 1, 1, 0),
            ready(t, 0),
            block(t, 0),
            set(t, 1, 0),
            end(t, 0),
        ] {
            assert_eq!(refused(&mut s, &event), 11);
        }
    }
    for event in [ready(5, 0), block(5, 0), set(5, 1, 0), end(5, 0)] {
        assert_eq!(refused(&mut s, &event), 11);
    }
    assert_eq!(refused(&mut s, &create(63, 0, 1, 1, 0)), 11);
    assert_eq!(refused(&mut s, &create(0, 2, 1, 0, 0)), 11);
    assert_eq!(refused(&mut s, &create(1, 2, 1, 1, 0)), 12);
    assert_eq!(refused(&mut s, &create(1, 255, 1, 1, 0)), 12);
    assert_eq!(refused(&mut s, &create(1, 1, 1, 0, 0)), 12);
    assert_eq!(refused(&mut s, &ready(63, 0)), 13);
    assert_eq!(refused(&mut s, &block(0, 0)), 13);
    // 10 before 11, 12 and 13.
    assert_eq!(refused(&mut s, &ready(63, 2001)), 10);
    assert_eq!(refused(&mut s, &ready(200, 2001)), 10);
    assert_eq!(refused(&mut s, &create(1, 9, 1, 0, 2001)), 10);
    // An ended number is free again, and doesn't bring its place back.
    took(&mut s, end(63, 0));
    assert_eq!(refused(&mut s, &ready(63, 0)), 11);
    assert_eq!(took(&mut s, create(63, 1, 1, 1, 0)), (0, 0, 255));
    assert_eq!(refused(&mut s, &block(63, 0)), 13);
    assert_eq!(took(&mut s, end(63, 0)), (0, 0, 255));
}

#[test]
fn lengths_of_events() {
    let mut s = start(4, 1000, 0, 0, &[100]);
    for length in (0..40).filter(|&length| length != 12) {
        assert_eq!(refused(&mut s, &vec![1; length]), 14);
    }
    // A run: whole ones and a cut one, and a short place for lines.
    let events = [&tick(1)[..], &tick(2), &tick(3)[..5]].concat();
    let mut lines = [b'x'; 40];
    assert_eq!(s.run(&events, &mut lines), 36);
    assert_eq!(&lines, b"00 0 00 255\n00 0 00 255\n14 0 00 000\nxxxx");
    assert_eq!(s.stamp(), 2);
    let mut lines = [b'x'; 23];
    assert_eq!(s.run(&[tick(3), tick(4)].concat(), &mut lines), 12);
    assert_eq!(&lines, b"00 0 00 255\nxxxxxxxxxxx");
    assert_eq!(s.stamp(), 3);
    assert_eq!(s.run(&[], &mut lines), 0);
}

// The decision --------------------------------------------------------------

#[test]
fn order_in_the_line() {
    let mut s = start(4, 1000, 0, 0, &[100]);
    join(&mut s, 5, 0, 10);
    assert_eq!(join(&mut s, 3, 0, 10), (2, 0, 5));
    // Who blocks and comes back stands at the tail.
    assert_eq!(took(&mut s, block(5, 0)), (2, 0, 3));
    assert_eq!(took(&mut s, ready(5, 0)), (2, 0, 3));
    assert_eq!(took(&mut s, end(3, 0)), (2, 0, 5));
    // The priority of one that isn't ready counts when it joins.
    took(&mut s, create(3, 0, 10, 1, 0));
    took(&mut s, set(3, 12, 0));
    assert_eq!(took(&mut s, ready(3, 0)), (2, 0, 3));
}

#[test]
fn top_priority_counts_this_core_only() {
    let mut s = start(4, 1000, 0, 0, &[50, 50]);
    join(&mut s, 0, 0, 10);
    join(&mut s, 1, 1, 5);
    took(&mut s, create(2, 1, 200, 0xFE, 0));
    assert_eq!(took(&mut s, ready(2, 0)), (2, 0, 0));
    assert_eq!(took(&mut s, set(2, 201, 0)), (2, 0, 0));
    assert_eq!(took(&mut s, block(2, 0)), (2, 0, 0));
    took(&mut s, ready(2, 0));
    assert_eq!(took(&mut s, end(2, 0)), (2, 0, 0));
    // Its number, used again with another mask, may run.
    took(&mut s, create(2, 1, 200, 1, 0));
    assert_eq!(took(&mut s, ready(2, 0)), (2, 1, 2));
}

#[test]
fn policies_in_free_time() {
    // Partition 2 sleeps. 0 has used more than 1 and stands above it.
    for (policy, winner) in [(0, 0), (1, 1)] {
        let mut s = start(4, 1000, policy, 0, &[40, 40, 20]);
        join(&mut s, 0, 0, 20);
        took(&mut s, tick(500));
        assert_eq!(join(&mut s, 1, 1, 10), (1, winner, winner));
        // With all awake the priority counts in both.
        let all = join(&mut s, 2, 2, 1);
        assert_eq!(all, (2, 0, 0));
    }
    // A partition with budget comes before one without in free time too.
    for policy in [0, 1] {
        let mut s = start(4, 1000, policy, 0, &[40, 10, 50]);
        join(&mut s, 1, 1, 20);
        took(&mut s, tick(500));
        assert_eq!(join(&mut s, 0, 0, 10), (1, 0, 0));
        // When nobody has any, priority or fraction decides: 1500 of 1600
        // against 500 of 400.
        took(&mut s, tick(1500));
        let last = took(&mut s, set(0, 10, 2000));
        assert_eq!(last, (1, 1 - policy as u8, 1 - policy as u8));
    }
}

#[test]
fn at_limit_goes_by_fraction() {
    // Budgets 200 and 200, W 4, C 100.
    let mut s = start(4, 100, 0, 0, &[50, 50]);
    join(&mut s, 0, 0, 10);
    join(&mut s, 1, 1, 20);
    assert_eq!(took(&mut s, tick(100)), (2, 1, 1));
    assert_eq!(took(&mut s, tick(200)), (2, 0, 0));
    assert_eq!(took(&mut s, tick(300)), (2, 0, 0));
    assert_eq!(took(&mut s, set(0, 10, 400)), (3, 0, 0));
    assert_eq!(took(&mut s, set(0, 10, 401)), (3, 1, 1));
}

#[test]
fn the_window_slides() {
    let mut s = start(2, 100, 0, 0, &[100]);
    join(&mut s, 0, 0, 1);
    took(&mut s, tick(100));
    assert_eq!(remaining(&s, 0), 100);
    took(&mut s, set(0, 1, 130));
    assert_eq!(remaining(&s, 0), 70);
    // The tick's own time lands in the old slot, then the 100 are dropped.
    took(&mut s, tick(210));
    assert_eq!(remaining(&s, 0), 90);
    took(&mut s, tick(211));
    assert_eq!(remaining(&s, 0), 199);
    // Time goes to who ran before the event.
    took(&mut s, block(0, 221));
    assert_eq!(remaining(&s, 0), 189);
    took(&mut s, ready(0, 300));
    assert_eq!(remaining(&s, 0), 189);
}

#[test]
fn resume_forgets_and_keeps() {
    let mut s = start(3, 100, 0, 0, &[50, 50]);
    join(&mut s, 4, 0, 1);
    join(&mut s, 2, 0, 1);
    join(&mut s, 9, 1, 1);
    took(&mut s, tick(100));
    took(&mut s, set(4, 1, 190));
    assert_eq!(took(&mut s, resume(7)), (2, 1, 9));
    assert_eq!((remaining(&s, 0), remaining(&s, 1)), (150, 150));
    assert_eq!((s.stamp(), s.since_tick()), (7, Cycles(0)));
    assert_eq!(s.ready(), 1 << 4 | 1 << 2 | 1 << 9);
    // The running one is charged from the resume on.
    assert_eq!(took(&mut s, tick(57)), (2, 0, 4));
    assert_eq!((remaining(&s, 0), remaining(&s, 1)), (150, 100));
    assert_eq!(took(&mut s, end(4, 57)), (2, 0, 2));
}

#[test]
fn largest_numbers() {
    let mut s = start(400, 999_900, 0, 0, &[100]);
    join(&mut s, 0, 0, 1);
    assert_eq!(remaining(&s, 0), 399_960_000);
    let mut now = 0_u32;
    for _ in 0..900 {
        now = now.wrapping_add(1_999_800);
        took(&mut s, tick(now));
    }
    took(&mut s, set(0, 1, now.wrapping_add(1_999_800)));
    assert_eq!(s.account(0).1, Cycles(799_920_000));
    assert_eq!(remaining(&s, 0), 399_960_000 - 799_920_000);
    // Cross products of that size.
    let mut s = start(400, 999_900, 0, 0, &[50, 50]);
    join(&mut s, 0, 0, 1);
    let mut now = 0_u32;
    for _ in 0..399 {
        now = now.wrapping_add(1_999_800);
        took(&mut s, tick(now));
    }
    now = now.wrapping_add(1_999_800);
    assert_eq!(took(&mut s, block(0, now)), (0, 0, 255));
    took(&mut s, ready(0, now));
    assert_eq!(join(&mut s, 1, 1, 0), (2, 1, 1));
}

#[test]
fn lines() {
    let text = |refusal, mode, partition, thread| {
        let mut out = [0; 12];
        Line {
            refusal,
            mode,
            partition,
            thread,
        }
        .write(&mut out);
        String::from_utf8(out.to_vec()).unwrap()
    };
    assert_eq!(text(0, 0, 0, 255), "00 0 00 255\n");
    assert_eq!(text(0, 3, 15, 63), "00 3 15 063\n");
    assert_eq!(text(14, 0, 0, 0), "14 0 00 000\n");
}

// Time slices ---------------------------------------------------------------
//
// The words quoted are request (i)'s of document 02.

/// One partition with all of the time.
fn alone() -> Scheduler {
    start(4, 1000, 0, 0, &[100])
}

#[test]
fn policy_is_byte_9_of_a_create() {
    // "0 first-in-first-out, 1 round robin"; "policy above 1 gives 12".
    let mut s = alone();
    took(&mut s, create_with(0, 0, 0, 10, 0));
    took(&mut s, create_with(1, 1, 0, 10, 0));
    assert_eq!((turn(&s, 0), turn(&s, 1)), ((0, 0), (1, 4)));
    for policy in 2..=255 {
        assert_eq!(refused(&mut s, &create_with(policy, 2, 0, 10, 0)), 12);
    }
    // Each of the reasons for 12 alone, and 9, 10 and 11 before them.
    assert_eq!(refused(&mut s, &create_with(1, 2, 1, 10, 0)), 12);
    let mut no_core = create_with(1, 2, 0, 10, 0);
    no_core[8] = 0;
    assert_eq!(refused(&mut s, &no_core), 12);
    assert_eq!(refused(&mut s, &create_with(2, 1, 0, 10, 0)), 11);
    assert_eq!(refused(&mut s, &create_with(2, 64, 0, 10, 0)), 11);
    assert_eq!(refused(&mut s, &create_with(2, 2, 0, 10, 2001)), 10);
    for place in [10, 11] {
        let mut stray = create_with(2, 2, 0, 10, 0);
        stray[place] = 1;
        assert_eq!(refused(&mut s, &stray), 9);
    }
}

#[test]
fn two_screen_threads_take_turns() {
    // "Two screen threads share priority 10 and the first never lets go."
    let mut s = alone();
    join_in_turns(&mut s, 0, 0, 10);
    assert_eq!(join_in_turns(&mut s, 1, 0, 10), (2, 0, 0));
    // "A round-robin thread gets a slice of 4 ticks": the fourth one passes
    // the turn on, "before the decision".
    let runs: Vec<u8> = (0..12).map(|_| next(&mut s)).collect();
    assert_eq!(runs, [0, 0, 0, 1, 1, 1, 1, 0, 0, 0, 0, 1]);
    // "0 first-in-first-out": that is as it was.
    let mut s = alone();
    join(&mut s, 0, 0, 10);
    join_in_turns(&mut s, 1, 0, 10);
    assert!((0..12).all(|_| next(&mut s) == 0));
    assert_eq!((turn(&s, 0), turn(&s, 1)), ((0, 0), (1, 4)));
}

#[test]
fn a_slice_ends_at_the_tail() {
    // "at zero the slice is refilled and the thread goes to the tail of the
    // line": of the whole line, and of any thread that is found running.
    let mut s = start(4, 1000, 0, 0, &[50, 50]);
    join_in_turns(&mut s, 5, 0, 20);
    join(&mut s, 6, 0, 10);
    join(&mut s, 7, 1, 10);
    took(&mut s, create(8, 0, 20, 1, 0));
    let mut slices = Vec::new();
    for _ in 0..4 {
        // The window is cleared, so that partition 0 keeps its budget.
        took(&mut s, resume(0));
        assert_eq!(next(&mut s), 5);
        slices.push(turn(&s, 5).1);
    }
    assert_eq!(slices, [3, 2, 1, 4]);
    assert_eq!(s.line(), [6, 7, 5]);
    // One that became ready later stands behind it.
    took(&mut s, ready(8, 1000));
    assert_eq!(s.line(), [6, 7, 5, 8]);
    assert_eq!(s.running(), 5);
}

#[test]
fn who_ran_until_the_tick_is_counted() {
    // "At each tick the running thread's task block is counted down".
    let mut s = alone();
    join_in_turns(&mut s, 0, 0, 10);
    took(&mut s, create_with(1, 1, 0, 20, 0));
    // Thread 1 comes at the very end of the tick, and it is counted.
    assert_eq!(took(&mut s, ready(1, 1000)).2, 1);
    assert_eq!(took(&mut s, tick(1000)).2, 1);
    assert_eq!((turn(&s, 0).1, turn(&s, 1).1), (4, 3));
    // Thread 0 runs from the tick's first cycle on, but not until its end.
    took(&mut s, block(1, 1000));
    took(&mut s, ready(1, 1999));
    took(&mut s, tick(2000));
    assert_eq!((turn(&s, 0).1, turn(&s, 1).1), (4, 3));
    // A tick of no time counts like any other.
    took(&mut s, tick(2000));
    assert_eq!((turn(&s, 0).1, turn(&s, 1).1), (4, 2));
    // Not the one that is chosen after the tick.
    took(&mut s, block(1, 2000));
    took(&mut s, tick(2000));
    assert_eq!((turn(&s, 0).1, turn(&s, 1).1), (3, 2));
    // A refused tick counts nothing, and nor does a tick while idle.
    assert_eq!(refused(&mut s, &tick(4001)), 10);
    took(&mut s, block(0, 2000));
    took(&mut s, tick(3000));
    assert_eq!((turn(&s, 0).1, turn(&s, 1).1), (3, 2));
}

#[test]
fn other_events_count_nothing() {
    let mut s = alone();
    join_in_turns(&mut s, 0, 0, 10);
    join_in_turns(&mut s, 1, 0, 10);
    took(&mut s, create_with(1, 2, 0, 5, 200));
    took(&mut s, ready(2, 400));
    took(&mut s, set(2, 6, 600));
    took(&mut s, block(2, 800));
    took(&mut s, end(2, 1000));
    took(&mut s, resume(1000));
    assert_eq!((turn(&s, 0).1, turn(&s, 1).1), (4, 4));
    assert_eq!(s.line(), [0, 1]);
}

#[test]
fn a_full_slice_after_ready_and_create_alone() {
    // "A thread that blocks and returns has a full slice."
    let mut s = alone();
    join_in_turns(&mut s, 0, 0, 10);
    join(&mut s, 1, 0, 5);
    (next(&mut s), next(&mut s), next(&mut s));
    assert_eq!(turn(&s, 0).1, 1);
    let now = s.stamp();
    // Preemption, a new priority and a resume leave it.
    took(&mut s, set(1, 20, now));
    assert_eq!((next(&mut s), turn(&s, 0).1), (1, 1));
    let now = s.stamp();
    took(&mut s, set(1, 5, now));
    took(&mut s, set(0, 11, now));
    took(&mut s, set(0, 10, now));
    took(&mut s, resume(7));
    assert_eq!((s.running(), turn(&s, 0).1), (0, 1));
    // So does block; ready fills it.
    took(&mut s, block(0, 7));
    assert_eq!(turn(&s, 0).1, 1);
    took(&mut s, ready(0, 7));
    assert_eq!(turn(&s, 0).1, 4);
    // The same number, ended in the middle of a slice and created again.
    next(&mut s);
    let now = s.stamp();
    took(&mut s, end(0, now));
    took(&mut s, create_with(1, 0, 0, 10, now));
    assert_eq!(turn(&s, 0), (1, 4));
    took(&mut s, end(0, now));
    took(&mut s, create(0, 0, 10, 1, now));
    assert_eq!(turn(&s, 0), (0, 0));
}

#[test]
fn a_slice_that_ends_looks_for_the_next() {
    // Equal ones in their order, whoever is in front of them with less, and
    // those that this core may not run.
    let mut s = alone();
    join(&mut s, 9, 0, 3);
    took(&mut s, create(8, 0, 10, 1 << 1, 0));
    took(&mut s, ready(8, 0));
    for t in [4, 2, 7] {
        join_in_turns(&mut s, t, 0, 10);
    }
    let runs: Vec<u8> = (0..16).map(|_| next(&mut s)).collect();
    assert_eq!(runs, [4, 4, 4, 2, 2, 2, 2, 7, 7, 7, 7, 4, 4, 4, 4, 2]);
    assert_eq!(s.line(), [9, 8, 2, 7, 4]);
    // One who is alone at its priority goes on.
    let now = s.stamp();
    took(&mut s, set(2, 11, now));
    assert!((0..8).all(|_| next(&mut s) == 2));
}

// Priorities that change ----------------------------------------------------
//
// The words quoted are request (ii)'s of document 02.

/// Threads 0, 1 and so on with these priorities, ready in this order.
fn in_line(priorities: &[u8]) -> Scheduler {
    let mut s = alone();
    for (t, &priority) in priorities.iter().enumerate() {
        join(&mut s, t as u8, 0, priority);
    }
    s
}

/// A new priority, now: the line after it and who runs.
fn changed(s: &mut Scheduler, t: u8, priority: u8) -> (Vec<u8>, u8) {
    let stamp = s.stamp();
    let runs = took(s, set(t, priority, stamp)).2;
    (s.line(), runs)
}

#[test]
fn a_raised_thread_goes_to_the_tail() {
    // "a ready thread that is raised goes to the tail of the line"
    let mut s = in_line(&[10, 10, 10, 12]);
    assert_eq!((s.line(), s.running()), (vec![0, 1, 2, 3], 3));
    // To the priority of another, behind it; above it; below it.
    assert_eq!(changed(&mut s, 0, 12), (vec![1, 2, 3, 0], 3));
    assert_eq!(changed(&mut s, 1, 13), (vec![2, 3, 0, 1], 1));
    assert_eq!(changed(&mut s, 2, 11), (vec![3, 0, 1, 2], 1));
    // By as much as can be, and who stands at the tail already.
    assert_eq!(changed(&mut s, 2, 255), (vec![3, 0, 1, 2], 2));
    assert_eq!(changed(&mut s, 3, 255), (vec![0, 1, 2, 3], 2));
}

#[test]
fn a_lowered_thread_goes_to_the_head() {
    // "one that is lowered goes to its head"
    let mut s = in_line(&[10, 10, 11, 10]);
    assert_eq!((s.line(), s.running()), (vec![0, 1, 2, 3], 2));
    // To the priority of others, before them; below them.
    assert_eq!(changed(&mut s, 2, 10), (vec![2, 0, 1, 3], 2));
    assert_eq!(changed(&mut s, 1, 9), (vec![1, 2, 0, 3], 2));
    assert_eq!(changed(&mut s, 0, 9), (vec![0, 1, 2, 3], 2));
    // By as much as can be, and who stands at the head already.
    assert_eq!(changed(&mut s, 0, 0), (vec![0, 1, 2, 3], 2));
    assert_eq!(changed(&mut s, 3, 9), (vec![3, 0, 1, 2], 2));
    // Of the two with 9, the one that was lowered last stands before.
    assert_eq!(changed(&mut s, 2, 1), (vec![2, 3, 0, 1], 3));
}

#[test]
fn the_priority_it_has_moves_nobody() {
    // "one set to the priority it has stays"
    let mut s = in_line(&[10, 10, 10]);
    for t in [0, 1, 2, 1, 0] {
        assert_eq!(changed(&mut s, t, 10), (vec![0, 1, 2], 0));
    }
    // Down and up again is two moves, not none.
    changed(&mut s, 1, 9);
    assert_eq!(changed(&mut s, 1, 10), (vec![0, 2, 1], 0));
    changed(&mut s, 2, 11);
    assert_eq!(changed(&mut s, 2, 10), (vec![2, 0, 1], 2));
}

#[test]
fn not_ready_and_only_the_number_changes() {
    // "A thread that isn't ready only changes its number."
    let mut s = in_line(&[10, 10, 10]);
    took(&mut s, create(7, 0, 5, 1, 0));
    for priority in [20, 20, 0, 10] {
        assert_eq!(changed(&mut s, 7, priority), (vec![0, 1, 2], 0));
        assert_eq!(s.thread(7).unwrap().priority, priority);
    }
    // It joins at the tail, as ever, and what it had before is nothing.
    took(&mut s, ready(7, 0));
    assert_eq!((s.line(), s.running()), (vec![0, 1, 2, 7], 0));
    // One that was in the line, in front, and was raised and lowered out of it.
    took(&mut s, block(0, 0));
    assert_eq!(changed(&mut s, 0, 30), (vec![1, 2, 7], 1));
    assert_eq!(changed(&mut s, 0, 10), (vec![1, 2, 7], 1));
    took(&mut s, ready(0, 0));
    assert_eq!((s.line(), s.running()), (vec![1, 2, 7, 0], 1));
}

#[test]
fn the_running_thread_moves_too() {
    // It is a ready thread: "The line holds every ready thread, the running
    // one included" (document 01).
    let mut s = in_line(&[10, 10]);
    assert_eq!(changed(&mut s, 0, 11), (vec![1, 0], 0));
    assert_eq!(changed(&mut s, 0, 10), (vec![0, 1], 0));
    assert_eq!(changed(&mut s, 0, 9), (vec![0, 1], 1));
    assert_eq!(changed(&mut s, 1, 20), (vec![0, 1], 1));
    assert_eq!(changed(&mut s, 1, 9), (vec![1, 0], 1));
    // Raised behind the other, it runs on above it, and stands behind it when
    // the other comes up.
    assert_eq!(changed(&mut s, 1, 15), (vec![0, 1], 1));
    assert_eq!(changed(&mut s, 0, 15), (vec![1, 0], 1));
}

#[test]
fn the_ends_are_those_of_the_whole_line() {
    // "the tail of the line", "its head": not of the partition's part of it,
    // nor of those that this core may run, nor of those of the priority.
    let mut s = start(4, 1000, 0, 0, &[50, 50]);
    join(&mut s, 0, 0, 10);
    join(&mut s, 1, 1, 10);
    took(&mut s, create(2, 1, 10, 2, 0));
    took(&mut s, ready(2, 0));
    join(&mut s, 3, 0, 10);
    assert_eq!((s.line(), s.running()), (vec![0, 1, 2, 3], 0));
    assert_eq!(changed(&mut s, 0, 11), (vec![1, 2, 3, 0], 0));
    assert_eq!(changed(&mut s, 3, 1), (vec![3, 1, 2, 0], 0));
    // One that another core runs moves like all others, and runs no more here.
    assert_eq!(changed(&mut s, 2, 200), (vec![3, 1, 0, 2], 0));
    assert_eq!(changed(&mut s, 2, 0), (vec![2, 3, 1, 0], 0));
    assert_eq!(changed(&mut s, 1, 12), (vec![2, 3, 0, 1], 1));
    // Threads that come later stand behind those who were raised.
    join(&mut s, 4, 0, 1);
    assert_eq!(s.line(), [2, 3, 0, 1, 4]);
}

#[test]
fn a_changed_priority_leaves_the_slice() {
    let mut s = alone();
    join_in_turns(&mut s, 0, 0, 10);
    join_in_turns(&mut s, 1, 0, 10);
    assert_eq!((next(&mut s), next(&mut s)), (0, 0));
    // Up and down in the middle of its slice: two ticks are left of it.
    assert_eq!(changed(&mut s, 0, 11), (vec![1, 0], 0));
    assert_eq!(changed(&mut s, 0, 10), (vec![0, 1], 0));
    assert_eq!(changed(&mut s, 0, 10), (vec![0, 1], 0));
    assert_eq!(turn(&s, 0), (1, 2));
    assert_eq!((next(&mut s), next(&mut s)), (0, 1));
    assert_eq!((s.line(), turn(&s, 0).1), (vec![1, 0], 4));
    // Raised to the one that came up before it, it waits with what it has.
    assert_eq!((next(&mut s), turn(&s, 1).1), (1, 3));
    assert_eq!(changed(&mut s, 0, 11), (vec![1, 0], 0));
    assert_eq!((next(&mut s), turn(&s, 0).1), (0, 3));
    assert_eq!(changed(&mut s, 1, 11), (vec![0, 1], 0));
    assert_eq!(changed(&mut s, 0, 12), (vec![1, 0], 0));
    assert_eq!(changed(&mut s, 0, 11), (vec![0, 1], 0));
    let runs: Vec<u8> = (0..6).map(|_| next(&mut s)).collect();
    assert_eq!(runs, [0, 0, 1, 1, 1, 0]);
    assert_eq!((turn(&s, 0).1, turn(&s, 1).1), (4, 4));
}

#[test]
fn a_slice_ends_among_moved_threads() {
    // 0 and 1 take turns; 2, lowered to them, goes before both, and 3, raised
    // to them, behind both.
    let mut s = alone();
    join_in_turns(&mut s, 0, 0, 10);
    join_in_turns(&mut s, 1, 0, 10);
    join_in_turns(&mut s, 2, 0, 20);
    join_in_turns(&mut s, 3, 0, 5);
    assert_eq!(changed(&mut s, 3, 10), (vec![0, 1, 2, 3], 2));
    assert_eq!(changed(&mut s, 2, 10), (vec![2, 0, 1, 3], 2));
    let runs: Vec<u8> = (0..17).map(|_| next(&mut s)).collect();
    let turns = [2, 2, 2, 0, 0, 0, 0, 1, 1, 1, 1, 3, 3, 3, 3, 2, 2];
    assert_eq!(runs, turns);
    assert_eq!(s.line(), [2, 0, 1, 3]);
}

#[test]
fn a_refused_new_priority_moves_nobody() {
    let mut s = in_line(&[10, 10]);
    assert_eq!(refused(&mut s, &set(0, 20, 2001)), 10);
    assert_eq!(refused(&mut s, &set(2, 20, 0)), 11);
    let mut stray = set(0, 20, 0);
    stray[9] = 1;
    assert_eq!(refused(&mut s, &stray), 9);
    // A resume keeps the line as the moves have left it.
    assert_eq!(changed(&mut s, 0, 11), (vec![1, 0], 0));
    took(&mut s, resume(5));
    assert_eq!((s.line(), s.running()), (vec![1, 0], 0));
}

// Ties ----------------------------------------------------------------------
//
// The words quoted are request (iii)'s of document 02.

/// Partitions with these shares and a thread each, ready in this order, all
/// with priority 10, and nobody has used anything.
fn level(shares: &[u32], order: &[u8]) -> Scheduler {
    let mut s = start(100, 1000, 0, 0, shares);
    for &p in order {
        join(&mut s, p, p, 10);
    }
    s
}

#[test]
fn equal_jobs_do_not_flicker() {
    // "In a tie the lowest partition number always wins, and the screen
    // flickers between jobs." At every second tick both have used as much, and
    // now the one that runs goes on. It was 1, 0, 1, 0 and so on.
    let mut s = level(&[50, 50], &[0, 1]);
    let runs: Vec<u8> = (0..12).map(|_| next(&mut s)).collect();
    assert_eq!(runs, [1, 1, 0, 0, 1, 1, 0, 0, 1, 1, 0, 0]);
}

#[test]
fn a_newcomer_that_is_equal_waits() {
    // "the partition for which the thread running until this event was working
    // when the event came wins"
    for first in 0..4 {
        let mut order = vec![first];
        order.extend((0..4).filter(|&p| p != first));
        let mut s = level(&[25, 25, 25, 25], &order);
        assert_eq!(s.tied(), 0b1111);
        assert_eq!(s.running(), first);
        assert_eq!(s.decision().partition, first);
        // A refused event changes nothing, and not this either.
        assert_eq!(refused(&mut s, &tick(2001)), 10);
        // So at a tick of no time, at a create, and at a second newcomer.
        assert_eq!(took(&mut s, tick(0)), (2, first, first));
        assert_eq!(took(&mut s, create(9, 0, 10, 1, 0)), (2, first, first));
        assert_eq!(took(&mut s, ready(9, 0)), (2, first, first));
        // What is better wins, by one cycle or by priority.
        let other = u8::from(first == 0);
        assert_eq!(took(&mut s, tick(1)), (2, other, other));
    }
}

#[test]
fn who_is_favoured_has_to_be_among_the_best() {
    // "if it is one of them; otherwise the lowest number"
    let mut s = level(&[40, 30, 30], &[2, 1, 0]);
    assert_eq!((s.tied(), s.running()), (0b111, 2));
    // Partition 2 runs and is worse: 0 and 1 are tied.
    assert_eq!(took(&mut s, set(2, 9, 0)), (2, 0, 0));
    assert_eq!(took(&mut s, set(2, 10, 0)), (2, 0, 0));
    // Partition 0 runs and is worse: 1 and 2 are tied.
    assert_eq!(took(&mut s, set(0, 9, 0)), (2, 1, 1));
    assert_eq!(took(&mut s, set(0, 10, 0)), (2, 1, 1));
    // Charged a cycle, it is worse too, and 0 and 2 are tied.
    assert_eq!(took(&mut s, tick(1)), (2, 0, 0));
    // The better of two is chosen, whoever runs.
    assert_eq!(took(&mut s, set(2, 11, 1)), (2, 2, 2));
}

#[test]
fn the_thread_that_ran_may_leave_by_the_event() {
    // "the thread running until this event": it blocks or ends by it, and its
    // partition has another one, as good.
    let mut s = level(&[50, 50], &[1]);
    join(&mut s, 3, 1, 10);
    assert_eq!(join(&mut s, 0, 0, 10), (2, 1, 1));
    assert_eq!(took(&mut s, block(1, 0)), (2, 1, 3));
    assert_eq!(took(&mut s, ready(1, 0)), (2, 1, 3));
    assert_eq!(took(&mut s, end(3, 0)), (2, 1, 1));
    // The last one leaves: the partition doesn't compete and can't win. When
    // it is back, the other one is the one that runs.
    assert_eq!(took(&mut s, block(1, 0)), (1, 0, 0));
    assert_eq!(took(&mut s, ready(1, 0)), (2, 0, 0));
    // Of two that stay, the lower one.
    let mut s = level(&[40, 30, 30], &[2, 1, 0]);
    assert_eq!(took(&mut s, end(2, 0)), (1, 0, 0));
    // A thread of another core is none for its partition.
    let mut s = level(&[40, 30, 30], &[2, 1, 0]);
    took(&mut s, create(7, 2, 10, 2, 0));
    took(&mut s, ready(7, 0));
    assert_eq!(took(&mut s, block(2, 0)), (1, 0, 0));
}

#[test]
fn a_resume_keeps_who_runs() {
    // "After a resume the same rule holds."
    let mut s = level(&[50, 50], &[0, 1]);
    assert_eq!(next(&mut s), 1);
    assert_eq!(took(&mut s, resume(5)), (2, 1, 1));
    assert_eq!(s.tied(), 0b11);
    assert_eq!(took(&mut s, resume(0)), (2, 1, 1));
    // Partition 1 runs because 0 has used up its budget, and after a resume it
    // is worse.
    let mut s = start(2, 1000, 0, 0, &[50, 50]);
    join(&mut s, 0, 0, 20);
    join(&mut s, 1, 1, 10);
    assert_eq!(took(&mut s, tick(1000)), (2, 1, 1));
    assert_eq!(took(&mut s, resume(7)), (2, 0, 0));
    // Nobody runs, and nobody does after it.
    let mut s = start(2, 1000, 0, 0, &[50, 50]);
    assert_eq!(took(&mut s, resume(7)), (0, 0, 255));
}

#[test]
fn the_partition_is_favoured_and_not_the_thread() {
    // 1 and 3 take turns in partition 1, which goes on when 1's slice ends.
    let mut s = start(100, 1000, 0, 0, &[50, 50]);
    join_in_turns(&mut s, 1, 1, 10);
    join_in_turns(&mut s, 3, 1, 10);
    join(&mut s, 0, 0, 10);
    let ticks: Vec<_> = (0..5).map(|_| took(&mut s, tick(0))).collect();
    let wanted = [(2, 1, 1), (2, 1, 1), (2, 1, 1), (2, 1, 3), (2, 1, 3)];
    assert_eq!(ticks, wanted);
    // Lowered below the other thread of its partition, which is as good as 0.
    assert_eq!(took(&mut s, set(3, 9, 0)), (2, 1, 1));
}

#[test]
fn ties_in_every_mode() {
    // Free time, as partition 2 sleeps: by priority and fraction, and by ratio
    // by the fraction alone.
    for (policy, priority, winner) in [(0, 10, 1), (0, 11, 0), (1, 10, 1), (1, 11, 1)] {
        let mut s = start(4, 1000, policy, 0, &[40, 40, 20]);
        join(&mut s, 1, 1, 10);
        assert_eq!(join(&mut s, 0, 0, priority), (1, winner, winner));
    }
    // Underload: by priority and fraction in both policies.
    for (policy, priority, winner) in [(0, 10, 1), (0, 11, 0), (1, 10, 1), (1, 11, 0)] {
        let mut s = start(4, 1000, policy, 0, &[50, 50]);
        join(&mut s, 1, 1, 10);
        assert_eq!(join(&mut s, 0, 0, priority), (2, winner, winner));
    }
    // At limit, by the fraction alone. Budgets 100 and 100.
    let mut s = start(2, 100, 0, 0, &[50, 50]);
    join(&mut s, 1, 1, 10);
    took(&mut s, tick(100));
    assert_eq!(join(&mut s, 0, 0, 20), (2, 0, 0));
    assert_eq!(took(&mut s, set(0, 20, 200)), (3, 0, 0));
    assert_eq!(took(&mut s, set(0, 20, 201)), (3, 1, 1));
    assert_eq!(took(&mut s, set(1, 10, 202)), (3, 1, 1));
    assert_eq!(s.tied(), 0b11);
}

#[test]
fn a_given_state_says_who_is_favoured() {
    // "The decision door takes the state's running thread for it." While idle
    // there is none, and "otherwise the lowest number" wins.
    let mut given = Plain::new(&settings(4, 1000, 0, 0, &[40, 30, 30]));
    for t in [2, 0, 1] {
        given.event(&create(t, t, 10, 1, 0));
        given.event(&create(10 + t, t, 10, 1, 0));
        given.event(&ready(t, 0));
        given.event(&ready(10 + t, 0));
    }
    let states = [(None, 0), (Some(0), 0), (Some(1), 1), (Some(12), 2)];
    for (running, winner) in states {
        given.running = running;
        assert_eq!(given.tied(), [0, 1, 2]);
        let first = |line: Line| (line.mode, line.partition, line.thread);
        assert_eq!(first(given.decision()), (2, winner, winner));
        for event in [tick(0), create(9, 0, 10, 1, 0), resume(77)] {
            assert_eq!(first(given.clone().event(&event)), (2, winner, winner));
        }
        let Some(t) = running else { continue };
        // It leaves by the event, and its partition has another thread.
        for event in [block(t as u8, 0), end(t as u8, 0)] {
            let mut after = given.clone();
            assert_eq!(after.event(&event).partition, winner);
            assert_eq!(after.decision().partition, winner);
        }
    }
    // The favoured one is worse, by priority, and as good after the event: it
    // wins, although the rules would not have run it before.
    given.running = Some(1);
    given.threads[0].as_mut().unwrap().priority = 11;
    assert_eq!(given.decision().partition, 0);
    assert_eq!(given.event(&set(0, 10, 0)).partition, 1);
    // It is worse by the cycle that it is charged.
    assert_eq!(given.decision().partition, 1);
    assert_eq!(given.event(&tick(1)).partition, 0);
}

// Editions ------------------------------------------------------------------
//
// The words quoted are request (iv)'s of document 02.

/// Edition and whether it is stated, or the refusal.
fn edition(sheet: &[u8]) -> Result<(u32, u32), u8> {
    read_sheet(sheet).map(|read| (read.edition, read.edition_stated))
}

#[test]
fn an_edition_is_stated_or_1() {
    // "The sheet gains an optional record E 00 after M, 1 for the quarter and 2
    // for the half; a sheet without it means 1"
    let plain = sheet(4, 1000, 1, 3, &[30, 70]);
    assert_eq!(edition(&plain), Ok((1, 0)));
    assert_eq!(edition(&stated(1, &plain)), Ok((1, 1)));
    assert_eq!(edition(&stated(2, &plain)), Ok((2, 1)));
    // All else is read as without it.
    let unstated = settings(4, 1000, 1, 3, &[30, 70]);
    let read = read_sheet(&stated(2, &plain)).unwrap();
    let but_for_it = Settings {
        edition: 1,
        edition_stated: 0,
        ..read
    };
    assert_eq!(but_for_it, unstated);
}

#[test]
fn as_many_records_as_the_fifth_allows() {
    // "A sheet then has 5 to 20 records, or 6 to 21 where the fifth begins with
    // E. .. any other number gives 1". One byte tells, whatever else is wrong.
    let plain = |count: usize| {
        let mut shares = vec![0; count];
        shares[0] = 100;
        sheet(4, 1000, 0, 0, &shares)
    };
    for count in 1..=18 {
        let wanted = (count > 16).then_some(1);
        assert_eq!(read_sheet(&plain(count)).err(), wanted);
        assert_eq!(read_sheet(&stated(2, &plain(count))).err(), wanted);
        // The same of records that are none.
        let malformed = with(b"Exxxxxxxxxxx", 4, &plain(count));
        assert_eq!(read_sheet(&malformed).err(), wanted.or(Some(2)));
    }
    let none = &plain(1)[..48];
    assert_eq!(read_sheet(none).err(), Some(1));
    assert_eq!(read_sheet(&stated(1, none)).err(), Some(1));
    assert_eq!(read_sheet(&with(b"Exxxxxxxxxxx", 4, none)).err(), Some(1));
    // A small letter is none: five records, and the fifth is wrong.
    assert_eq!(read_sheet(&with(b"e 00 000001\n", 4, none)).err(), Some(2));
    // Cut anywhere.
    let right = stated(2, &plain(2));
    for length in 0..right.len() {
        let wanted = if length == 72 { None } else { Some(1) };
        assert_eq!(read_sheet(&right[..length]).err(), wanted);
    }
}

#[test]
fn an_edition_has_its_form_and_its_place() {
    let plain = sheet(4, 1000, 0, 0, &[50, 50]);
    let right = stated(1, &plain);
    // Any other byte in any place of the record: 2, but for its first, after
    // which it is a share's place, and for its digits.
    for place in 48..60 {
        for byte in 0..=255 {
            let mut sheet = right.clone();
            sheet[place] = byte;
            let refusal = read_sheet(&sheet).err();
            if byte == right[place] || (place, byte) == (58, b'2') {
                assert_eq!(refusal, None);
            } else if (53..59).contains(&place) && byte.is_ascii_digit() {
                assert_eq!(refusal, Some(5));
            } else {
                assert_eq!(refusal, Some(2));
            }
        }
    }
    // In no other place, and not twice.
    for place in [0, 1, 2, 3, 5, 6] {
        for number in [1, 2] {
            let record = format!("E 00 {number:06}\n");
            let elsewhere = with(record.as_bytes(), place, &plain);
            assert_eq!(read_sheet(&elsewhere).err(), Some(2));
        }
    }
    for place in 4..=7 {
        let twice = with(b"E 00 000001\n", place, &right);
        assert_eq!(read_sheet(&twice).err(), Some(2));
    }
}

#[test]
fn an_edition_is_1_or_2() {
    // "E other than 1 or 2 gives 5"
    let plain = sheet(4, 1000, 0, 0, &[100]);
    for number in [0, 3, 4, 10, 12, 257, 65_538, 100_001, 999_999] {
        assert_eq!(edition(&stated(number, &plain)), Err(5));
    }
    // After 3 and 4, before 6.
    let others = [
        (sheet(1, 150, 2, 8, &[101]), 3),
        (sheet(2, 150, 2, 8, &[101]), 4),
        (sheet(2, 100, 0, 0, &[101]), 5),
    ];
    for (other, refusal) in others {
        assert_eq!(edition(&stated(3, &other)), Err(refusal));
    }
    assert_eq!(edition(&stated(2, &sheet(2, 100, 0, 0, &[101]))), Err(6));
}

#[test]
fn a_sheet_is_written_back_as_it_came() {
    // "a sheet without it means 1 and is written back without it; a stated 1 is
    // written back too"
    for count in [1, 2, 16] {
        let mut shares = vec![0; count];
        shares[0] = 100;
        let plain = sheet(400, 999_900, 1, 7, &shares);
        for text in [plain.clone(), stated(1, &plain), stated(2, &plain)] {
            let read = read_sheet(&text).unwrap();
            let mut out = vec![b'x'; text.len() + 12];
            assert_eq!(write_sheet(&read, &mut out), Ok(text.len()));
            assert_eq!(out, [&text[..], &[b'x'; 12]].concat());
            assert_eq!(read_sheet(&out[..text.len()]), Ok(read));
            // A byte too little.
            let mut short = vec![b'x'; text.len() - 1];
            assert_eq!(write_sheet(&read, &mut short), Err(7));
            assert!(short.iter().all(|&byte| byte == b'x'));
        }
    }
}

#[test]
fn no_other_edition_is_written() {
    // "Where no E is stated, only 1 is within limits: 5 in writing". A flag is 0
    // or 1.
    let good = settings(4, 1000, 0, 0, &[100]);
    let numbers = [0, 1, 2, 3, 255, 256, 257, 258, 65_537, 1 << 31, u32::MAX];
    for edition in numbers {
        for edition_stated in numbers {
            let given = Settings {
                edition,
                edition_stated,
                ..good
            };
            let length = match (edition_stated, edition) {
                (0, 1) => Ok(60),
                (1, 1) | (1, 2) => Ok(72),
                _ => Err(5),
            };
            assert_eq!(write_sheet(&given, &mut [0; 72]), length);
            // 5 before 6 and 7, and after 1, 3 and 4.
            if length.is_err() {
                let mut bad = given;
                bad.shares[0] = Percent(99);
                assert_eq!(write_sheet(&bad, &mut []), Err(5));
                bad.tick = Cycles(150);
                assert_eq!(write_sheet(&bad, &mut []), Err(4));
                bad.window = Ticks(1);
                assert_eq!(write_sheet(&bad, &mut []), Err(3));
                bad.partitions = 17;
                assert_eq!(write_sheet(&bad, &mut []), Err(1));
            }
        }
    }
    // Numbers that are all 0 are no settings, also where the rest is right.
    let zero = Settings { edition: 0, ..good };
    assert_eq!(write_sheet(&zero, &mut [0; 72]), Err(5));
}

#[test]
fn half_of_a_tick() {
    // "at least half a tick must remain": budgets 2000 and 2000, and partition 1
    // runs by priority until too little remains.
    let plain = sheet(4, 1000, 0, 0, &[50, 50]);
    let sheets = [plain.clone(), stated(1, &plain), stated(2, &plain)];
    let cases = [
        (1500, [1, 1, 1]),
        (1501, [1, 1, 0]),
        (1750, [1, 1, 0]),
        (1751, [0, 0, 0]),
    ];
    for (used, winners) in cases {
        for (sheet, winner) in sheets.iter().zip(winners) {
            let mut s = Scheduler::start(sheet).unwrap();
            join(&mut s, 0, 0, 10);
            join(&mut s, 1, 1, 20);
            took(&mut s, tick(1000));
            assert_eq!(took(&mut s, set(1, 20, used)), (2, winner, winner));
            assert_eq!(remaining(&s, 1), 2000 - i64::from(used));
        }
    }
}

#[test]
fn the_edition_tells_the_mode_and_the_order() {
    // One partition: underload while it has budget, then at limit.
    for (edition, used, mode) in [(1, 1750, 2), (1, 1751, 3), (2, 1500, 2), (2, 1501, 3)] {
        let text = stated(edition, &sheet(2, 1000, 0, 0, &[100]));
        let mut s = Scheduler::start(&text).unwrap();
        join(&mut s, 0, 0, 10);
        took(&mut s, tick(1000));
        assert_eq!(took(&mut s, set(0, 10, used)), (mode, 0, 0));
        // Neither a resume nor a tick that clears what was used changes the edition.
        assert_eq!(took(&mut s, resume(0)), (2, 0, 0));
        took(&mut s, tick(1000));
        assert_eq!(took(&mut s, set(0, 10, used)), (mode, 0, 0));
    }
    // Free time, as partition 2 sleeps. Partition 0, which has used more of its
    // budget or has the lower priority, has 400 cycles left of its 1000, and
    // partition 1 has 400 of its 400: enough for both, or for neither.
    for (policy, edition, winner) in [(0, 1, 0), (0, 2, 0), (1, 1, 1), (1, 2, 1)] {
        let text = stated(edition, &sheet(10, 1000, policy, 0, &[10, 4, 86]));
        let mut s = Scheduler::start(&text).unwrap();
        join(&mut s, 0, 0, 20);
        took(&mut s, tick(600));
        assert_eq!(join(&mut s, 1, 1, 10), (1, winner, winner));
    }
    // The same with 600 left of partition 1's 600: in edition 2 it alone has
    // budget, whatever the priorities.
    for (policy, edition, winner) in [(0, 1, 0), (0, 2, 1), (1, 1, 1), (1, 2, 1)] {
        let text = stated(edition, &sheet(10, 1000, policy, 0, &[10, 6, 84]));
        let mut s = Scheduler::start(&text).unwrap();
        join(&mut s, 0, 0, 20);
        took(&mut s, tick(600));
        assert_eq!(join(&mut s, 1, 1, 10), (1, winner, winner));
    }
}

#[test]
fn what_must_remain_is_whole() {
    for (tick, quarter, half) in [(100, 25, 50), (300, 75, 150), (999_900, 249_975, 499_950)] {
        let unstated = settings(4, tick, 0, 0, &[100]);
        let one = Settings {
            edition_stated: 1,
            ..unstated
        };
        let two = Settings { edition: 2, ..one };
        assert_eq!(
            [unstated, one, two].map(|settings| settings.need().0),
            [quarter, quarter, half]
        );
    }
}

#[test]
fn a_given_state_says_its_edition() {
    // One thread, 400 cycles left of 2000: underload in edition 1, at limit in
    // edition 2, at the decision door and after an event of no time.
    for (edition, stated, mode) in [(1, 0, 2), (1, 1, 2), (2, 1, 3)] {
        let mut given = Plain::new(&Settings {
            edition,
            edition_stated: stated,
            ..settings(2, 1000, 0, 0, &[100])
        });
        given.event(&create(0, 0, 10, 1, 0));
        given.event(&ready(0, 0));
        given.history[0] = vec![900, 700];
        given.since = 900;
        assert_eq!(given.remaining(0), 400);
        assert_eq!(given.decision().mode, mode);
        assert_eq!(given.event(&set(0, 10, 0)).mode, mode);
    }
}

// Streams -------------------------------------------------------------------

/// Two schedulers keep the same things.
fn same_kept(one: &impl Kept, other: &impl Kept) {
    assert_eq!(one.settings(), other.settings());
    assert_eq!(one.stamp(), other.stamp());
    assert_eq!(one.slot(), other.slot());
    assert_eq!(one.since_tick(), other.since_tick());
    assert_eq!(one.line(), other.line());
    assert_eq!(one.running(), other.running());
    for t in 0..64 {
        assert_eq!(one.thread(t), other.thread(t));
    }
    for p in 0..one.settings().partitions {
        assert_eq!(one.used(p), other.used(p));
        for slot in 0..one.settings().window.0 as usize {
            assert_eq!(one.in_slot(p, slot), other.in_slot(p, slot));
        }
    }
}

/// The fast scheduler against the plain one, after every event.
#[test]
fn streams_agree_with_the_plain_model() {
    let mut lines = 0;
    for seed in 0..1500 {
        let case = stream(seed);
        let Ok(mut fast) = Scheduler::start(&case.sheet) else {
            continue;
        };
        let mut plain = Plain::new(fast.settings());
        for (number, event) in case.events.chunks(12).enumerate().take(400) {
            let line = fast.event(event);
            assert_eq!(line, plain.event(event), "seed {seed}, event {number}");
            lines += 1;
            // The decision on what an event has left is the event's own.
            if line.refusal == 0 {
                assert_eq!([fast.decision(), plain.decision()], [line; 2]);
            }
            if number % 7 == 0 {
                for p in 0..fast.settings().partitions {
                    assert_eq!(fast.remaining(p), Ok(Balance(plain.remaining(p))));
                }
                let tied: Vec<usize> = (0..16).filter(|p| fast.tied() >> p & 1 == 1).collect();
                assert_eq!(tied, plain.tied());
                same_kept(&fast, &plain);
            }
        }
    }
    assert!(lines > 100_000);
}

#[test]
fn streams_repeat_and_reach_everything() {
    let mut reach = Reach::default();
    for seed in 0..2000 {
        let case = stream(seed);
        if seed % 10 == 0 {
            assert_eq!(case, stream(seed));
        }
        let lines = answer(&case);
        let count = if read_sheet(&case.sheet).is_ok() {
            case.events.len().div_ceil(12)
        } else {
            1
        };
        assert_eq!(lines.len(), 12 * count);
        reach.count(&case, &lines);
        assert!(!case.to_string().is_empty());
    }
    assert!(reach.complete(), "{reach}");
    // Most events are accepted.
    assert!(reach.refusals[0] * 10 > reach.lines * 8, "{reach}");
}

#[test]
fn a_run_is_its_events_however_cut() {
    for seed in 3000..3100 {
        let case = stream(seed);
        let Ok(mut s) = Scheduler::start(&case.sheet) else {
            continue;
        };
        let mut lines = Vec::new();
        for piece in case.events.chunks(36) {
            let mut out = [0; 36];
            let written = s.run(piece, &mut out);
            lines.extend_from_slice(&out[..written]);
        }
        assert_eq!(lines, answer(&case), "seed {seed}");
    }
}
