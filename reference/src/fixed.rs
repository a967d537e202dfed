//! Cases with known lines: the worked run of document 01, the cases of its
//! "Both sides of each line" that show in lines, and those of document 02.

use reference::streams::Case;
use reference::RECORD;

pub struct Fixed {
    pub name: &'static str,
    pub case: Case,
    /// The lines, or the last of them.
    pub lines: &'static str,
}

/// An event: kind, thread, partition, priority, stamp, mask, policy.
type Event = (u8, u8, u8, u8, u32, u8, u8);

pub fn sheet(window: u32, tick: u32, policy: u32, core: u32, shares: &[u32]) -> Vec<u8> {
    let mut text = format!("W 00 {window:06}\nC 00 {tick:06}\nP 00 {policy:06}\nM 00 {core:06}\n");
    for (p, share) in shares.iter().enumerate() {
        text += &format!("S {p:02} {share:06}\n");
    }
    text.into_bytes()
}

/// A sheet with a record put in as its so-manieth, counted from 0: an edition
/// belongs at place 4.
fn with(record: &[u8], place: usize, mut sheet: Vec<u8>) -> Vec<u8> {
    let at = place * RECORD;
    sheet.splice(at..at, record.iter().copied());
    sheet
}

/// A sheet that states its edition.
fn stated(edition: u32, sheet: Vec<u8>) -> Vec<u8> {
    with(format!("E 00 {edition:06}\n").as_bytes(), 4, sheet)
}

pub fn tick(stamp: u32) -> Event {
    (1, 0, 0, 0, stamp, 0, 0)
}

pub fn create(thread: u8, partition: u8, priority: u8, stamp: u32, mask: u8) -> Event {
    (2, thread, partition, priority, stamp, mask, 0)
}

/// A create for this core, with a policy, at the start.
fn with_policy(policy: u8, thread: u8, partition: u8, priority: u8) -> Event {
    (2, thread, partition, priority, 0, 1, policy)
}

pub fn ready(thread: u8, stamp: u32) -> Event {
    (3, thread, 0, 0, stamp, 0, 0)
}

fn block(thread: u8, stamp: u32) -> Event {
    (4, thread, 0, 0, stamp, 0, 0)
}

fn set(thread: u8, priority: u8, stamp: u32) -> Event {
    (5, thread, 0, priority, stamp, 0, 0)
}

fn end(thread: u8, stamp: u32) -> Event {
    (6, thread, 0, 0, stamp, 0, 0)
}

fn resume(stamp: u32) -> Event {
    (7, 0, 0, 0, stamp, 0, 0)
}

pub fn bytes(events: &[Event]) -> Vec<u8> {
    let mut bytes = Vec::new();
    for &(kind, thread, partition, priority, stamp, mask, policy) in events {
        bytes.extend([kind, thread, partition, priority]);
        bytes.extend(stamp.to_le_bytes());
        bytes.extend([mask, policy, 0, 0]);
    }
    bytes
}

fn fixed(name: &'static str, sheet: Vec<u8>, events: &[Event], lines: &'static str) -> Fixed {
    let events = bytes(events);
    Fixed {
        name,
        case: Case { sheet, events },
        lines,
    }
}

pub fn cases() -> Vec<Fixed> {
    let mut cases = decisions();
    cases.extend(editions());
    cases
}

/// Cases of request (iv) of document 02: the sheet's edition.
fn editions() -> Vec<Fixed> {
    let halves = |window, tick| sheet(window, tick, 0, 0, &[50, 50]);
    let whole = || sheet(4, 1000, 0, 0, &[100]);
    let sixteen = |more: u32| {
        let mut shares = vec![0; 16 + more as usize];
        shares[0] = 100;
        sheet(4, 1000, 0, 0, &shares)
    };
    // Two threads, of which the first, in partition 0, has run for so long.
    let after = |run: u32| {
        [
            create(0, 0, 20, 0, 1),
            create(1, 1, 10, 0, 1),
            ready(0, 0),
            ready(1, 0),
            tick(run),
        ]
    };
    // One thread alone, which has run for so long.
    let alone = |run: u32| [create(0, 0, 20, 0, 1), ready(0, 0), tick(run)];
    let refused = |name, sheet, line| fixed(name, sheet, &[tick(0)], line);
    vec![
        fixed(
            "edition 1: remaining 250 has budget",
            stated(1, halves(2, 1000)),
            &after(750),
            "00 2 00 000\n",
        ),
        fixed(
            "edition 1: remaining 249 does not",
            stated(1, halves(2, 1000)),
            &after(751),
            "00 2 01 001\n",
        ),
        fixed(
            "edition 2: remaining 500 has budget",
            stated(2, halves(2, 1000)),
            &after(500),
            "00 2 00 000\n",
        ),
        fixed(
            "edition 2: remaining 499 does not",
            stated(2, halves(2, 1000)),
            &after(501),
            "00 2 01 001\n",
        ),
        fixed(
            "edition 1: underload with less than half a tick",
            stated(1, sheet(2, 1000, 0, 0, &[100])),
            &alone(1501),
            "00 2 00 000\n",
        ),
        fixed(
            "edition 2: at limit with less than half a tick",
            stated(2, sheet(2, 1000, 0, 0, &[100])),
            &alone(1501),
            "00 3 00 000\n",
        ),
        fixed(
            "edition 2: underload with half a tick",
            stated(2, sheet(2, 1000, 0, 0, &[100])),
            &alone(1500),
            "00 2 00 000\n",
        ),
        fixed(
            "21 records with an edition",
            stated(2, sixteen(0)),
            &[tick(0)],
            "00 0 00 255\n",
        ),
        refused(
            "22 records with an edition",
            stated(2, sixteen(1)),
            "01 0 00 000\n",
        ),
        refused("21 records without an edition", sixteen(1), "01 0 00 000\n"),
        refused(
            "an edition and no share",
            stated(1, sheet(4, 1000, 0, 0, &[])),
            "01 0 00 000\n",
        ),
        refused(
            "five records, the fifth none at all but for its E",
            with(b"Exxxxxxxxxxx", 4, sheet(4, 1000, 0, 0, &[])),
            "01 0 00 000\n",
        ),
        refused(
            "an edition twice",
            stated(1, stated(1, whole())),
            "02 0 00 000\n",
        ),
        refused(
            "an edition before M",
            with(b"E 00 000001\n", 3, whole()),
            "02 0 00 000\n",
        ),
        refused(
            "an edition after S",
            with(b"E 00 000001\n", 5, whole()),
            "02 0 00 000\n",
        ),
        refused(
            "an edition numbered 01",
            with(b"E 01 000001\n", 4, whole()),
            "02 0 00 000\n",
        ),
        refused(
            "an edition of half a letter",
            with(b"E 00 0000,5\n", 4, whole()),
            "02 0 00 000\n",
        ),
        refused("edition 0", stated(0, whole()), "05 0 00 000\n"),
        refused("edition 3", stated(3, whole()), "05 0 00 000\n"),
        refused("edition 999,999", stated(999_999, whole()), "05 0 00 000\n"),
        refused(
            "edition 3, W 1",
            stated(3, halves(1, 1000)),
            "03 0 00 000\n",
        ),
        refused(
            "edition 3, C 150",
            stated(3, halves(4, 150)),
            "04 0 00 000\n",
        ),
        refused(
            "edition 3, shares of 99",
            stated(3, sheet(4, 1000, 0, 0, &[99])),
            "05 0 00 000\n",
        ),
    ]
}

fn decisions() -> Vec<Fixed> {
    let halves = |window, tick| sheet(window, tick, 0, 0, &[50, 50]);
    let mut comma = halves(4, 1000);
    comma[60..].copy_from_slice(b"S 01 0000,5\n");
    let mut repeated = halves(4, 1000);
    repeated[60..].copy_from_slice(b"S 00 000050\n");
    // Two threads, of which the first, in partition 0, has run for so long.
    let after = |run: u32| {
        [
            create(0, 0, 20, 0, 1),
            create(1, 1, 10, 0, 1),
            ready(0, 0),
            ready(1, 0),
            tick(run),
        ]
    };
    vec![
        fixed(
            "the worked run",
            halves(4, 1000),
            &[
                create(0, 0, 10, 0, 1),
                create(1, 1, 20, 0, 1),
                ready(0, 0),
                ready(1, 0),
                tick(1000),
                tick(2000),
                tick(3000),
                tick(4000),
                ready(1, 4500),
                tick(7000),
            ],
            "00 0 00 255\n00 0 00 255\n00 1 00 000\n00 2 01 001\n00 2 01 001\n\
             00 2 00 000\n00 2 00 000\n00 2 01 001\n13 0 00 000\n10 0 00 000\n",
        ),
        fixed(
            "remaining 250 has budget",
            halves(2, 1000),
            &after(750),
            "00 2 00 000\n",
        ),
        fixed(
            "remaining 249 does not",
            halves(2, 1000),
            &after(751),
            "00 2 01 001\n",
        ),
        fixed(
            "a stamp that wraps",
            halves(4, 1000),
            &[resume(4_294_967_290), tick(4)],
            "00 0 00 255\n00 0 00 255\n",
        ),
        fixed(
            "2 × C between ticks",
            halves(4, 1000),
            &[tick(2000), tick(4001), tick(4000)],
            "00 0 00 255\n10 0 00 000\n00 0 00 255\n",
        ),
        fixed(
            "the whole share sleeps",
            sheet(4, 1000, 0, 0, &[100, 0]),
            &[create(5, 1, 9, 0, 1), ready(5, 0)],
            "00 0 00 255\n00 1 01 005\n",
        ),
        fixed(
            "a thread of another core",
            halves(4, 1000),
            &[create(5, 1, 9, 0, 2), ready(5, 0)],
            "00 0 00 255\n00 0 00 255\n",
        ),
        fixed("no sheet", Vec::new(), &[tick(0)], "01 0 00 000\n"),
        fixed("half a percent", comma, &[tick(0)], "02 0 00 000\n"),
        fixed("S 00 twice", repeated, &[tick(0)], "02 0 00 000\n"),
        fixed("W 1", halves(1, 1000), &[tick(0)], "03 0 00 000\n"),
        fixed("W 401", halves(401, 1000), &[tick(0)], "03 0 00 000\n"),
        fixed("C 150", halves(4, 150), &[tick(0)], "04 0 00 000\n"),
        fixed(
            "a lone share of 99",
            sheet(4, 1000, 0, 0, &[99]),
            &[tick(0)],
            "06 0 00 000\n",
        ),
        fixed(
            "mask 0",
            halves(4, 1000),
            &[create(5, 1, 9, 0, 0)],
            "12 0 00 000\n",
        ),
        fixed(
            "policy 2",
            halves(4, 1000),
            &[with_policy(2, 5, 1, 9)],
            "12 0 00 000\n",
        ),
        fixed(
            "two threads of priority 10 take turns",
            sheet(4, 1000, 0, 0, &[100]),
            &[
                with_policy(1, 0, 0, 10),
                with_policy(1, 1, 0, 10),
                ready(0, 0),
                ready(1, 0),
                tick(1000),
                tick(2000),
                tick(3000),
                tick(4000),
                tick(5000),
                tick(6000),
                tick(7000),
                tick(8000),
            ],
            "00 2 00 000\n00 2 00 000\n00 2 00 000\n00 2 00 000\n00 2 00 000\n\
             00 2 00 001\n00 2 00 001\n00 2 00 001\n00 2 00 001\n00 2 00 000\n",
        ),
        fixed(
            "the first never lets go",
            sheet(4, 1000, 0, 0, &[100]),
            &[
                with_policy(0, 0, 0, 10),
                with_policy(1, 1, 0, 10),
                ready(0, 0),
                ready(1, 0),
                tick(1000),
                tick(2000),
                tick(3000),
                tick(4000),
                tick(5000),
            ],
            "00 2 00 000\n00 2 00 000\n00 2 00 000\n00 2 00 000\n00 2 00 000\n",
        ),
        fixed(
            "raised to others, behind them; to the same, where it was",
            sheet(4, 1000, 0, 0, &[100]),
            &[
                create(0, 0, 9, 0, 1),
                create(1, 0, 10, 0, 1),
                ready(0, 0),
                ready(1, 0),
                set(0, 10, 0),
                set(1, 10, 0),
                set(0, 10, 0),
                set(1, 11, 0),
                set(0, 11, 0),
            ],
            "00 2 00 000\n00 2 00 001\n00 2 00 001\n00 2 00 001\n00 2 00 001\n\
             00 2 00 001\n00 2 00 001\n",
        ),
        fixed(
            "lowered to others, before them",
            sheet(4, 1000, 0, 0, &[100]),
            &[
                create(0, 0, 10, 0, 1),
                create(1, 0, 11, 0, 1),
                ready(0, 0),
                ready(1, 0),
                set(1, 10, 0),
                set(0, 11, 0),
                set(0, 10, 0),
                set(0, 9, 0),
                set(1, 9, 0),
            ],
            "00 2 00 000\n00 2 00 001\n00 2 00 001\n00 2 00 000\n00 2 00 000\n\
             00 2 00 001\n00 2 00 001\n",
        ),
        fixed(
            "changed while not ready: the tail, by its ready",
            sheet(4, 1000, 0, 0, &[100]),
            &[
                create(0, 0, 11, 0, 1),
                create(1, 0, 10, 0, 1),
                set(0, 10, 0),
                ready(1, 0),
                ready(0, 0),
            ],
            "00 0 00 255\n00 2 00 001\n00 2 00 001\n",
        ),
        fixed(
            "up and down in the middle of a slice",
            sheet(4, 1000, 0, 0, &[100]),
            &[
                with_policy(1, 0, 0, 10),
                with_policy(1, 1, 0, 10),
                ready(0, 0),
                ready(1, 0),
                tick(1000),
                tick(2000),
                set(0, 11, 2000),
                set(0, 10, 2000),
                tick(3000),
                tick(4000),
                tick(5000),
            ],
            "00 2 00 000\n00 2 00 000\n00 2 00 000\n00 2 00 000\n00 2 00 000\n\
             00 2 00 001\n00 2 00 001\n",
        ),
        fixed(
            "raised in the middle of a slice, behind who waits",
            sheet(4, 1000, 0, 0, &[100]),
            &[
                with_policy(1, 0, 0, 10),
                with_policy(1, 1, 0, 10),
                ready(0, 0),
                ready(1, 0),
                tick(1000),
                set(1, 11, 1000),
                set(0, 11, 1000),
                tick(2000),
                tick(3000),
                tick(4000),
                tick(5000),
                tick(6000),
                tick(7000),
                tick(8000),
            ],
            "00 2 00 000\n00 2 00 001\n00 2 00 001\n00 2 00 001\n00 2 00 001\n\
             00 2 00 001\n00 2 00 000\n00 2 00 000\n00 2 00 000\n00 2 00 001\n",
        ),
        fixed(
            "equal jobs, who runs goes on in a tie",
            halves(100, 1000),
            &[
                create(0, 0, 10, 0, 1),
                create(1, 1, 10, 0, 1),
                ready(0, 0),
                ready(1, 0),
                tick(1000),
                tick(2000),
                tick(3000),
                tick(4000),
                tick(5000),
                tick(6000),
                tick(7000),
                tick(8000),
            ],
            "00 1 00 000\n00 2 00 000\n00 2 01 001\n00 2 01 001\n00 2 00 000\n\
             00 2 00 000\n00 2 01 001\n00 2 01 001\n00 2 00 000\n00 2 00 000\n",
        ),
        fixed(
            "who ran blocks and ends, and its partition goes on",
            halves(4, 1000),
            &[
                create(0, 0, 10, 0, 1),
                create(1, 1, 10, 0, 1),
                create(3, 1, 10, 0, 1),
                ready(1, 0),
                ready(3, 0),
                ready(0, 0),
                block(1, 0),
                ready(1, 0),
                end(3, 0),
                end(1, 0),
            ],
            "00 1 01 001\n00 1 01 001\n00 2 01 001\n00 2 01 003\n00 2 01 003\n\
             00 2 01 001\n00 1 00 000\n",
        ),
        fixed(
            "a tie after a resume",
            halves(4, 1000),
            &[
                create(0, 0, 10, 0, 1),
                create(1, 1, 10, 0, 1),
                ready(0, 0),
                ready(1, 0),
                tick(1000),
                resume(77),
                tick(77),
            ],
            "00 2 00 000\n00 2 01 001\n00 2 01 001\n00 2 01 001\n",
        ),
        fixed(
            "who runs is not among the best: the lowest of them",
            sheet(4, 1000, 0, 0, &[40, 30, 30]),
            &[
                create(0, 0, 10, 0, 1),
                create(1, 1, 10, 0, 1),
                create(2, 2, 10, 0, 1),
                ready(2, 0),
                ready(1, 0),
                ready(0, 0),
                set(2, 9, 0),
                set(2, 10, 0),
                set(0, 9, 0),
                set(0, 10, 0),
                tick(1),
            ],
            "00 1 02 002\n00 1 02 002\n00 2 02 002\n00 2 00 000\n00 2 00 000\n\
             00 2 01 001\n00 2 01 001\n00 2 00 000\n",
        ),
        fixed(
            "a tie in free time by ratio, where priorities do not count",
            sheet(4, 1000, 1, 0, &[40, 40, 20]),
            &[
                create(0, 0, 20, 0, 1),
                create(1, 1, 10, 0, 1),
                ready(1, 0),
                ready(0, 0),
            ],
            "00 1 01 001\n00 1 01 001\n",
        ),
        fixed(
            "a tie at limit",
            halves(2, 100),
            &[
                create(0, 0, 20, 0, 1),
                create(1, 1, 10, 0, 1),
                ready(1, 0),
                tick(100),
                ready(0, 100),
                set(0, 20, 200),
                set(0, 20, 201),
                set(1, 10, 202),
            ],
            "00 2 00 000\n00 3 00 000\n00 3 01 001\n00 3 01 001\n",
        ),
        fixed(
            "a tie of two without a share",
            sheet(4, 1000, 0, 0, &[0, 0, 100]),
            &[
                create(0, 0, 10, 0, 1),
                create(1, 1, 10, 0, 1),
                ready(1, 0),
                tick(700),
                ready(0, 700),
                tick(1500),
            ],
            "00 1 01 001\n00 1 01 001\n00 1 01 001\n00 1 01 001\n",
        ),
    ]
}

/// W 100, C 1000, four partitions, each with a thread, that of partition 3,
/// whose share is 10, with the lowest priority. In 200 ticks it is to be charged
/// at least its budget, 10,000 cycles, less what may be lost to each of the three
/// others: 7,750 in edition 1, where that is three quarters of a tick, and 8,500
/// in edition 2, where it is half of one.
pub fn starved(edition: u32) -> Case {
    let mut events = Vec::new();
    for p in 0..4 {
        events.push(create(p, p, 40 - p, 0, 1));
        events.push(ready(p, 0));
    }
    events.extend((1..=300).map(|n| tick(1000 * n)));
    Case {
        sheet: stated(edition, sheet(100, 1000, 0, 0, &[40, 30, 20, 10])),
        events: bytes(&events),
    }
}

/// What partition 3 was charged in the 200 ticks after the hundredth of
/// [`starved`]'s lines: a tick's time goes to the partition that the line
/// before names.
pub fn charged(lines: &[u8]) -> u32 {
    let line = |tick: usize| &lines[12 * (7 + tick)..][..12];
    (101..=300)
        .filter(|&tick| line(tick - 1)[5..7] == *b"03" && line(tick)[..2] == *b"00")
        .count() as u32
        * 1000
}
