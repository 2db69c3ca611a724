//! Figures at and past their limits, and sheets with too much or too little in them.

use super::lines::{bank, quiet, sheet, usual_bank};
use crate::planner::domains::Domain::{self, Bus, Gateway, Radio};
use crate::planner::frames::Signal;

pub fn sheets() -> Vec<(String, Vec<u8>)> {
    let mut sheets = of_signals();
    sheets.extend(of_figures());
    sheets.extend(of_counts());
    sheets.extend(of_lengths());
    sheets.extend(of_ties());
    sheets.extend(of_meetings());
    sheets.extend(of_busy_periods());
    sheets
}

/// Signals of one sender whose last one has choices of the same growth, or nearly. Its deadline tells where it rides.
fn of_ties() -> Vec<(String, Vec<u8>)> {
    let mut domains = usual_bank();
    // A cost that is the same for every payload.
    domains[2] = Gateway { fixed: 20_000, byte: 0 };
    // Sizes and sets.
    let cases: [&[(u64, u64)]; 4] =
        [&[(40, 1), (40, 1), (8, 1)], &[(44, 1), (40, 1), (8, 1)], &[(9, 1), (1, 4)], &[(33, 1), (33, 1), (1, 4)]];
    let entered = |of: &[(u64, u64)]| {
        let signal = |(&(size, set), name)| Signal { size, set, deadline: 9_000_000 - name, ..quiet(name) };
        let signals: Vec<Signal> = of.iter().zip(1..).map(signal).collect();
        (format!("sizes and sets {of:?}"), sheet(&domains, &signals).into_bytes())
    };
    cases.into_iter().map(entered).collect()
}

/// Seven frames of one length; the first of them is released again just before, at or after the last instant that
/// counts for the lowest, which is earliest in the list.
fn of_meetings() -> Vec<(String, Vec<u8>)> {
    let mut domains = usual_bank();
    domains[2] = Gateway { fixed: 100_000, byte: 1_000 };
    let on_bus = 6 * domains[0].cost(64) + 2_000;
    let in_gateway = 7 * domains[2].cost(64);
    let mut sheets = Vec::new();
    for (set, instant) in [(1, on_bus), (4, in_gateway)] {
        for period in [instant - 1, instant, instant + 1] {
            let mut signals: Vec<Signal> = (1..=7).map(|k| Signal { size: 64, sender: k, set, ..quiet(k) }).collect();
            (signals[6].period, signals[6].deadline) = (period, period);
            sheets
                .push((format!("set {set}, the first again after {period}"), sheet(&domains, &signals).into_bytes()));
        }
    }
    sheets
}

/// Periods of three frames, the lowest first, that leave a bus next to no time. The busy period of the lowest ends
/// at so many times 1,280,000, the cost of a frame, and it has an answer, in time, where that is at most
/// 4,000,000,000.
const LONG_BUSY: [(u64, [u64; 3]); 6] = [
    (3_124, [6_181_831, 3_841_231, 2_784_970]),
    (3_124, [6_142_464, 3_848_632, 2_788_669]),
    (3_125, [5_121_650, 4_445_009, 2_770_346]),
    (3_125, [5_121_641, 4_004_207, 2_974_292]),
    (3_126, [6_127_542, 3_896_360, 2_767_177]),
    (3_126, [5_549_631, 4_159_675, 2_772_902]),
];

fn of_busy_periods() -> Vec<(String, Vec<u8>)> {
    let mut domains = usual_bank();
    domains[0] = Bus { arbitration: 7_960, data: 6_820 };
    let signal = |(period, name)| Signal { sender: name, size: 12, period, deadline: period, ..quiet(name) };
    let close = |(frames, periods): (u64, [u64; 3])| {
        let signals: Vec<Signal> = periods.into_iter().zip(1..).map(signal).collect();
        (format!("a busy period of {frames} frames"), sheet(&domains, &signals).into_bytes())
    };
    LONG_BUSY.into_iter().map(close).collect()
}

/// What is changed of a signal that nothing is wrong with.
const SIGNALS: [(&str, fn(&mut Signal)); 24] = [
    ("period 999,999", |s| (s.period, s.deadline) = (999_999, 999_999)),
    ("period 1,000,000", |s| (s.period, s.deadline) = (1_000_000, 1_000_000)),
    ("period 2,000,000,000", |s| (s.period, s.deadline) = (2_000_000_000, 2_000_000_000)),
    ("period 2,000,000,001", |s| (s.period, s.deadline) = (2_000_000_001, 2_000_000_000)),
    ("period 0", |s| s.period = 0),
    ("longest period that has its digits", |s| s.period = 0xFFFF_FFFF),
    ("deadline 0", |s| s.deadline = 0),
    ("deadline 1", |s| s.deadline = 1),
    ("deadline of a period", |s| s.deadline = s.period),
    ("deadline of a period and 1", |s| s.deadline = s.period + 1),
    ("size 0", |s| s.size = 0),
    ("size 0 and deadline 0", |s| (s.size, s.deadline) = (0, 0)),
    ("size 1", |s| s.size = 1),
    ("size 64", |s| s.size = 64),
    ("size 65", |s| s.size = 65),
    ("size 255", |s| s.size = 255),
    ("sender 0", |s| s.sender = 0),
    ("sender 15", |s| s.sender = 15),
    ("no domain", |s| s.set = 0),
    ("every domain", |s| s.set = 15),
    ("name 0", |s| s.name = 0),
    ("name 65,535", |s| s.name = 65_535),
    ("a name that is taken", |s| s.name = 1),
    ("a name that is taken, with no domain", |s| (s.name, s.set) = (1, 0)),
];

fn of_signals() -> Vec<(String, Vec<u8>)> {
    let changed = |(about, change): &(&str, fn(&mut Signal))| {
        let mut signal = quiet(2);
        change(&mut signal);
        (about.to_string(), sheet(&usual_bank(), &[quiet(1), signal, quiet(3)]).into_bytes())
    };
    SIGNALS.iter().map(changed).collect()
}

/// Figures of a domain that lie at a limit, or next to it.
fn of_figures() -> Vec<(String, Vec<u8>)> {
    let mut changes: Vec<(usize, Domain)> = Vec::new();
    for arbitration in [0, 999, 1_000, 8_000, 8_001, 0xFFFF_FFFF] {
        for data in [124, 125, arbitration, arbitration + 1] {
            let data = data.min(0xFFFF_FFFF);
            changes.push((0, Bus { arbitration, data }));
        }
        changes.push((1, Bus { arbitration, data: 1_000 }));
    }
    for fixed in [0, 999, 1_000, 100_000, 100_001, 0xFFFF_FFFF] {
        changes.extend([0, 1_000, 1_001, 0xFFFF_FFFF].map(|byte| (2, Gateway { fixed, byte })));
    }
    changes.extend([0, 9_999, 10_000, 200_000, 200_001, 0xFFFF_FFFF].map(|byte| (3, Radio { byte })));
    changes.into_iter().map(with_domain).collect()
}

fn with_domain((at, domain): (usize, Domain)) -> (String, Vec<u8>) {
    let about = format!("domain {at} is {domain:?}");
    let mut domains = usual_bank();
    domains[at] = domain;
    let reaches_all = Signal { set: 15, ..quiet(1) };
    (about, sheet(&domains, &[reaches_all, quiet(2)]).into_bytes())
}

fn of_counts() -> Vec<(String, Vec<u8>)> {
    let small = |name| Signal { size: 1, ..quiet(name) };
    let whole = |name| Signal { size: 64, ..quiet(name) };
    let other = |name| Signal { sender: 2, ..small(name) };
    let afar = |name| Signal { size: 64, sender: name % 16, set: 15, ..quiet(name) };
    let signals =
        |count, of: fn(u64) -> Signal, more: Vec<Signal>| -> Vec<Signal> { (1..=count).map(of).chain(more).collect() };
    let cases = [
        ("no signals", vec![]),
        ("256 signals", signals(256, small, vec![])),
        ("257 signals", signals(257, small, vec![])),
        ("257 signals, the last with a name that is taken", signals(256, small, vec![small(1)])),
        ("96 signals of 64 bytes", signals(96, whole, vec![])),
        ("96 signals of 64 bytes and another", signals(97, whole, vec![])),
        ("96 signals of 64 bytes and one of another sender", signals(96, whole, vec![other(97)])),
        ("95 signals of 64 bytes and two that fit into one frame", signals(95, whole, vec![small(96), small(97)])),
        ("96 frames in all domains", signals(96, afar, vec![])),
    ];
    let bank = usual_bank();
    let usual = cases.iter().map(|(about, signals)| (about.to_string(), sheet(&bank, signals).into_bytes()));
    let mut near = usual_bank();
    near[3] = Radio { byte: 10_000 };
    let longest = ("the longest listing".to_string(), sheet(&near, &signals(96, afar, vec![])).into_bytes());
    usual.chain([longest]).collect()
}

fn of_lengths() -> Vec<(String, Vec<u8>)> {
    let long: Vec<Signal> = (1..=3_000).map(quiet).collect();
    let long = sheet(&usual_bank(), &long).into_bytes();
    let cut = |length: usize| (format!("the first {length} bytes of a long sheet"), long[..length].to_vec());
    let feeds = |length: usize| (format!("{length} line feeds"), vec![b'\n'; length]);
    let head = bank(&usual_bank()).len();
    let mut sheets = vec![feeds(16_384), feeds(16_385), cut(16_383), cut(16_384), cut(16_385), cut(80_000)];
    // Cuts through the first four lines and one signal, one in three.
    sheets.extend((0..=head + 32).step_by(3).map(cut));
    sheets
}
