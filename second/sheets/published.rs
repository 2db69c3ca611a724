//! Published examples, and plans that the rules have worked by hand.

use super::lines::{quiet, sheet, usual_bank};
use crate::planner::domains::Domain;
use crate::planner::frames::Signal;

/// The three messages with which the revised analysis of CAN of 2007 refutes the older one. Each takes 1 ms at 125
/// kbit/s; their periods are 2.5, 3.5 and 3.5 ms, their deadlines 2.5, 3.25 and 3.25 ms. The third is in time by its
/// first instance and late by its second. A bit of 8,000 ns is the same here, but payload 8 takes 1,136,000 ns, so
/// each millisecond there is 1,136,000 ns here.
pub const MESSAGE: u64 = 1_136_000;

/// In hundredths of a message: period and deadline.
const MESSAGES: [(u64, u64); 3] = [(250, 250), (350, 325), (350, 325)];

const LISTS: [&[usize]; 10] =
    [&[0, 1, 2], &[0, 2, 1], &[1, 0, 2], &[1, 2, 0], &[2, 0, 1], &[2, 1, 0], &[0, 1], &[1, 0], &[1, 2], &[2]];

pub fn slow_bus() -> Domain {
    Domain::Bus { arbitration: 8_000, data: 8_000 }
}

/// The signal of a message, which a sender of its own keeps in a frame of its own.
pub fn message(at: usize) -> Signal {
    let (period, deadline) = MESSAGES[at];
    let (period, deadline) = (period * MESSAGE / 100, deadline * MESSAGE / 100);
    Signal { sender: at as u64 + 1, period, deadline, ..quiet(at as u64 + 1) }
}

pub fn sheets() -> Vec<(String, Vec<u8>)> {
    let mut sheets = three_messages();
    sheets.push(("two hasty frames".into(), sheet(&usual_bank(), &[hasty(1), hasty(2)]).into_bytes()));
    sheets.push(("one hasty frame".into(), sheet(&usual_bank(), &[hasty(1)]).into_bytes()));
    sheets.push(("three signals".into(), three_signals().into_bytes()));
    for period in [1_100_000, 1_099_999] {
        let afar = |name, size| Signal { sender: name, size, period, deadline: period, set: 8, ..quiet(name) };
        let text = sheet(&usual_bank(), &[afar(1, 2), afar(2, 8)]);
        sheets.push((format!("radio at a period of {period}"), text.into_bytes()));
    }
    sheets
}

/// In each order of the list, with the deadlines as published, and with one that is 1 ns below how late the third can
/// be, or just that.
fn three_messages() -> Vec<(String, Vec<u8>)> {
    let mut domains = usual_bank();
    domains[0] = slow_bus();
    let mut sheets = Vec::new();
    for list in LISTS {
        let latest = 350 * MESSAGE / 100;
        for deadline in [None, Some(latest - 1), Some(latest)] {
            let with =
                |signal: Signal| Signal { deadline: deadline.unwrap_or(signal.deadline).min(signal.period), ..signal };
            let signals: Vec<Signal> = list.iter().map(|&at| with(message(at))).collect();
            let about = format!("messages {list:?} with deadline {deadline:?}");
            sheets.push((about, sheet(&domains, &signals).into_bytes()));
        }
    }
    sheets
}

fn hasty(name: u64) -> Signal {
    Signal { sender: name, period: 1_000_000, deadline: 150_000, ..quiet(name) }
}

pub fn three_signals() -> String {
    let signal = |name, sender, size, period, set| Signal { name, sender, size, period, deadline: period, set };
    let signals = [signal(1, 1, 8, 10_000_000, 1), signal(2, 2, 2, 5_000_000, 3), signal(3, 1, 4, 10_000_000, 1)];
    sheet(&usual_bank(), &signals)
}
