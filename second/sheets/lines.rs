//! Lines of sheets.

use crate::planner::domains::Domain;
use crate::planner::frames::Signal;

pub fn bank(domains: &[Domain]) -> String {
    domains
        .iter()
        .map(|domain| match domain {
            Domain::Bus { arbitration, data } => format!("C {arbitration:08X} {data:08X}\n"),
            Domain::Gateway { fixed, byte } => format!("G {fixed:08X} {byte:08X}\n"),
            Domain::Radio { byte } => format!("R {byte:08X}\n"),
        })
        .collect()
}

pub fn signal(of: &Signal) -> String {
    let Signal { name, sender, size, period, deadline, set } = of;
    format!("S {name:04X} {sender:X} {size:02X} {period:08X} {deadline:08X} {set:X}\n")
}

pub fn sheet(domains: &[Domain], signals: &[Signal]) -> String {
    bank(domains) + &signals.iter().map(signal).collect::<String>()
}

/// Two usual buses, a gateway and a radio link.
pub fn usual_bank() -> Vec<Domain> {
    let bus = || Domain::Bus { arbitration: 2_000, data: 500 };
    vec![bus(), bus(), Domain::Gateway { fixed: 20_000, byte: 100 }, Domain::Radio { byte: 50_000 }]
}

/// A signal that nothing is wrong with, and that is never in the way of others.
pub fn quiet(name: u64) -> Signal {
    Signal { name, sender: 1, size: 8, period: 1_000_000_000, deadline: 1_000_000_000, set: 1 }
}
