//! The lines of a listing.

use super::frames::Frame;
use super::sheet::Fault;

/// What both kinds of line say of a frame.
pub fn row(frame: &Frame) -> String {
    let Frame { sender, payload, period, deadline, set, .. } = frame;
    format!("{sender:X} {payload:02X} {period:08X} {deadline:08X} {set:X}")
}

pub fn in_order(place: usize, frame: &Frame, responses: &[u64]) -> String {
    let times: String = responses.iter().map(|time| format!(" {time:08X}")).collect();
    format!("{:03X} {}{times}\n", 8 * (place + 1), row(frame))
}

pub fn in_conflict(frame: &Frame) -> String {
    format!("FFF {}\n", row(frame))
}

pub fn fault(fault: &Fault) -> String {
    format!("EEE {:02X} {:04X} {:X}\n", fault.number, fault.line, fault.field)
}
