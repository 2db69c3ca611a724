//! The lines of a listing.

use crate::domain::Domain;
use crate::frame::Frame;
use crate::order::{find_conflict, find_order, response};
use crate::sheet::Fault;
use std::fmt::Write;

pub fn of_fault(fault: &Fault) -> String {
    format!(
        "EEE {:02X} {:04X} {:X}\n",
        fault.number, fault.line, fault.field
    )
}

pub fn of_plan(bank: &[Domain], frames: &[Frame]) -> String {
    let frames: Vec<&Frame> = frames.iter().collect();
    match find_order(bank, &frames) {
        Some(order) => of_order(bank, &order),
        None => of_conflict(&find_conflict(bank, &frames)),
    }
}

fn of_order(bank: &[Domain], order: &[&Frame]) -> String {
    let mut text = String::new();
    for (place, frame) in order.iter().enumerate() {
        push_figures(&mut text, 8 * (place + 1), frame);
        for k in (0..bank.len()).filter(|&k| frame.is_carried_by(k)) {
            let time = response(bank, k, frame, &order[..place], &order[place + 1..]);
            let time = time.expect("a frame in order is in time");
            write!(text, " {time:08X}").expect("a string takes all");
        }
        text.push('\n');
    }
    text
}

fn of_conflict(conflict: &[&Frame]) -> String {
    let mut text = String::new();
    for frame in conflict {
        push_figures(&mut text, 0xFFF, frame);
        text.push('\n');
    }
    text
}

fn push_figures(text: &mut String, identifier: usize, frame: &Frame) {
    let Frame {
        sender,
        period,
        deadline,
        set,
        ..
    } = frame;
    let payload = frame.payload();
    write!(
        text,
        "{identifier:03X} {sender:X} {payload:02X} {period:08X} {deadline:08X} {set:X}"
    )
    .expect("a string takes all");
}
