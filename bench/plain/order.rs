//! The order of the frames, or the frames in each other's way.

use crate::domain::Domain;
use crate::frame::Frame;

/// The frames that domain k carries.
fn carried<'a>(frames: &[&'a Frame], k: usize) -> Vec<&'a Frame> {
    frames
        .iter()
        .copied()
        .filter(|frame| frame.is_carried_by(k))
        .collect()
}

/// How late a frame can be in domain k, which is told of no frames but those that it carries.
pub fn response(
    bank: &[Domain],
    k: usize,
    frame: &Frame,
    above: &[&Frame],
    below: &[&Frame],
) -> Option<u64> {
    bank[k].answer(frame, &carried(above, k), &carried(below, k))
}

fn in_time(bank: &[Domain], frame: &Frame, above: &[&Frame], below: &[&Frame]) -> bool {
    let mut domains = (0..bank.len()).filter(|&k| frame.is_carried_by(k));
    domains
        .all(|k| response(bank, k, frame, above, below).is_some_and(|time| time <= frame.deadline))
}

/// The first of the frames without a place, in list order, that is in time with the others above it.
fn first_in_time(bank: &[Domain], free: &[&Frame], below: &[&Frame]) -> Option<usize> {
    (0..free.len()).find(|&i| {
        let mut above = free.to_vec();
        let frame = above.remove(i);
        in_time(bank, frame, &above, below)
    })
}

/// Gives places from the last to the first; none where at some place no frame is in time.
pub fn find_order<'a>(bank: &[Domain], frames: &[&'a Frame]) -> Option<Vec<&'a Frame>> {
    let mut free = frames.to_vec();
    let mut placed = Vec::new();
    while !free.is_empty() {
        let i = first_in_time(bank, &free, &placed)?;
        placed.insert(0, free.remove(i));
    }
    Some(placed)
}

/// Of frames that have no order: in list order each is dropped without which the rest still has none.
pub fn find_conflict<'a>(bank: &[Domain], frames: &[&'a Frame]) -> Vec<&'a Frame> {
    let mut left = frames.to_vec();
    let mut i = 0;
    while i < left.len() {
        let mut rest = left.clone();
        rest.remove(i);
        if find_order(bank, &rest).is_none() {
            left = rest;
        } else {
            i += 1;
        }
    }
    left
}
