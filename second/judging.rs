//! Judges what the program wrote for a sheet.

use crate::planner::domains::Domain;
use crate::planner::frames::Frame;
use crate::planner::orders::{bit, members, set_of, Frames, Orders};
use crate::planner::{listing, Due};
use crate::program::Answer;

/// What kind of listing is right, or that a conflict has too many frames to be judged.
#[derive(Clone, Copy, PartialEq)]
pub enum Right {
    Order,
    Conflict,
    Fault,
    Unknown,
}

/// What is right about the answer, or in words how it differs from what is due.
pub fn judge(due: &Due, answer: &Answer) -> Result<Right, String> {
    let (text, status, right) = match due {
        Due::Order(text) => (text, 0, Right::Order),
        Due::Conflict(text) => (text, 1, Right::Conflict),
        Due::Fault(text) => (text, 1, Right::Fault),
        Due::Judged(bank, frames) => return judge_many(bank, frames, answer),
    };
    same(answer, text, status)?;
    Ok(right)
}

fn same(answer: &Answer, text: &str, status: i32) -> Result<(), String> {
    if answer.listing == text.as_bytes() && answer.status == Some(status) {
        return Ok(());
    }
    Err(format!("due with status {status}:\n{text}"))
}

fn judge_many(bank: &[Domain], frames: &[Frame], answer: &Answer) -> Result<Right, String> {
    let mut orders = Orders::new(bank, frames);
    let text = String::from_utf8_lossy(&answer.listing);
    let rows: Vec<&str> = text.lines().map(|line| line.get(4..).unwrap_or("")).collect();
    if text.starts_with("FFF") {
        judge_conflict(&mut orders, &rows, answer)
    } else {
        judge_order(&mut orders, &rows, answer)
    }
}

/// The order that is listed is the picked one: each frame is in time at its place, and at each place no frame
/// earlier in the list that has a place above would be.
fn judge_order(orders: &mut Orders, rows: &[&str], answer: &Answer) -> Result<Right, String> {
    let last_first = arrangement(orders, rows)?;
    same(answer, &orders.listed(&last_first), 0)?;
    for at in 0..last_first.len() {
        let (below, rest) = last_first.split_at(at);
        let without = |frame: usize| set_of(rest) & !bit(frame);
        if !orders.in_time(rest[0], without(rest[0]), set_of(below)) {
            return Err(format!("frame {} is late in place {}", rest[0], rest.len() - 1));
        }
        let earlier = rest.iter().find(|&&f| f < rest[0] && orders.in_time(f, without(f), set_of(below)));
        if let Some(frame) = earlier {
            return Err(format!("place {} is frame {frame}'s", rest.len() - 1));
        }
    }
    Ok(Right::Order)
}

/// The frames of the listing, each once, from the last line to the first. Of frames with the same figures the
/// earliest in the list comes to stand last, since it is examined first.
fn arrangement(orders: &Orders, rows: &[&str]) -> Result<Vec<usize>, String> {
    let mut free: Vec<usize> = (0..orders.frames.len()).collect();
    let mut last_first = Vec::new();
    for row in rows.iter().rev() {
        let at = free.iter().position(|&k| row.starts_with(&listing::row(&orders.frames[k])));
        last_first.push(free.remove(at.ok_or(format!("no frame is left for the line of {row}"))?));
    }
    if free.is_empty() {
        Ok(last_first)
    } else {
        Err(format!("frames {free:?} have no line"))
    }
}

/// The frames that are listed are those that the filter leaves. They have no order, so neither has any set with all
/// of them in it, and the filter drops every other frame. And it keeps each of them: without it, those kept before
/// and all later frames have an order.
fn judge_conflict(orders: &mut Orders, rows: &[&str], answer: &Answer) -> Result<Right, String> {
    let conflict = listed_conflict(orders, rows)?;
    same(answer, &orders.conflict_listed(conflict), 1)?;
    for frame in members(conflict) {
        let before = bit(frame) - 1;
        let left = conflict & before | orders.all() & !before & !bit(frame);
        match orders.may_stand(left, 0) {
            Some(true) => {}
            Some(false) => return Err(format!("frame {frame} is listed, and without it there is still no order")),
            None => return Ok(Right::Unknown),
        }
    }
    match orders.may_stand(conflict, 0) {
        Some(true) => Err("the frames that are listed have an order".into()),
        Some(false) => Ok(Right::Conflict),
        None => Ok(Right::Unknown),
    }
}

/// The frames of the lines. Of frames with the same figures the filter drops the earlier ones, so lines are met with
/// frames from the last to the first.
fn listed_conflict(orders: &Orders, rows: &[&str]) -> Result<Frames, String> {
    let mut earlier = orders.frames.len();
    let mut conflict = 0;
    for row in rows.iter().rev() {
        let found = (0..earlier).rev().find(|&k| listing::row(&orders.frames[k]) == *row);
        earlier = found.ok_or(format!("no frame before frame {earlier} is left for the line of {row}"))?;
        conflict |= bit(earlier);
    }
    Ok(conflict)
}
