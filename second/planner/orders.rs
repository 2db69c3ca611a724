//! Orders of a plan's frames, by trying arrangements, and conflicts. Sets of frames are bits, frame k being bit k.

use super::domains::Domain;
use super::frames::Frame;
use super::listing;
use std::collections::HashMap;

pub type Frames = u128;

/// Up to so many frames all arrangements are tried.
pub const FEW: usize = 7;

/// The most sets that `may_stand` looks at before it gives up.
const MOST_SETS: usize = 100_000;

pub struct Orders<'a> {
    pub bank: &'a [Domain],
    pub frames: &'a [Frame],
    in_time: HashMap<(usize, Frames, Frames), bool>,
    stands: HashMap<(Frames, Frames), bool>,
}

pub fn bit(frame: usize) -> Frames {
    1 << frame
}

pub fn set_of(frames: &[usize]) -> Frames {
    frames.iter().fold(0, |set, &k| set | bit(k))
}

pub fn members(set: Frames) -> impl Iterator<Item = usize> {
    (0..128).filter(move |&k| set & bit(k) != 0)
}

impl<'a> Orders<'a> {
    pub fn new(bank: &'a [Domain], frames: &'a [Frame]) -> Self {
        Orders { bank, frames, in_time: HashMap::new(), stands: HashMap::new() }
    }

    pub fn all(&self) -> Frames {
        (0..self.frames.len()).fold(0, |set, k| set | bit(k))
    }

    /// The answers of the domains of the frame's set, each told of the frames that it carries and of no others.
    pub fn responses(&self, frame: usize, above: Frames, below: Frames) -> Vec<Option<u64>> {
        let asked = &self.frames[frame];
        let carried = |set, k| -> Vec<&Frame> {
            members(set).map(|f| &self.frames[f]).filter(|f| f.domains().any(|of| of == k)).collect()
        };
        let ask = |k: usize| self.bank[k].response(asked, &carried(above, k), &carried(below, k));
        asked.domains().map(ask).collect()
    }

    pub fn in_time(&mut self, frame: usize, above: Frames, below: Frames) -> bool {
        if let Some(&known) = self.in_time.get(&(frame, above, below)) {
            return known;
        }
        let deadline = self.frames[frame].deadline;
        let soon = self.responses(frame, above, below).iter().all(|r| r.is_some_and(|time| time <= deadline));
        self.in_time.insert((frame, above, below), soon);
        soon
    }

    /// Whether every frame is in time in an arrangement, which is told from its last place to its first.
    pub fn meets(&mut self, last_first: &[usize]) -> bool {
        (0..last_first.len()).all(|at| {
            let (below, rest) = last_first.split_at(at);
            self.in_time(rest[0], set_of(&rest[1..]), set_of(below))
        })
    }

    /// Of all arrangements of these frames that meet every deadline, the one whose last place has the frame that is
    /// earliest in the list, among those the one whose last place but one has the earliest, and so on. They are told
    /// from the last place to the first and tried in the order of a dictionary, so it is the first that is met.
    ///
    /// It is the order of the rules. These give the last place to the earliest frame that is in time there with all
    /// others above. The last frame of any arrangement that meets every deadline is in time there, so the rules'
    /// frame is none later. And where any such arrangement is, there is one whose last frame is the rules': move
    /// that frame to the end. For those that came after it one frame goes from above to below, which makes nothing
    /// later, and for those before it nothing changes. The same holds at each place above, with the frames placed
    /// already below it.
    pub fn picked(&mut self, frames: Frames) -> Option<Vec<usize>> {
        let mut last_first: Vec<usize> = members(frames).collect();
        while !self.meets(&last_first) {
            if !next_arrangement(&mut last_first) {
                return None;
            }
        }
        Some(last_first)
    }

    /// What the filter leaves of frames without an order.
    pub fn conflict(&mut self) -> Frames {
        let mut left = self.all();
        for frame in members(left) {
            if self.picked(left & !bit(frame)).is_none() {
                left &= !bit(frame);
            }
        }
        left
    }

    /// Whether the frames of `top` have an arrangement in which each is in time with those of `below` below them
    /// all, by trying each as the last of them; each set is looked at once. None where there are too many sets.
    pub fn may_stand(&mut self, top: Frames, below: Frames) -> Option<bool> {
        if let Some(&known) = self.stands.get(&(top, below)) {
            return Some(known);
        }
        if self.stands.len() >= MOST_SETS {
            return None;
        }
        let mut stands = top == 0;
        for last in members(top) {
            let above = top & !bit(last);
            if self.in_time(last, above, below) && self.may_stand(above, below | bit(last))? {
                stands = true;
                break;
            }
        }
        self.stands.insert((top, below), stands);
        Some(stands)
    }

    /// The listing of an arrangement of all frames, given from its last place to its first. An answer of none, which
    /// an order cannot have, is told as no time at all.
    pub fn listed(&self, last_first: &[usize]) -> String {
        let line = |place| {
            let (below, rest) = last_first.split_at(last_first.len() - 1 - place);
            let answers = self.responses(rest[0], set_of(&rest[1..]), set_of(below));
            let times: Vec<u64> = answers.into_iter().flatten().collect();
            listing::in_order(place, &self.frames[rest[0]], &times)
        };
        (0..last_first.len()).map(line).collect()
    }

    pub fn conflict_listed(&self, conflict: Frames) -> String {
        members(conflict).map(|k| listing::in_conflict(&self.frames[k])).collect()
    }
}

/// Steps to the next arrangement in the order of a dictionary, and says whether there is one.
fn next_arrangement(of: &mut [usize]) -> bool {
    let Some(rise) = (1..of.len()).rev().find(|&at| of[at - 1] < of[at]) else { return false };
    let step = (rise..of.len()).rev().find(|&at| of[at] > of[rise - 1]).expect("one that is greater");
    of.swap(rise - 1, step);
    of[rise..].reverse();
    true
}
