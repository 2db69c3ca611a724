//! Which frame a signal joins: the one where the plan's weight grows least.

use crate::domain::Domain;
use crate::frame::{Frame, Signal};
use crate::sheet::Refusal;

const MAX_SIGNALS: usize = 256;
const MAX_FRAMES: usize = 96;
const MAX_FILL: u64 = 64;

#[derive(Default)]
pub struct Packing {
    names: Vec<u64>,
    pub frames: Vec<Frame>,
}

impl Packing {
    pub fn enter(&mut self, bank: &[Domain], signal: &Signal) -> Result<(), Refusal> {
        self.check(signal)?;
        let n = self.choose(bank, signal).ok_or(Refusal {
            number: 9,
            field: 0,
        })?;
        match self.frames.get_mut(n) {
            Some(frame) => *frame = frame.with(signal),
            None => self.frames.push(Frame::of(signal)),
        }
        self.names.push(signal.name);
        Ok(())
    }

    /// The bank of a sheet has four domains, and a sheet's sender and set are one digit.
    fn check(&self, signal: &Signal) -> Result<(), Refusal> {
        let refuse = |number, field| Err(Refusal { number, field });
        if !(1..=64).contains(&signal.size) {
            return refuse(3, 3);
        }
        if !(1_000_000..=2_000_000_000).contains(&signal.period) {
            return refuse(4, 4);
        }
        if !(1..=signal.period).contains(&signal.deadline) {
            return refuse(5, 5);
        }
        if signal.set == 0 {
            return refuse(6, 6);
        }
        if self.names.contains(&signal.name) {
            return refuse(7, 1);
        }
        if self.names.len() >= MAX_SIGNALS {
            return refuse(8, 0);
        }
        Ok(())
    }

    /// The frame with the least growth, an old one before a new one and an earlier one before a later one.
    fn choose(&self, bank: &[Domain], signal: &Signal) -> Option<usize> {
        let joined = self
            .frames
            .iter()
            .enumerate()
            .filter(|(_, frame)| {
                frame.sender == signal.sender && frame.fill + signal.size <= MAX_FILL
            })
            .map(|(n, frame)| (weight(bank, &frame.with(signal)) - weight(bank, frame), n));
        let opened = (self.frames.len() < MAX_FRAMES)
            .then(|| (weight(bank, &Frame::of(signal)), self.frames.len()));
        joined.chain(opened).min().map(|(_, n)| n)
    }
}

/// What a frame weighs in all domains of its set, in millionths.
fn weight(bank: &[Domain], frame: &Frame) -> u64 {
    let carrying = bank
        .iter()
        .enumerate()
        .filter(|(k, _)| frame.is_carried_by(*k));
    carrying
        .map(|(_, domain)| (domain.cost(frame) * 1_000_000).div_ceil(frame.period))
        .sum()
}
