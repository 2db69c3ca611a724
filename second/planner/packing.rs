//! Which frame a signal joins: every choice is weighed on the whole plan, worked out again from its signals.

use super::domains::Domain;
use super::frames::{frames_of, Frame, Rider, Signal, FULL, MOST_FRAMES, MOST_SIGNALS};

/// What refuses a signal: the number, and the field of its line.
pub type Refusal = (u64, u64);

/// The weight of the plan that these signals make, in millionths.
pub fn weight(bank: &[Domain], riders: &[Rider]) -> u64 {
    let weighs = |f: &Frame, k: usize| (bank[k].cost(f.payload) * 1_000_000).div_ceil(f.period);
    frames_of(riders).iter().map(|f| f.domains().map(|k| weighs(f, k)).sum::<u64>()).sum()
}

/// The frame that `signal` is to ride in, if there is any. The weight before is the same for every choice, so the
/// smallest growth is the smallest weight after; the first of equals is an earlier frame, and an old one before a
/// new one.
fn choice(bank: &[Domain], riders: &[Rider], signal: &Signal) -> Option<usize> {
    let frames = frames_of(riders);
    let may_join = |f: &Frame| f.sender == signal.sender && f.fill + signal.size <= FULL;
    let old = (0..frames.len()).filter(|&k| may_join(&frames[k]));
    let new = (frames.len() < MOST_FRAMES).then_some(frames.len());
    old.chain(new).min_by_key(|&k| {
        let mut after = riders.to_vec();
        after.push(Rider { signal: signal.clone(), frame: k });
        weight(bank, &after)
    })
}

/// Enters the signal, or says what refuses it first.
pub fn enter(bank: &[Domain], riders: &mut Vec<Rider>, signal: Signal) -> Result<(), Refusal> {
    let questions = [
        (signal.sender <= 15, (2, 2)),
        ((1..=64).contains(&signal.size), (3, 3)),
        ((1_000_000..=2_000_000_000).contains(&signal.period), (4, 4)),
        ((1..=signal.period).contains(&signal.deadline), (5, 5)),
        ((1..1 << bank.len()).contains(&signal.set), (6, 6)),
        (riders.iter().all(|r| r.signal.name != signal.name), (7, 1)),
        (riders.len() < MOST_SIGNALS, (8, 0)),
    ];
    if let Some((_, refusal)) = questions.into_iter().find(|(yes, _)| !yes) {
        return Err(refusal);
    }
    let frame = choice(bank, riders, &signal).ok_or((9, 0))?;
    riders.push(Rider { signal, frame });
    Ok(())
}
