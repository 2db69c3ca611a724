//! The kinds of domain: what a frame costs, and how late it can be. No equation is solved here: the worst case is
//! played through, one sending after the other.

use super::frames::Frame;

/// The last instant that is looked at.
pub const HORIZON: u64 = 4_000_000_000;

#[derive(Clone, Debug)]
pub enum Domain {
    Bus { arbitration: u64, data: u64 },
    Gateway { fixed: u64, byte: u64 },
    Radio { byte: u64 },
}

/// The next release of a frame that is released again and again.
struct Release {
    at: u64,
    period: u64,
    cost: u64,
}

impl Domain {
    pub fn cost(&self, payload: u64) -> u64 {
        match *self {
            Domain::Bus { arbitration, data } => {
                let longer_check = if payload > 16 { 5 } else { 0 };
                34 * arbitration + (28 + 10 * payload + longer_check) * data
            }
            Domain::Gateway { fixed, byte } => fixed + byte * payload,
            Domain::Radio { byte } => byte * (payload + 6),
        }
    }

    /// How late `frame` can be, or None; the frames around it are those that this domain carries.
    pub fn response(&self, frame: &Frame, above: &[&Frame], below: &[&Frame]) -> Option<u64> {
        match *self {
            Domain::Bus { arbitration, .. } => self.on_bus(arbitration, frame, above, below),
            Domain::Gateway { .. } => {
                let (work, mut later) = self.all_at_once(above);
                all_done(self.cost(frame.payload) + work, 0, &mut later)
            }
            Domain::Radio { .. } => self.in_turn(frame, above, below),
        }
    }

    /// The bus is taken for the longest frame below when all the others are released at once. Then it sends whatever
    /// is due from above, then an instance of the frame, and so on until the busy period is over. Whatever was due
    /// before one instance is due before the next, so the play need not begin anew for each.
    fn on_bus(&self, bit: u64, frame: &Frame, above: &[&Frame], below: &[&Frame]) -> Option<u64> {
        let blocking = below.iter().map(|f| self.cost(f.payload)).max().unwrap_or(0);
        let own = self.cost(frame.payload);
        let (work, mut all) = self.all_at_once(&[above, &[frame]].concat());
        let busy_end = all_done(blocking + work, 0, &mut all)?;
        let (work, mut later) = self.all_at_once(above);
        let (mut now, mut latest, mut released) = (blocking + work, 0, 0);
        while released < busy_end {
            // A frame above that is released during the first arbitration bit still wins it.
            now = all_done(now, bit, &mut later)? + own;
            latest = latest.max(now - released);
            released += frame.period;
        }
        Some(latest)
    }

    /// Over the radio link every frame waits for all, and all have to be through before any is released again.
    fn in_turn(&self, frame: &Frame, above: &[&Frame], below: &[&Frame]) -> Option<u64> {
        let all = [above, &[frame], below].concat();
        let sum = all.iter().map(|f| self.cost(f.payload)).sum();
        all.iter().all(|f| sum <= f.period).then_some(sum)
    }

    /// What the frames bring with them when all are released at 0, and their next releases.
    fn all_at_once(&self, frames: &[&Frame]) -> (u64, Vec<Release>) {
        let release = |f: &&Frame| Release { at: f.period, period: f.period, cost: self.cost(f.payload) };
        let later: Vec<Release> = frames.iter().map(release).collect();
        (later.iter().map(|r| r.cost).sum(), later)
    }
}

/// The instant w at which nothing is left that was released before w + ahead; None where it is past the horizon. What
/// was released at 0 takes until `now`, and `later` has what comes after it.
///
/// It is the smallest solution w of: w = `now` + (the costs of the later releases before w + ahead). While the sending
/// is not past that solution, a release that is due counts in it, so it is not past it after that one is sent either,
/// in whichever order they go. And where nothing more is due, it has come to a solution.
fn all_done(mut now: u64, ahead: u64, later: &mut [Release]) -> Option<u64> {
    while now <= HORIZON {
        let Some(due) = later.iter_mut().find(|r| r.at < now + ahead) else { return Some(now) };
        now += due.cost;
        due.at += due.period;
    }
    None
}
