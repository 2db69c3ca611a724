//! The kinds of domain: what a frame costs, and how late it can be with others above and below it.

use crate::frame::Frame;

const HORIZON: u64 = 4_000_000_000;

pub enum Domain {
    Bus { arbitration: u64, data: u64 },
    Gateway { fixed: u64, byte: u64 },
    Radio { byte: u64 },
}

pub type Bank = Vec<Domain>;

/// A frame as its domain sees it.
struct Stream {
    cost: u64,
    period: u64,
}

impl Domain {
    pub fn cost(&self, frame: &Frame) -> u64 {
        let payload = frame.payload();
        match self {
            Domain::Bus { arbitration, data } => {
                let stuffed = if payload > 16 { 5 * data } else { 0 };
                34 * arbitration + (28 + 10 * payload) * data + stuffed
            }
            Domain::Gateway { fixed, byte } => fixed + byte * payload,
            Domain::Radio { byte } => byte * (payload + 6),
        }
    }

    pub fn answer(&self, frame: &Frame, above: &[&Frame], below: &[&Frame]) -> Option<u64> {
        let own = self.stream(frame);
        let above = self.streams(above);
        let below = self.streams(below);
        match self {
            Domain::Bus { arbitration, .. } => bus_answer(*arbitration, &own, &above, &below),
            Domain::Gateway { .. } => smallest_from(1, |w| own.cost + demand(&above, w)),
            Domain::Radio { .. } => radio_answer(&own, &above, &below),
        }
    }

    fn stream(&self, frame: &Frame) -> Stream {
        Stream {
            cost: self.cost(frame),
            period: frame.period,
        }
    }

    fn streams(&self, frames: &[&Frame]) -> Vec<Stream> {
        frames.iter().map(|frame| self.stream(frame)).collect()
    }
}

/// What the streams release in the time w.
fn demand(streams: &[Stream], w: u64) -> u64 {
    streams.iter().map(|s| w.div_ceil(s.period) * s.cost).sum()
}

/// The smallest solution of w = rule(w) from the lower bound to the horizon.
fn smallest_from(bound: u64, rule: impl Fn(u64) -> u64) -> Option<u64> {
    let mut w = bound;
    while w <= HORIZON {
        let next = rule(w);
        if next == w {
            return Some(w);
        }
        w = next;
    }
    None
}

fn bus_answer(arbitration: u64, own: &Stream, above: &[Stream], below: &[Stream]) -> Option<u64> {
    let blocking = below.iter().map(|s| s.cost).max().unwrap_or(0);
    let busy = smallest_from(1, |t| {
        blocking + t.div_ceil(own.period) * own.cost + demand(above, t)
    })?;
    let mut worst = 0;
    for q in 0..busy.div_ceil(own.period) {
        let delay = smallest_from(0, |w| {
            blocking + q * own.cost + demand(above, w + arbitration)
        })?;
        worst = worst.max(delay + own.cost - q * own.period);
    }
    Some(worst)
}

fn radio_answer(own: &Stream, above: &[Stream], below: &[Stream]) -> Option<u64> {
    let others = || above.iter().chain(below);
    let cycle = own.cost + others().map(|s| s.cost).sum::<u64>();
    let least_period = others().map(|s| s.period).fold(own.period, u64::min);
    (cycle <= least_period).then_some(cycle)
}
