//! Signals, and the figures of a frame as its signals give them.

pub const PAYLOADS: [u64; 16] = [0, 1, 2, 3, 4, 5, 6, 7, 8, 12, 16, 20, 24, 32, 48, 64];
pub const FULL: u64 = 64;
pub const MOST_SIGNALS: usize = 256;
pub const MOST_FRAMES: usize = 96;

#[derive(Clone, Debug)]
pub struct Signal {
    pub name: u64,
    pub sender: u64,
    pub size: u64,
    pub period: u64,
    pub deadline: u64,
    pub set: u64,
}

/// A signal and the number of the frame that it rides in.
#[derive(Clone, Debug)]
pub struct Rider {
    pub signal: Signal,
    pub frame: usize,
}

#[derive(Clone, Debug, PartialEq)]
pub struct Frame {
    pub sender: u64,
    pub fill: u64,
    pub payload: u64,
    pub period: u64,
    pub deadline: u64,
    pub set: u64,
}

impl Frame {
    /// The frame of these signals; there is at least one, and they have one sender.
    fn of(signals: &[&Signal]) -> Frame {
        let fill = signals.iter().map(|s| s.size).sum();
        Frame {
            sender: signals[0].sender,
            fill,
            payload: *PAYLOADS.iter().find(|&&p| p >= fill).expect("a fill of at most 64"),
            period: signals.iter().map(|s| s.period).min().expect("a signal"),
            deadline: signals.iter().map(|s| s.deadline).min().expect("a signal"),
            set: signals.iter().fold(0, |set, s| set | s.set),
        }
    }

    /// The numbers of the domains that carry the frame, the lowest first.
    pub fn domains(&self) -> impl Iterator<Item = usize> + '_ {
        (0..4).filter(|k| self.set >> k & 1 == 1)
    }
}

/// The frames that these signals ride in, each worked out from its signals alone.
pub fn frames_of(riders: &[Rider]) -> Vec<Frame> {
    let count = riders.iter().map(|r| r.frame + 1).max().unwrap_or(0);
    let of = |k| -> Vec<&Signal> { riders.iter().filter(|r| r.frame == k).map(|r| &r.signal).collect() };
    (0..count).map(|k| Frame::of(&of(k))).collect()
}
