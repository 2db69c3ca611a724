//! Signals and the frames that carry them.

const PAYLOADS: [u64; 16] = [0, 1, 2, 3, 4, 5, 6, 7, 8, 12, 16, 20, 24, 32, 48, 64];

#[derive(Clone)]
pub struct Signal {
    pub name: u64,
    pub sender: u64,
    pub size: u64,
    pub period: u64,
    pub deadline: u64,
    pub set: u64,
}

#[derive(Clone)]
pub struct Frame {
    pub sender: u64,
    pub fill: u64,
    pub period: u64,
    pub deadline: u64,
    pub set: u64,
}

impl Frame {
    pub fn of(signal: &Signal) -> Frame {
        Frame {
            sender: signal.sender,
            fill: signal.size,
            period: signal.period,
            deadline: signal.deadline,
            set: signal.set,
        }
    }

    pub fn with(&self, signal: &Signal) -> Frame {
        Frame {
            sender: self.sender,
            fill: self.fill + signal.size,
            period: self.period.min(signal.period),
            deadline: self.deadline.min(signal.deadline),
            set: self.set | signal.set,
        }
    }

    pub fn payload(&self) -> u64 {
        *PAYLOADS
            .iter()
            .find(|&&p| p >= self.fill)
            .expect("a fill is at most 64")
    }

    pub fn is_carried_by(&self, k: usize) -> bool {
        self.set >> k & 1 == 1
    }
}
