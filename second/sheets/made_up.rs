//! Made-up plans, with small and large loads, and figures drawn close to where an answer changes.

use super::lines::sheet as write;
use super::random::Random;
use crate::planner::domains::Domain;
use crate::planner::frames::{frames_of, Signal, PAYLOADS};
use crate::planner::orders::{set_of, Orders, FEW};
use crate::planner::sheet::read;

/// What the signals of a plan have in common.
struct Style {
    senders: u64,
    sets: &'static [u64],
    pace: Pace,
}

pub fn sheet(random: &mut Random) -> (String, Vec<u8>) {
    let domains = bank(random);
    let large = random.once_in(20);
    let count = if large { random.within(15, 50) } else { random.within(1, 10) };
    let senders = if large { random.within(3, 15) } else { random.within(1, 4) };
    let pace = random.pick(&PACES);
    let sets = random.pick(if pace.is_slow() { &SLOW_SETS } else { &FAST_SETS });
    let style = Style { senders, sets, pace };
    let mut signals: Vec<Signal> = (1..=count).map(|name| signal(name, &style, &domains[0], random)).collect();
    let rounds = if large { 0 } else { random.pick(&[0, 1, 1, 2, 3, 4, 6]) };
    (0..rounds).for_each(|_| draw_close(&domains, &mut signals, random));
    let about = format!("{count} signals, pace {pace:?}, {rounds} figures drawn close");
    (about, write(&domains, &signals).into_bytes())
}

fn bank(random: &mut Random) -> Vec<Domain> {
    let bus = |random: &mut Random| {
        let any = random.within(1_000, 8_000);
        let arbitration = random.pick(&[1_000, 2_000, 2_000, 4_000, 8_000, any]);
        let any = random.within(125, arbitration);
        Domain::Bus { arbitration, data: random.pick(&[125, 500, arbitration, any]) }
    };
    let (fixed, byte) = (random.within(1_000, 100_000), random.within(0, 1_000));
    let gateway = random.pick(&[(20_000, 100), (1_000, 0), (100_000, 1_000), (fixed, byte)]);
    let any = random.within(10_000, 200_000);
    let radio = Domain::Radio { byte: random.pick(&[10_000, 50_000, 200_000, any]) };
    vec![bus(random), bus(random), Domain::Gateway { fixed: gateway.0, byte: gateway.1 }, radio]
}

/// How periods are drawn.
#[derive(Clone, Copy, Debug)]
enum Pace {
    /// A sum of costs on the first bus, give or take a little, so that frames meet at the very same instant.
    Meeting,
    Within(u64, u64),
}

impl Pace {
    /// Whether the radio link can keep up, where a frame takes milliseconds.
    fn is_slow(self) -> bool {
        matches!(self, Pace::Within(5_000_000.., _))
    }
}

const FAST_SETS: [&[u64]; 4] = [&[1], &[1, 2, 3], &[1, 1, 1, 2, 4, 5, 7], &[4]];
const SLOW_SETS: [&[u64]; 4] = [&[1], &[1, 2, 3, 4, 5, 6, 7], &[8, 9], &[1, 2, 3, 4, 5, 6, 7, 8, 15]];

const PACES: [Pace; 6] = [
    Pace::Meeting,
    Pace::Meeting,
    Pace::Within(1_000_000, 4_000_000),
    Pace::Within(2_000_000, 20_000_000),
    Pace::Within(5_000_000, 200_000_000),
    Pace::Within(20_000_000, 2_000_000_000),
];

fn signal(name: u64, style: &Style, bus: &Domain, random: &mut Random) -> Signal {
    let most = random.pick(&[8, 8, 8, 64]);
    let pace = if random.once_in(8) { random.pick(&PACES) } else { style.pace };
    let drawn = match pace {
        Pace::Meeting => meeting(bus, random),
        Pace::Within(low, high) => random.within(low, high),
    };
    let period = drawn.clamp(1_000_000, 2_000_000_000);
    let late = random.within(period / 2, period);
    let few = meeting(bus, random).clamp(1, period);
    let early = if random.once_in(4) { random.within(1, period) } else { few };
    Signal {
        name,
        sender: random.within(1, style.senders),
        size: random.within(1, most),
        period,
        deadline: random.pick(&[period, period, period, period, late, late, early]),
        set: random.pick(style.sets),
    }
}

fn meeting(bus: &Domain, random: &mut Random) -> u64 {
    let Domain::Bus { arbitration, .. } = *bus else { unreachable!("the first domain is a bus") };
    let count = random.within(2, 9);
    let sum: u64 = (0..count).map(|_| bus.cost(random.pick(&PAYLOADS[1..]))).sum();
    let up = random.pick(&[0, 0, 1, arbitration, arbitration + 1]);
    let down = random.pick(&[0, 0, 1, arbitration, arbitration - 1]);
    sum + up - down
}

/// Draws a figure close to where an answer changes: the deadline of a frame to how late it can be in the picked
/// order, or the period of a frame above it to where a release falls just inside or just outside of its waiting.
fn draw_close(domains: &[Domain], signals: &mut [Signal], random: &mut Random) {
    let Ok(contents) = read(write(domains, signals).as_bytes()) else { return };
    let frames = frames_of(&contents.riders);
    if frames.len() > FEW {
        return;
    }
    let mut orders = Orders::new(&contents.bank, &frames);
    let Some(last_first) = orders.picked(orders.all()) else { return };
    let (below, rest) = last_first.split_at(random.within(0, last_first.len() as u64 - 1) as usize);
    let responses = orders.responses(rest[0], set_of(&rest[1..]), set_of(below));
    let rider_of = |frame| contents.riders.iter().position(|r| r.frame == frame).expect("a frame has a signal");
    if rest.len() == 1 || random.once_in(2) {
        let latest = responses.into_iter().flatten().max().expect("a frame has a domain");
        signals[rider_of(rest[0])].deadline = (latest - random.within(0, 1)).max(1);
        return;
    }
    let domain = frames[rest[0]].domains().next().expect("a frame has a domain");
    let own = domains[domain].cost(frames[rest[0]].payload);
    let counts = match domains[domain] {
        Domain::Bus { arbitration, .. } => responses[0].expect("a time") - own + arbitration,
        _ => responses[0].expect("a time"),
    };
    let changed = &mut signals[rider_of(random.pick(&rest[1..]))];
    changed.period = meeting_at(counts, random);
    changed.deadline = changed.deadline.min(changed.period);
}

/// A period of which a multiple is `last`, the end of the time in which a release still counts, give or take a few.
fn meeting_at(last: u64, random: &mut Random) -> u64 {
    let times = random.within(1, (last / 1_000_000).clamp(1, 4));
    (last / times + random.within(0, 2)).saturating_sub(1).max(1_000_000)
}
