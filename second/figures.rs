//! Figures of the rules that were worked by hand, and published response times: what the planner here has to come
//! to.

use crate::planner::domains::Domain::{self, Bus, Gateway, Radio};
use crate::planner::frames::{frames_of, Frame, Rider, Signal};
use crate::planner::orders::{set_of, Orders};
use crate::planner::packing::weight;
use crate::planner::{plan, Due};
use crate::sheets::lines::{sheet, usual_bank};
use crate::sheets::published::{message, slow_bus, three_signals, MESSAGE};

const FAST: Domain = Bus { arbitration: 2_000, data: 500 };

/// Each figure with whether it is right.
pub fn all() -> Vec<(&'static str, bool)> {
    let mut figures = vec![
        ("payloads of fills 8, 9, 17 and 49", [8, 9, 17, 49].map(payload) == [8, 12, 20, 64]),
        ("costs on a bus", [2, 16, 20, 64].map(|p| FAST.cost(p)) == [92_000, 162_000, 184_500, 404_500]),
        ("weight of a frame", weight(&[FAST], &riders(&[(2, 3_000_000)])) == 30_667),
        ("gateway", answer(GATEWAY, &[(64, 10_000_000), (8, 10_000_000)], 1) == Some(47_200)),
        ("radio", answer(Radio { byte: 50_000 }, &[(2, 1_100_000), (8, 2_000_000)], 0) == Some(1_100_000)),
        ("radio that is too slow", answer(Radio { byte: 50_000 }, &[(2, 1_099_999), (8, 2_000_000)], 0).is_none()),
        ("two hasty frames, first", answer(FAST, &[(8, 1_000_000); 2], 0) == Some(244_000)),
        ("two hasty frames, second", answer(FAST, &[(8, 1_000_000); 2], 1) == Some(244_000)),
        ("a hasty frame alone", answer(FAST, &[(8, 1_000_000)], 0) == Some(122_000)),
    ];
    figures.push(("the listing of three signals", listing(&three_signals()) == THREE_LISTED));
    figures.push(("the listing of no signals", listing(&sheet(&usual_bank(), &[])).is_empty()));
    figures.push(("the listing of an empty sheet", listing("") == "EEE 11 0001 0\n"));
    let late = published_times();
    figures.push(("the first published message", late[0] == Some(2 * MESSAGE)));
    figures.push(("the second published message", late[1] == Some(3 * MESSAGE)));
    // Its first instance takes three messages' time, its second three and a half.
    figures.push(("the third published message", late[2] == Some(3_976_000)));
    figures
}

const THREE_LISTED: &str = "008 2 02 004C4B40 004C4B40 3 00039210 00016760\n010 1 0C 00989680 00989680 1 00039210\n";

fn listing(text: &str) -> String {
    match plan(text.as_bytes()) {
        Due::Order(text) | Due::Conflict(text) | Due::Fault(text) => text,
        Due::Judged(..) => "judged when it is seen".into(),
    }
}

const GATEWAY: Domain = Gateway { fixed: 20_000, byte: 100 };

/// Signals of these sizes and periods, each in a frame of its own in domain 0.
fn riders(of: &[(u64, u64)]) -> Vec<Rider> {
    let signal = |&(size, period)| Signal { name: 0, sender: 0, size, period, deadline: period, set: 1 };
    of.iter().enumerate().map(|(frame, it)| Rider { signal: signal(it), frame }).collect()
}

fn payload(fill: u64) -> u64 {
    frames_of(&riders(&[(fill, 1_000_000)]))[0].payload
}

/// How late the frame at this place is when the frames have priority in the order of the list.
fn answer(domain: Domain, of: &[(u64, u64)], place: usize) -> Option<u64> {
    in_place(domain, &frames_of(&riders(of)), place)
}

fn in_place(domain: Domain, frames: &[Frame], place: usize) -> Option<u64> {
    let places: Vec<usize> = (0..frames.len()).collect();
    let (above, below) = (set_of(&places[..place]), set_of(&places[place + 1..]));
    Orders::new(&[domain], frames).responses(place, above, below)[0]
}

fn published_times() -> [Option<u64>; 3] {
    let riders: Vec<Rider> = (0..3).map(|frame| Rider { signal: message(frame), frame }).collect();
    let frames = frames_of(&riders);
    [0, 1, 2].map(|place| in_place(slow_bus(), &frames, place))
}
