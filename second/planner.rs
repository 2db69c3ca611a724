//! A planner of its own: from the bytes of a sheet to the bytes of its listing, by the rules alone.

pub mod domains;
pub mod frames;
pub mod listing;
pub mod orders;
pub mod packing;
pub mod sheet;

use frames::{frames_of, Frame};
use orders::{Orders, FEW};

/// What the program has to write.
pub enum Due {
    Fault(String),
    Order(String),
    Conflict(String),
    /// The frames are too many to try all arrangements: the listing is judged when it is seen.
    Judged(Vec<domains::Domain>, Vec<Frame>),
}

pub fn plan(text: &[u8]) -> Due {
    let contents = match sheet::read(text) {
        Ok(contents) => contents,
        Err(fault) => return Due::Fault(listing::fault(&fault)),
    };
    let frames = frames_of(&contents.riders);
    if frames.len() > FEW {
        return Due::Judged(contents.bank, frames);
    }
    let mut orders = Orders::new(&contents.bank, &frames);
    match orders.picked(orders.all()) {
        Some(order) => Due::Order(orders.listed(&order)),
        None => {
            let conflict = orders.conflict();
            Due::Conflict(orders.conflict_listed(conflict))
        }
    }
}
