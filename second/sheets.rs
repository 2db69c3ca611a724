//! Sheets to compare on.

pub mod damaged;
pub mod form;
pub mod limits;
pub mod lines;
pub mod made_up;
pub mod published;
pub mod random;

use random::Random;

/// A sheet, the group that it is counted in, and what it is about.
pub struct Sheet {
    pub group: &'static str,
    pub about: String,
    pub text: Vec<u8>,
}

pub const GROUPS: [&str; 5] = ["limits", "forms", "published", "made up", "damaged"];

/// All sheets of a run: the same for the same count and seed. There is a damaged sheet for every two made-up ones.
pub fn all(count: usize, seed: u64) -> Vec<Sheet> {
    let mut random = Random::new(seed);
    let mut sheets = Vec::new();
    let mut add = |group, (about, text)| sheets.push(Sheet { group, about, text });
    limits::sheets().into_iter().for_each(|it| add("limits", it));
    form::sheets().into_iter().for_each(|it| add("forms", it));
    published::sheets().into_iter().for_each(|it| add("published", it));
    for at in 0..count {
        let (about, text) = made_up::sheet(&mut random);
        if at % 2 == 0 {
            add("damaged", damaged::sheet(&text, &mut random));
        }
        add("made up", (about, text));
    }
    sheets
}
