//! Sheets with bytes changed, left out, added, cut off or doubled.

use super::random::Random;
use std::ops::Range;

pub fn sheet(sound: &[u8], random: &mut Random) -> (String, Vec<u8>) {
    let mut text = sound.to_vec();
    let mut about = Vec::new();
    for _ in 0..random.pick(&[1, 1, 1, 2, 3]) {
        let at = random.within(0, text.len() as u64) as usize;
        about.push(format!("{} at {at}", damage(&mut text, at, random)));
    }
    (about.join(", "), text)
}

/// Does one damage at a place that may be the end of the text, and names it.
fn damage(text: &mut Vec<u8>, at: usize, random: &mut Random) -> &'static str {
    let any = random.within(0, 255) as u8;
    let byte = random.pick(&[b'0', b'1', b'7', b'9', b'A', b'F', b'a', b'G', b'S', b'C', b' ', b'\n', b'\r', any]);
    let next = (at + 1).min(text.len());
    let to = (at + random.within(1, 40) as usize).min(text.len());
    let line = line_of(text, at);
    let changed = |new: &[u8], to| (at..to, new.to_vec());
    let turned: Vec<u8> = text[at..to].iter().rev().copied().collect();
    let flipped: Vec<u8> = text[at..next].iter().map(|b| b ^ 1 << random.within(0, 7)).collect();
    let (about, (range, new)) = match random.within(0, 11) {
        0..=3 => ("another byte", changed(&[byte], next)),
        4 => ("a byte more", changed(&[byte], at)),
        5 => ("a byte less", changed(&[], next)),
        6 => ("cut off", changed(&[], text.len())),
        7 => ("doubled", changed(&text[at..to], at)),
        8 => ("left out", changed(&[], to)),
        9 => ("a line doubled", (line.start..line.start, text[line].to_vec())),
        10 => ("a bit turned", changed(&flipped, next)),
        _ => ("turned round", changed(&turned, to)),
    };
    text.splice(range, new);
    about
}

fn line_of(text: &[u8], at: usize) -> Range<usize> {
    let start = text[..at].iter().rposition(|&b| b == b'\n').map_or(0, |n| n + 1);
    let end = text[at..].iter().position(|&b| b == b'\n').map_or(text.len(), |n| at + n + 1);
    start..end
}
