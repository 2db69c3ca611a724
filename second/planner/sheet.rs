//! A sheet is cut into lines and a line into pieces; what is wrong with a line is told from all its pieces.

use super::domains::Domain;
use super::frames::{Rider, Signal};
use super::packing::enter;

pub const LONGEST: usize = 16_384;

#[derive(Clone, Copy, Debug, PartialEq)]
pub struct Fault {
    pub number: u64,
    pub line: u64,
    pub field: u64,
}

/// The bank and the signals of a sheet without fault.
#[derive(Debug)]
pub struct Contents {
    pub bank: Vec<Domain>,
    pub riders: Vec<Rider>,
}

/// A refusal's number and field within its line.
type InLine<T> = Result<T, (u64, u64)>;

pub fn read(sheet: &[u8]) -> Result<Contents, Fault> {
    if sheet.len() > LONGEST {
        return Err(Fault { number: 16, line: 0, field: 0 });
    }
    let lines: Vec<&[u8]> = sheet.split_inclusive(|&b| b == b'\n').collect();
    let mut contents = Contents { bank: Vec::new(), riders: Vec::new() };
    for at in 0..lines.len().max(4) {
        // A line that is not there is told like one that has nothing in it.
        let line = lines.get(at).copied().unwrap_or(b"");
        take_line(&mut contents, at, line).map_err(|(number, field)| Fault { number, line: at as u64 + 1, field })?;
    }
    Ok(contents)
}

fn take_line(contents: &mut Contents, at: usize, line: &[u8]) -> InLine<()> {
    match at {
        0 | 1 => contents.bank.push(bus(&fields(line, b'C', &[8, 8])?)?),
        2 => contents.bank.push(gateway(&fields(line, b'G', &[8, 8])?)?),
        3 => contents.bank.push(radio(&fields(line, b'R', &[8])?)?),
        _ => {
            let of = fields(line, b'S', &[4, 1, 2, 8, 8, 1])?;
            let [name, sender, size, period, deadline, set] = of[..] else { unreachable!("six fields") };
            let signal = Signal { name, sender, size, period, deadline, set };
            enter(&contents.bank, &mut contents.riders, signal)?;
        }
    }
    Ok(())
}

fn bus(of: &[u64]) -> InLine<Domain> {
    within(&[(of[0], 1_000, 8_000), (of[1], 125, of[0])])?;
    Ok(Domain::Bus { arbitration: of[0], data: of[1] })
}

fn gateway(of: &[u64]) -> InLine<Domain> {
    within(&[(of[0], 1_000, 100_000), (of[1], 0, 1_000)])?;
    Ok(Domain::Gateway { fixed: of[0], byte: of[1] })
}

fn radio(of: &[u64]) -> InLine<Domain> {
    within(&[(of[0], 10_000, 200_000)])?;
    Ok(Domain::Radio { byte: of[0] })
}

/// The first figure that is not within its limits is refused.
fn within(figures: &[(u64, u64, u64)]) -> InLine<()> {
    match figures.iter().position(|&(figure, low, high)| figure < low || figure > high) {
        Some(at) => Err((1, at as u64 + 1)),
        None => Ok(()),
    }
}

/// The values of a line's fields, which have this many digits. A piece with more than its digits is the fault of
/// what is due after it, the next field or the line feed.
fn fields(line: &[u8], letter: u8, widths: &[usize]) -> InLine<Vec<u64>> {
    let (text, ended) = match line {
        [text @ .., b'\n'] => (text, true),
        _ => (line, false),
    };
    if text.first() != Some(&letter) {
        return Err((17, 0));
    }
    let pieces: Vec<&[u8]> = text.split(|&b| b == b' ').collect();
    let mut spills = pieces[0].len() > 1;
    let mut values = Vec::new();
    for (field, &width) in (1..).zip(widths) {
        let piece = pieces.get(field).filter(|_| !spills).ok_or((18, field as u64))?;
        let digits = piece.get(..width).ok_or((18, field as u64))?;
        values.push(value(digits).ok_or((18, field as u64))?);
        spills = piece.len() > width;
    }
    if spills || pieces.len() > widths.len() + 1 || !ended {
        return Err((19, widths.len() as u64 + 1));
    }
    Ok(values)
}

fn value(digits: &[u8]) -> Option<u64> {
    digits.iter().try_fold(0, |sum, digit| {
        let worth = b"0123456789ABCDEF".iter().position(|d| d == digit)?;
        Some(sum * 16 + worth as u64)
    })
}
