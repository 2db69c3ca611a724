//! A sheet: the bank of its first four lines, and the packing of the signals of the others, or its first fault.

use crate::domain::{Bank, Domain};
use crate::frame::Signal;
use crate::packing::Packing;

const MAX_BYTES: usize = 16_384;

/// A refusal of what a line says, at a field of it.
pub struct Refusal {
    pub number: u64,
    pub field: u64,
}

pub struct Fault {
    pub number: u64,
    pub line: u64,
    pub field: u64,
}

struct Reader<'a> {
    rest: &'a [u8],
    line: u64,
}

impl Reader<'_> {
    /// The fields of the next line, which is due to begin with the letter.
    fn line<const N: usize>(
        &mut self,
        letter: u8,
        widths: [usize; N],
    ) -> Result<[u64; N], Refusal> {
        self.line += 1;
        self.byte(
            letter,
            Refusal {
                number: 17,
                field: 0,
            },
        )?;
        let mut values = [0; N];
        for (i, (value, width)) in values.iter_mut().zip(widths).enumerate() {
            *value = self.field(width).ok_or(Refusal {
                number: 18,
                field: i as u64 + 1,
            })?;
        }
        self.byte(
            b'\n',
            Refusal {
                number: 19,
                field: N as u64 + 1,
            },
        )?;
        Ok(values)
    }

    fn byte(&mut self, due: u8, otherwise: Refusal) -> Result<(), Refusal> {
        match self.rest.split_first() {
            Some((&first, rest)) if first == due => {
                self.rest = rest;
                Ok(())
            }
            _ => Err(otherwise),
        }
    }

    fn field(&mut self, width: usize) -> Option<u64> {
        let (&b' ', rest) = self.rest.split_first()? else {
            return None;
        };
        let (digits, rest) = rest.split_at_checked(width)?;
        let value = digits
            .iter()
            .try_fold(0, |value, &byte| Some(value * 16 + digit(byte)?))?;
        self.rest = rest;
        Some(value)
    }
}

fn digit(byte: u8) -> Option<u64> {
    match byte {
        b'0'..=b'9' => Some(u64::from(byte - b'0')),
        b'A'..=b'F' => Some(u64::from(byte - b'A') + 10),
        _ => None,
    }
}

fn check_figure(field: u64, least: u64, value: u64, most: u64) -> Result<(), Refusal> {
    if (least..=most).contains(&value) {
        Ok(())
    } else {
        Err(Refusal { number: 1, field })
    }
}

fn read_bus(reader: &mut Reader) -> Result<Domain, Refusal> {
    let [arbitration, data] = reader.line(b'C', [8, 8])?;
    check_figure(1, 1_000, arbitration, 8_000)?;
    check_figure(2, 125, data, arbitration)?;
    Ok(Domain::Bus { arbitration, data })
}

fn read_gateway(reader: &mut Reader) -> Result<Domain, Refusal> {
    let [fixed, byte] = reader.line(b'G', [8, 8])?;
    check_figure(1, 1_000, fixed, 100_000)?;
    check_figure(2, 0, byte, 1_000)?;
    Ok(Domain::Gateway { fixed, byte })
}

fn read_radio(reader: &mut Reader) -> Result<Domain, Refusal> {
    let [byte] = reader.line(b'R', [8])?;
    check_figure(1, 10_000, byte, 200_000)?;
    Ok(Domain::Radio { byte })
}

fn read_signal(reader: &mut Reader) -> Result<Signal, Refusal> {
    let [name, sender, size, period, deadline, set] = reader.line(b'S', [4, 1, 2, 8, 8, 1])?;
    Ok(Signal {
        name,
        sender,
        size,
        period,
        deadline,
        set,
    })
}

fn read_lines(reader: &mut Reader) -> Result<(Bank, Packing), Refusal> {
    let bank = vec![
        read_bus(reader)?,
        read_bus(reader)?,
        read_gateway(reader)?,
        read_radio(reader)?,
    ];
    let mut packing = Packing::default();
    while !reader.rest.is_empty() {
        let signal = read_signal(reader)?;
        packing.enter(&bank, &signal)?;
    }
    Ok((bank, packing))
}

pub fn read(text: &[u8]) -> Result<(Bank, Packing), Fault> {
    if text.len() > MAX_BYTES {
        return Err(Fault {
            number: 16,
            line: 0,
            field: 0,
        });
    }
    let mut reader = Reader {
        rest: text,
        line: 0,
    };
    read_lines(&mut reader).map_err(|Refusal { number, field }| Fault {
        number,
        line: reader.line,
        field,
    })
}
