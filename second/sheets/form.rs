//! Each way to leave the form of a line, at each of its fields.

use super::lines::{quiet, sheet, usual_bank};

pub fn sheets() -> Vec<(String, Vec<u8>)> {
    let text = sheet(&usual_bank(), &[quiet(1), quiet(2)]);
    let lines: Vec<&str> = text.lines().collect();
    let mut sheets = Vec::new();
    for (at, line) in lines.iter().enumerate().take(5) {
        let pieces: Vec<&str> = line.split(' ').collect();
        let mut changed = at_letter(line);
        changed.extend(at_end(line));
        // The fields of the second line are those of the first.
        let fields = if at == 1 { 0 } else { pieces.len() - 1 };
        (1..=fields).for_each(|field| changed.extend(at_field(&pieces, field)));
        for (about, new) in changed {
            let whole = [ended(&lines[..at]), new, ended(&lines[at + 1..])].concat();
            sheets.push((format!("line {}: {about}", at + 1), whole.into_bytes()));
        }
    }
    sheets.push(("form before limits".into(), text.replace(" 08 3B9ACA00", " 00 3b9ACA00").into_bytes()));
    sheets
}

fn ended(lines: &[&str]) -> String {
    lines.iter().map(|line| format!("{line}\n")).collect()
}

fn at_letter(line: &str) -> Vec<(String, String)> {
    let rest = &line[1..];
    let letters = ["C", "G", "R", "S", "s", "c", "0", " ", "\t", "", "CC", "SS", "GG", "RR", "\u{e9}"];
    letters.iter().map(|new| (format!("{new:?} for the letter"), format!("{new}{rest}\n"))).collect()
}

fn at_end(line: &str) -> Vec<(String, String)> {
    let ends = ["", " ", " \n", "\r\n", "\n\n", "\r", "0\n", " 0\n", "\0\n", "\n \n"];
    let mut changed: Vec<_> = ends.iter().map(|end| (format!("{end:?} at its end"), format!("{line}{end}"))).collect();
    changed.push(("it is not there".into(), String::new()));
    changed.push(("it is empty".into(), "\n".into()));
    changed.push(("it stands twice".into(), format!("{line}\n{line}\n")));
    changed
}

/// The line with the piece of this field changed, or the space before it.
fn at_field(pieces: &[&str], field: usize) -> Vec<(String, String)> {
    let (before, old, after) = (pieces[..field].join(" "), pieces[field], &pieces[field + 1..]);
    let less = &old[1..];
    let ways = [
        ("a digit missing", format!(" {less}")),
        ("a digit too many", format!(" {old}0")),
        ("a digit too many before it", format!(" 0{old}")),
        ("a lower-case digit", format!(" {less}a")),
        ("a lower-case digit first", format!(" a{less}")),
        ("the letter G for a digit", format!(" {less}G")),
        ("a sign", format!(" -{less}")),
        ("a slash", format!(" {less}/")),
        ("a colon", format!(" {less}:")),
        ("an at sign", format!(" {less}@")),
        ("empty", " ".to_string()),
        ("not there", String::new()),
        ("no space before it", old.to_string()),
        ("two spaces before it", format!("  {old}")),
        ("a tab before it", format!("\t{old}")),
        ("a zero byte before it", format!("\0{old}")),
        ("a line feed before it", format!("\n{old}")),
        ("a line feed in it", format!(" {less}\n")),
        ("a space in it", format!(" {less} 0")),
        ("twice", format!(" {old} {old}")),
    ];
    let whole =
        |new: &str| format!("{before}{new}{}\n", after.iter().map(|piece| format!(" {piece}")).collect::<String>());
    ways.iter().map(|(about, new)| (format!("field {field}: {about}"), whole(new))).collect()
}
