//! Compares the program with a planner of its own on many sheets.
//!
//! usage: second run PROGRAM [COUNT [SEED]]         runs the program on each sheet
//!        second cases FOLDER [COUNT [SEED]]        writes the sheets as the files of a folder, for rt try --cases
//!        second answers OUT LOG [COUNT [SEED]]     takes the program's answers from what that printed
//!
//! COUNT is the number of made-up plans. Status 0: nothing differs; 1: something does, and the first such sheet is
//! printed; 2: nothing could be compared.

mod figures;
mod judging;
mod planner;
mod program;
mod sheets;

use judging::Right;
use program::Answer;
use sheets::Sheet;
use std::error::Error;
use std::process::ExitCode;

const COUNT: u64 = 150;
const SEED: u64 = 1;

fn main() -> ExitCode {
    let words: Vec<String> = std::env::args().skip(1).collect();
    match compare(&words) {
        Ok(true) => ExitCode::SUCCESS,
        Ok(false) => ExitCode::from(1),
        Err(error) => {
            eprintln!("second: {error}");
            ExitCode::from(2)
        }
    }
}

fn compare(words: &[String]) -> Result<bool, Box<dyn Error>> {
    let words: Vec<&str> = words.iter().map(String::as_str).collect();
    match &words[..] {
        ["run", program, more @ ..] => {
            let sheets = sheets_of(more)?;
            judge_all(&sheets, |_, sheet| Ok(program::run(program, &sheet.text)?))
        }
        ["cases", folder, more @ ..] => {
            for (at, sheet) in sheets_of(more)?.iter().enumerate() {
                std::fs::write(format!("{folder}/{}", name_of(at)), &sheet.text)?;
            }
            Ok(true)
        }
        ["answers", out, log, more @ ..] => {
            let log = std::fs::read(log)?;
            let mut tried = program::tried(&std::fs::read(out)?, &String::from_utf8_lossy(&log));
            judge_all(&sheets_of(more)?, |at, _| Ok(tried.remove(&name_of(at)).ok_or("a sheet was not run")?))
        }
        _ => Err("run PROGRAM, cases FOLDER, or answers OUT LOG; then COUNT and SEED".into()),
    }
}

fn name_of(at: usize) -> String {
    format!("{at:06}")
}

fn sheets_of(more: &[&str]) -> Result<Vec<Sheet>, Box<dyn Error>> {
    let number = |at: usize, usual| more.get(at).map_or(Ok(usual), |word| word.parse::<u64>());
    Ok(sheets::all(number(0, COUNT)? as usize, number(1, SEED)?))
}

/// Judges each sheet's answer, prints the first that differs and then the counts, and says whether nothing differs.
fn judge_all(
    sheets: &[Sheet],
    mut answer_of: impl FnMut(usize, &Sheet) -> Result<Answer, Box<dyn Error>>,
) -> Result<bool, Box<dyn Error>> {
    let mut differ = wrong_figures();
    let mut verdicts = Vec::new();
    for (at, sheet) in sheets.iter().enumerate() {
        let answer = answer_of(at, sheet)?;
        match judging::judge(&planner::plan(&sheet.text), &answer) {
            Ok(right) => verdicts.push(right),
            Err(how) => {
                if differ == 0 {
                    print_difference(sheet, &answer, &how);
                }
                differ += 1;
            }
        }
    }
    let of_group = |group: &str| sheets.iter().filter(|sheet| sheet.group == group).count();
    let groups: Vec<String> = sheets::GROUPS.iter().map(|group| format!("{} {group}", of_group(group))).collect();
    println!("second: {} sheets ({}) and {} figures", sheets.len(), groups.join(", "), figures::all().len());
    let of = |right| verdicts.iter().filter(|&&it| it == right).count();
    let (orders, conflicts, faults) = (of(Right::Order), of(Right::Conflict), of(Right::Fault));
    let unknown = of(Right::Unknown);
    println!("second: {orders} orders, {conflicts} conflicts, {faults} faults, {unknown} not judged; {differ} differ");
    Ok(differ == 0)
}

/// Names the figures that the planner here gets wrong, and counts them.
fn wrong_figures() -> usize {
    let figures = figures::all();
    let wrong = figures.iter().filter(|(_, right)| !right);
    wrong.map(|(about, _)| println!("second: a figure comes out wrong here: {about}")).count()
}

fn print_difference(sheet: &Sheet, answer: &Answer, how: &str) {
    println!("second: the first sheet that differs, of the group {}: {}", sheet.group, sheet.about);
    println!("{}", escaped(&sheet.text));
    let status = answer.status.map_or("no status".to_string(), |status| format!("status {status}"));
    println!("the program ended with {status} and wrote:\n{}", escaped(&answer.listing));
    println!("{how}");
}

/// Bytes that are no plain characters as escapes; lines stay lines.
fn escaped(text: &[u8]) -> String {
    text.split_inclusive(|&b| b == b'\n').map(|line| format!("{}\n", line.escape_ascii())).collect()
}
