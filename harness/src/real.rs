//! The filters of real drawings: compares the two sides on each sheet of a folder, and times those that are accepted. Prints the third
//! table of docs/SPEED.md. real/sheets.py makes the sheets.

use std::path::Path;
use std::process::ExitCode;

use oracle::run::{Named, Verdict};

use crate::compare::{Call, Room};
use crate::speed::{Effort, Row, ns, print_machine, row, times};
use crate::tally::{NUMBERS, grouped};

const EFFORT: Effort = Effort { samples: 31, sample_ns: 2e5 };

/// The sheets of a folder by their file's names.
fn sheets(folder: &Path) -> Option<Vec<(String, Vec<u8>)>> {
    let mut found = Vec::new();
    for entry in std::fs::read_dir(folder).ok()? {
        let path = entry.ok()?.path();
        if path.extension().is_some_and(|e| e == "sheet") {
            found.push((path.file_name()?.to_string_lossy().into_owned(), std::fs::read(&path).ok()?));
        }
    }
    found.sort();
    Some(found)
}

/// The number that is wanted with room to spare, and whether the crate answers the same; or None and a printed line where the library differs in any of
/// four calls.
fn compared(room: &mut Room, name: &str, bytes: &[u8]) -> Option<(u8, bool)> {
    let Verdict { answer: wanted, named } = oracle::run::sheet(bytes);
    let n = wanted.as_ref().map_or(0, Vec::len);
    for length in [n + 64, n, n.saturating_sub(1), 0] {
        if let Some(what) = room.check(Call::Sheet, bytes, length, &wanted, length).flatten() {
            println!("DIFFERENCE, {}, output of {} bytes: {}", name, length, what);
            return None;
        }
    }
    Some((wanted.err().unwrap_or(0), named.iter().all(|n| *n == Named::BoxUnits)))
}

fn print_table(rows: &[Row]) {
    let sum = |f: fn(&Row) -> f64| rows.iter().map(f).sum::<f64>();
    let library = sum(|r| r.library.median);
    let alone = sum(|r| r.crate_alone.median);
    let ratios = times(rows.iter().map(Row::ratio).collect());
    println!("| | |\n|---|---|");
    println!("| accepted and timed | {} filters, {} primitives |", rows.len(), sum(|r| r.primitives as f64));
    println!("| library, all of them | {} ns |", ns(library));
    println!("| crate | {} ns |", ns(alone));
    println!("| crate and bytes | {} ns |", ns(sum(|r| r.crate_bytes.median)));
    println!("| library / crate, all of them | {:.2} |", library / alone);
    println!(
        "| library / crate of one filter | median {:.2}, first tenth {:.2}, ninth tenth {:.2} |",
        ratios.median, ratios.tenth, ratios.nine_tenths
    );
}

/// `each` prints a line for every filter that is timed, too.
pub fn real(folder: &str, each: bool) -> Option<ExitCode> {
    let all = sheets(Path::new(folder))?;
    let mut room = Room::new();
    let mut numbers = [0u64; NUMBERS];
    let mut differences = 0;
    let mut accepted = Vec::new();
    let mut not_timed = 0;
    for (name, bytes) in &all {
        let Some((n, as_the_crate)) = compared(&mut room, name, bytes) else {
            differences += 1;
            continue;
        };
        numbers[n as usize] += 1;
        match (n, as_the_crate) {
            (0, true) => accepted.push((name, bytes)),
            (0, false) => not_timed += 1,
            _ => {}
        }
    }
    println!("{} filters, {} differences; by the answer's number:", grouped(all.len() as u64), differences);
    for (n, many) in numbers.iter().enumerate().filter(|(_, many)| **many > 0) {
        println!("    {}: {}", n, many);
    }
    println!("accepted with another list than the crate's own, and so not timed: {}", not_timed);
    if differences > 0 {
        return Some(ExitCode::FAILURE);
    }
    print_machine(&EFFORT);
    let rows: Vec<Row> = accepted.iter().map(|(name, bytes)| row(name, bytes, &EFFORT)).collect();
    if each {
        for r in &rows {
            println!("{} {} {} {:.2}", r.name, ns(r.library.median), ns(r.crate_alone.median), r.ratio());
        }
    }
    print_table(&rows);
    Some(ExitCode::SUCCESS)
}
