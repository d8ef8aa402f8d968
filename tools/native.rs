//! The rules of docs/ once more: sheet, listing, nominals, contractors and run, written apart
//! from the proved code, from docs/ alone, to compare with and to measure against. No script of
//! the repository does either yet. Nothing is proved of it.
//!
//!     rustc -O --edition 2024 tools/native.rs -o native
//!
//!     native ranges|nominal|dump|narrowings < SHEET
//!
//! The first three print what the programs of these names print. `narrowings` prints the
//! starting box as each contractor narrows it: row test, pass, then and until, as `ranges` has it.

#[path = "native/arithmetic.rs"]
mod arithmetic;
#[path = "native/listing.rs"]
mod listing;
#[path = "native/narrowing.rs"]
mod narrowing;
#[path = "native/run.rs"]
mod run;
#[path = "native/sheet.rs"]
mod sheet;

use arithmetic::{Empty, Open, Region};
use narrowing::{MOST_ROUNDS, System, Verdict, row_span};
use run::{Cause, Run};
use sheet::{MOST_BYTES, Refusal, Row, Sheet};
use std::io::{self, Read, Write};
use std::process::ExitCode;

/// What a program prints; a refusal comes last.
struct Report {
    text: String,
    refusal: Option<Refusal>,
}

fn report(bytes: &[u8], tell: impl Fn(&Sheet) -> String) -> Report {
    match Sheet::read(bytes, |_, _| ()) {
        Ok(sheet) => Report { text: tell(&sheet), refusal: None },
        Err(refusal) => Report { text: String::new(), refusal: Some(refusal) },
    }
}

fn dump(bytes: &[u8]) -> Report {
    let mut text = String::new();
    let read = Sheet::read(bytes, |field, sheet| text += &listing::line(field, sheet));
    if let Ok(sheet) = &read {
        let (variables, rows, terms) = (sheet.variables.len(), sheet.rows.len(), sheet.terms());
        text += &format!("ACCEPTED VARIABLES {variables} ROWS {rows} TERMS {terms} ");
        text += &format!("BYTES {}\n", bytes.len());
    }
    Report { text, refusal: read.err() }
}

fn nominal(sheet: &Sheet) -> String {
    let region = sheet.starting_box();
    let nominals: Vec<i64> = sheet.variables.iter().map(|variable| variable.nominal).collect();
    let told = |(i, row): (usize, &Row)| match row_span(&row.terms, &region) {
        Ok(span) => {
            let nominal: i64 = row.terms.iter().map(|term| term.nominal(&nominals)).sum();
            format!("R {} {span} {nominal}\n", i + 1)
        }
        Err(Open) => format!("R {} OPEN\n", i + 1),
    };
    sheet.rows.iter().enumerate().map(told).collect()
}

fn ranges(sheet: &Sheet) -> String {
    let system = System::of(sheet);
    let mut run = Run::open(&system, sheet.starting_box());
    let stop = run.finish() as u8;
    let mut text = format!("VERDICT {} STEPS {} STOP {stop}\n", run.verdict(), run.settled);
    for region in &run.feasible {
        text += &format!("F{}\n", in_names(sheet, region));
    }
    for (region, cause) in &run.undecided {
        let cause = match cause {
            Cause::Small => "SMALL",
            Cause::Crowded => "CROWDED",
        };
        text += &format!("U{} {cause}\n", in_names(sheet, region));
    }
    for region in &run.pending {
        text += &format!("P{}\n", in_names(sheet, region));
    }
    text
}

/// ` NAME=lo..hi` for each variable.
fn in_names(sheet: &Sheet, region: &Region) -> String {
    let spans = sheet.variables.iter().zip(&region.spans);
    spans.map(|(variable, span)| format!(" {}={span}", variable.name)).collect()
}

fn narrowings(sheet: &Sheet) -> String {
    let system = System::of(sheet);
    let row_test = |region: Region| match system.judge(&region) {
        Verdict::Broken => Err(Empty),
        Verdict::Met | Verdict::Unsure => Ok(region),
    };
    let pass = |mut region: Region| system.pass(&mut region).map(|_| region);
    let then = |region: Region| pass(row_test(region)?);
    let until = |region: Region| (0..MOST_ROUNDS).try_fold(region, |region, _| then(region));

    let told = |name: &str, narrowed: Result<Region, Empty>| match narrowed {
        Ok(region) => format!("{name}:{}\n", in_names(sheet, &region)),
        Err(Empty) => format!("{name}: NONE\n"),
    };
    let start = sheet.starting_box();
    told("row test", row_test(start))
        + &told("pass", pass(start))
        + &told("then", then(start))
        + &told("until", until(start))
}

fn main() -> io::Result<ExitCode> {
    let mut bytes = Vec::new();
    io::stdin().take(MOST_BYTES as u64 + 1).read_to_end(&mut bytes)?;
    let Report { mut text, refusal } = match std::env::args().nth(1).as_deref() {
        Some("ranges") => report(&bytes, ranges),
        Some("nominal") => report(&bytes, nominal),
        Some("narrowings") => report(&bytes, narrowings),
        Some("dump") => dump(&bytes),
        _ => {
            eprintln!("native ranges|nominal|dump|narrowings < SHEET");
            return Ok(ExitCode::from(2));
        }
    };
    if let Some(refusal) = refusal {
        text += &format!("{refusal}\n");
    }
    io::stdout().write_all(text.as_bytes())?;
    Ok(ExitCode::from(u8::from(refusal.is_some())))
}
