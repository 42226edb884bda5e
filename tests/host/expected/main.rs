//! What the programs of cases must read and print, by the second implementation: expected.sh runs this at the root of the
//! repository. Files that were other are written anew and named; then the exit status is 1.

mod cards;
mod codes;
mod listings;
mod formats;
mod lists;
mod literals;
mod memory;
mod profiles;
mod reads;
mod replay;
mod replies;
mod salvage;
mod texts;
mod values;

// The host's tests use what is left.
#[allow(dead_code)]
#[path = "../reference/mod.rs"]
mod reference;

use std::fs;
use std::process::exit;

use reference::machine::Stop;
use reference::value::{Fault, Value};

/// A file under crates/ and what it must hold.
type Expected = (&'static str, Vec<u8>);

fn main() {
    match run() {
        Ok(0) => {}
        Ok(_) => exit(1),
        Err(error) => {
            println!("{error}");
            exit(2);
        }
    }
}

// Gives the number of files that were other.
fn run() -> Result<usize, String> {
    let files = all()?;
    let mut changed = 0;
    for (name, wanted) in &files {
        let path = format!("crates/{name}");
        if fs::read(&path).is_ok_and(|stored| stored == *wanted) {
            continue;
        }
        fs::write(&path, wanted).map_err(|error| format!("{path}: {error}"))?;
        println!("{path} is written anew");
        changed += 1;
    }
    println!("{} files of cases, {changed} changed", files.len());
    Ok(changed)
}

fn all() -> Result<Vec<Expected>, String> {
    let (texts_in, texts_out) = texts::files()?;
    let (codes_in, codes_out) = codes::files();
    let (cards_in, cards_out) = cards::files();
    let (salvage_in, salvage_out) = salvage::files(&replies::stored("salvage/stdin")?);
    let (reads_in, reads_out) = reads::files();
    let (listings_in, listings_out) = listings::files();
    let (lists_in, lists_out) = lists::files();
    let (replay_in, replay_out) = replay::files();
    let (formats_in, formats_out) = formats::files();
    let (profiles_in, profiles_out) = profiles::files()?;
    Ok(vec![
        ("value_cases/stdout", values::lines().into()),
        ("literal_cases/stdout", literals::lines().into()),
        ("memory_cases/stdout", memory::lines().into()),
        ("text_cases/stdin", texts_in),
        ("text_cases/stdout", texts_out.into()),
        ("code_cases/stdin", codes_in.into()),
        ("code_cases/stdout", codes_out.into()),
        ("card_cases/stdin", cards_in),
        ("card_cases/stdout", cards_out.into()),
        ("read_cases/stdin", reads_in.into()),
        ("read_cases/stdout", reads_out.into()),
        ("listing_cases/stdin", listings_in.into()),
        ("listing_cases/stdout", listings_out.into()),
        ("list_cases/stdin", lists_in),
        ("list_cases/stdout", lists_out.into()),
        ("profile_cases/stdin", profiles_in.into()),
        ("profile_cases/stdout", profiles_out.into()),
        ("vector_cases/stdout", replies::of_list("vector_cases/stdin")?.into()),
        ("formula/stdout", replies::of_one("formula/stdin")?.into()),
        ("cards/stdout", replies::of_cards("cards/stdin")?.into()),
        ("salvage_cases/stdin", salvage_in),
        ("salvage_cases/stdout", salvage_out),
        ("format_cases/stdin", formats_in.into()),
        ("format_cases/stdout", formats_out.into()),
        ("replay_cases/stdin", replay_in),
        ("replay_cases/stdout", replay_out),
        ("salvage/stdout", replies::of_salvage("salvage/stdin")?),
        ("format/stdout", replies::of_format("format/stdin")?.into()),
        ("cells/stdout", replies::of_cells("cells/stdin")?.into()),
    ])
}

/// `i` and a signed decimal, or `r` and a pattern.
fn shown(value: Value) -> String {
    match value {
        Value::Int(i) => format!("i{i}"),
        Value::Real(r) => format!("r{:08X}", r.to_bits()),
    }
}

/// A value, `!` and a fault's number, or `?`.
fn shown_end(end: Result<Value, Stop>) -> String {
    match end {
        Ok(value) => shown(value),
        Err(Stop::Fault(fault)) => shown_fault(fault),
        Err(Stop::Stuck) => "?".into(),
    }
}

fn shown_fault(fault: Fault) -> String {
    format!("!{}", fault as u32)
}
