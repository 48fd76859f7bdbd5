// SPDX-License-Identifier: MIT OR Apache-2.0
//! Looks addresses up in a listing: `lookup KALLSYMS ADDRESS..`

use std::{env, error::Error, fs, process::ExitCode};

fn number(word: &str) -> Result<u64, std::num::ParseIntError> {
    match word.strip_prefix("0x") {
        Some(digits) => u64::from_str_radix(digits, 16),
        None => word.parse(),
    }
}

fn look_up(file: &str, words: &[String]) -> Result<(), Box<dyn Error>> {
    let kallsyms = fs::read(file)?;
    let catalog = latchsym::Listings::new(&kallsyms).open()?;
    if let Some(note) = catalog.counts().symbols_note() {
        eprintln!("lookup: note: {file}: {note}");
    }
    for word in words {
        let addr = number(word)?;
        match catalog.find(addr)? {
            Some(found) => println!("{addr:#x} {found}"),
            None => println!("{addr:#x} -"),
        }
    }
    Ok(())
}

fn main() -> ExitCode {
    let words: Vec<String> = env::args().skip(1).collect();
    match words.split_first().map(|(file, addresses)| look_up(file, addresses)) {
        Some(Ok(())) => ExitCode::SUCCESS,
        Some(Err(fault)) => {
            eprintln!("lookup: {fault}");
            ExitCode::FAILURE
        }
        None => {
            eprintln!("usage: lookup KALLSYMS ADDRESS..");
            ExitCode::from(2)
        }
    }
}
