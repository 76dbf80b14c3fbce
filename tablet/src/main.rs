//! The command line: looks over a file, judges rows against it, counts what two rows share.

use std::env;
use std::fs;
use std::process::ExitCode;

const USAGE: &str = "\
usage: tablet look FILE              look over a plan file
       tablet judge FILE ROWHEX...   judge rows against the plan in a file
       tablet shared ROWHEX ROWHEX   count the components that two rows share
A row is written as hexadecimal bytes, as \"03 00 00 00 0D 00 04 00\" or 030000000D000400.
Status: 0 accepted, 1 refused, 2 where the question could not be asked.";

/// Whether everything was accepted, or why the question could not be asked.
type Outcome = Result<bool, String>;

fn main() -> ExitCode {
    match run() {
        Ok(true) => ExitCode::SUCCESS,
        Ok(false) => ExitCode::from(1),
        Err(message) => {
            eprintln!("{message}");
            ExitCode::from(2)
        }
    }
}

fn run() -> Outcome {
    let words: Vec<String> = env::args_os()
        .skip(1)
        .map(|word| word.into_string().map_err(|word| format!("tablet: not text: {word:?}")))
        .collect::<Result<_, _>>()?;
    let words: Vec<&str> = words.iter().map(String::as_str).collect();
    match words[..] {
        ["look", file] => look(file),
        ["judge", file, ref rows @ ..] if !rows.is_empty() => judge(file, rows),
        ["shared", a, b] => shared(a, b),
        ["-h" | "--help"] => {
            println!("{USAGE}");
            Ok(true)
        }
        _ => Err(USAGE.to_string()),
    }
}

fn look(name: &str) -> Outcome {
    let looked = tablet::look(&read(name)?);
    match looked {
        Ok(()) => println!("{name}: accepted"),
        Err(refusal) => println!("{name}: {refusal}"),
    }
    Ok(looked.is_ok())
}

fn judge(name: &str, rows: &[&str]) -> Outcome {
    let file = read(name)?;
    let rows = rows.iter().map(|row| bytes(row)).collect::<Result<Vec<_>, _>>()?;
    if let Err(refusal) = tablet::look(&file) {
        eprintln!("{name}: {refusal}; rows are judged against the plan without components");
    }
    let mut all = true;
    for row in rows {
        let judged = tablet::judge(&file, &row);
        all &= judged.is_ok();
        match judged {
            Ok(()) => println!("{}: a route of the plan", hex(&row)),
            Err(refusal) => println!("{}: {refusal}{}", hex(&row), wrong_end(&row, refusal)),
        }
    }
    Ok(all)
}

/// A row has two bytes for its count and two for each entry.
fn wrong_end(row: &[u8], refusal: tablet::Refusal) -> &'static str {
    if refusal.number == 15 && refusal.place == (row.len() as u64 - 2) / 2 {
        "; it is a path, and only its end is wrong"
    } else {
        ""
    }
}

fn shared(a: &str, b: &str) -> Outcome {
    let counted = tablet::shared(&bytes(a)?, &bytes(b)?);
    match counted {
        Ok(0) => println!("no component is in both rows"),
        Ok(1) => println!("1 component is in both rows"),
        Ok(count) => println!("{count} components are in both rows"),
        Err(refusal) => println!("{refusal}"),
    }
    Ok(counted.is_ok())
}

fn read(name: &str) -> Result<Vec<u8>, String> {
    fs::read(name).map_err(|error| format!("tablet: cannot read {name}: {error}"))
}

/// The bytes that a text of hexadecimal digits says; spaces may part them.
fn bytes(text: &str) -> Result<Vec<u8>, String> {
    let wrong = || format!("tablet: not bytes in hexadecimal: {text}");
    let digits = text
        .chars()
        .filter(|c| !c.is_whitespace())
        .map(|c| c.to_digit(16).map(|d| d as u8).ok_or_else(wrong))
        .collect::<Result<Vec<u8>, _>>()?;
    if digits.len() % 2 != 0 {
        return Err(wrong());
    }
    Ok(digits.chunks(2).map(|pair| 16 * pair[0] + pair[1]).collect())
}

fn hex(bytes: &[u8]) -> String {
    let pairs: Vec<String> = bytes.iter().map(|b| format!("{b:02X}")).collect();
    pairs.join(" ")
}
