//! Checks each module that is named, with upstream's default proposals on, and prints what isn't accepted, and counts.
//! After `-f INDEX` it checks only the body of the function at that index. It ends with the greatest status, or with 8
//! if a file can't be read or a word isn't known.

use std::ffi::{OsStr, OsString};
use std::path::Path;
use std::process::ExitCode;
use tansyattic::{Error, ErrorKind, Module, Summary, version};

const FAILED: u8 = 8;

/// The status of C for the kind.
fn status_of(error: &Error) -> u8 {
    match error.kind() {
        ErrorKind::Invalid => 1,
        ErrorKind::Malformed => 2,
        ErrorKind::NotCovered => 4,
        ErrorKind::NoBody => 5,
        ErrorKind::TooLarge => 7,
        _ => 3,
    }
}

/// Prints why it isn't accepted, and answers the status.
fn report(name: &str, error: &Error) -> u8 {
    println!("{name}: {}: {error}", error.item());
    status_of(error)
}

/// Prints what a module comes to, and what isn't accepted.
fn check_module(name: &str, module: &Module) -> u8 {
    let Summary {
        accepted,
        refused,
        not_covered,
        error,
        ..
    } = module.summary();
    if error.is_some() {
        for error in module.errors() {
            report(name, &error);
        }
    }
    println!("{name}: {accepted} accepted, {refused} refused, {not_covered} not covered");
    error.as_ref().map_or(0, status_of)
}

/// Checks the module of a file, or the function of it that is named.
fn check(path: &OsStr, function: Option<u32>) -> u8 {
    let name = &*path.to_string_lossy();
    let Ok(bytes) = std::fs::read(Path::new(path)) else {
        println!("{name}: can't be read");
        return FAILED;
    };
    let module = match Module::parse(&bytes) {
        Ok(module) => module,
        Err(error) => return report(name, &error),
    };
    let Some(index) = function else {
        return check_module(name, &module);
    };
    match module.validate_function(index) {
        Ok(()) => {
            println!("{name}: func {index}: accepted");
            0
        }
        Err(error) => report(name, &error),
    }
}

/// The index that a word is.
fn index_of(word: Option<OsString>) -> Option<u32> {
    word?.to_str()?.parse().ok()
}

fn main() -> ExitCode {
    let (major, minor, patch) = version();
    println!("tansyattic {major}.{minor}.{patch}");
    let mut greatest = 0;
    let mut function = None;
    let mut words = std::env::args_os().skip(1);
    while let Some(word) = words.next() {
        if word != "-f" {
            greatest = greatest.max(check(&word, function));
        } else if let Some(index) = index_of(words.next()) {
            function = Some(index);
        } else {
            eprintln!("-f: the index of a function stands behind it");
            return ExitCode::from(FAILED);
        }
    }
    ExitCode::from(greatest)
}
