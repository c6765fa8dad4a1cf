//! `vectors`: writes the vector file to standard output, the same on every
//! run. `vectors --check FILE` makes it anew and compares: exit 1 with the
//! first line that differs, 2 if the file cannot be had.

use std::ffi::OsStr;
use std::io::Write;
use std::process::ExitCode;

use compare::agree::Difference;
use compare::cases;

fn main() -> ExitCode {
    let arguments: Vec<_> = std::env::args_os().skip(1).collect();
    let file = match cases::file() {
        Ok(file) => file,
        Err(Difference(text)) => {
            println!("vectors: {text}");
            return ExitCode::FAILURE;
        }
    };
    match arguments.as_slice() {
        [] => match std::io::stdout().write_all(file.as_bytes()) {
            Ok(()) => ExitCode::SUCCESS,
            Err(error) => {
                eprintln!("vectors: standard output: {error}");
                ExitCode::from(2)
            }
        },
        [option, path] if option == "--check" => check(&file, path),
        _ => {
            eprintln!("usage: vectors [--check FILE]");
            ExitCode::from(2)
        }
    }
}

fn check(file: &str, path: &OsStr) -> ExitCode {
    let stored = match std::fs::read(path) {
        Ok(stored) => stored,
        Err(error) => {
            eprintln!("vectors: {}: {error}", path.display());
            return ExitCode::from(2);
        }
    };
    if stored == file.as_bytes() {
        println!("vectors: {} is as made anew", path.display());
        return ExitCode::SUCCESS;
    }
    let stored: Vec<&[u8]> = stored.split(|byte| *byte == b'\n').collect();
    let made: Vec<&[u8]> = file.as_bytes().split(|byte| *byte == b'\n').collect();
    let longer = stored.len().max(made.len());
    let differs = |place: &usize| stored.get(*place) != made.get(*place);
    let place = (0..longer).find(differs).unwrap_or(longer);
    let shown = |lines: &[&[u8]]| {
        let line = lines.get(place).copied().unwrap_or(b"(no line)");
        String::from_utf8_lossy(line).into_owned()
    };
    println!("vectors: {} differs in line {}", path.display(), place + 1);
    println!("stored:   {}", shown(&stored));
    println!("made now: {}", shown(&made));
    ExitCode::FAILURE
}
