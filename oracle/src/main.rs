//! Plays the records of docs/RULES.md on the unchanged `level_control.rs` of rs-matter and prints the sheet.
//!
//!     oracle [--state] < PLAY      one play: its sheet
//!     oracle [--state] LIST        a list of plays: each sheet under a line `# play N`
//!
//! With `--state` the whole state follows each line. README.md has the formats.
use std::io::{Read, Write};
use std::process::ExitCode;

use oracle::{caught, keep_panics, plays, sheet, Stop};

fn main() -> ExitCode {
    keep_panics();
    match caught(run) {
        Ok(()) => ExitCode::SUCCESS,
        Err(Stop::Panic(message)) => {
            eprintln!("oracle: {message}");
            ExitCode::from(2)
        }
        Err(stop) => unreachable!("{stop:?} outside a play"),
    }
}

fn run() {
    let mut arguments: Vec<String> = std::env::args().skip(1).collect();
    let print_state = arguments
        .first()
        .is_some_and(|argument| argument == "--state");
    arguments.drain(..print_state as usize);
    let mut out = std::io::BufWriter::new(std::io::stdout().lock());
    match &arguments[..] {
        [] => {
            let mut records = vec![];
            std::io::stdin().read_to_end(&mut records).unwrap();
            out.write_all(sheet(&records[..], print_state).as_bytes())
                .unwrap();
        }
        [list] => {
            let list = std::fs::read(list).unwrap_or_else(|e| panic!("{list}: {e}"));
            for (i, play) in plays(&list).into_iter().enumerate() {
                write!(out, "# play {}\n{}", i + 1, sheet(play, print_state)).unwrap();
            }
        }
        _ => panic!("usage: oracle [--state] [LIST]"),
    }
    out.flush().unwrap();
}
