//! The simulator's program; README.md describes its commands and how they end.

mod commands;
mod streams;

use commands::{run, Ending, Failure};
use sim::text::refusal_text;
use std::ffi::OsString;
use std::io::Write;
use std::process::ExitCode;

const USAGE: &str = "usage:
  sim sheet                                  < table bytes
  sim sheets                                 < tables in hex, one a line
  sim replay [states]                        < history
  sim svg [--ticks FIRST LAST] [NAME ..]     < history
  sim within                                 < history
  sim bytes                                  < hex
  sim readings                               < frames
  sim histories                              < a frame, then ticks of 7 bytes
  sim writings                               < frames
  sim normalise                              < table bytes
  sim normalisings                           < frames
  sim generate tables SEED COUNT [small|long|extreme|damaged|before]
  sim generate history SEED [within|outside|faulty|worst] [TICKS] [TABLE]
  sim generate readings
  sim generate histories
  sim generate writings
  sim generate normalisings
  sim check SEED COUNT [TICKS]
  sim help
ends with 0 where all is within, accepted or drawn; 1 where something is
refused or not within; 2 where words, input or output fail
";

fn main() -> ExitCode {
    let words = std::env::args_os().skip(1).map(OsString::into_string);
    let result = match words.collect::<Result<Vec<String>, OsString>>() {
        Ok(words) => answered(&words.iter().map(String::as_str).collect::<Vec<_>>()),
        Err(word) => Err(Failure::Words(format!("not text: {}", word.display()))),
    };
    let mut ending = result.unwrap_or_else(failed);
    if let Err(error) = streams::output(&ending.output) {
        ending.error = error;
        ending.status = 2;
    }
    if !ending.error.is_empty() {
        // Without a standard error the status alone has to do.
        let _ = writeln!(std::io::stderr(), "{}", ending.error.trim_end());
    }
    ExitCode::from(ending.status)
}

fn answered(words: &[&str]) -> Result<Ending, Failure> {
    if asks_for_help(words) {
        return Ok(Ending::new(USAGE, true));
    }
    run(words)
}

/// Help is asked for by an option anywhere, or by the word as a command or right behind one. (so
/// the first row of a picture can have any name but that, if it is the only one named)
fn asks_for_help(words: &[&str]) -> bool {
    let behind = matches!(words, ["help", ..] | [_, "help"] | ["generate", _, "help"]);
    behind || words.iter().any(|word| ["--help", "-h"].contains(word))
}

/// How the program ends where a command has nothing to print.
fn failed(failure: Failure) -> Ending {
    let (error, status) = match failure {
        Failure::Words(error) => (format!("{error}\n{USAGE}"), 2),
        Failure::Input(error) => (error, 2),
        Failure::Refused(refusal) => (refusal_text(&refusal), 1),
    };
    Ending {
        output: Vec::new(),
        error,
        status,
    }
}
