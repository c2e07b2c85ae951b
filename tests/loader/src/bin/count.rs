//! The calls that `tests/count` counts the instructions of, and the table of what was counted.
//!
//!     count calls [--against archive]    makes the calls, under callgrind
//!     count table PROFILE                prints the table, from callgrind's PROFILE.1, PROFILE.2 and so on

use loader::compare::partner;
use loader::count::{calls, instructions, table};
use std::process::ExitCode;

fn run(words: &[&str]) -> Result<(), String> {
    match *words {
        ["calls"] => run(&["calls", "--against", "archive"]),
        ["calls", "--against", name] => {
            println!("{} calls", calls([partner(name)?, partner("self")?]));
            Ok(())
        }
        ["table", profile] => {
            let mut counts = Vec::new();
            for i in 1.. {
                let path = format!("{profile}.{i}");
                let Ok(text) = std::fs::read_to_string(&path) else { break };
                counts.push(instructions(&text).map_err(|why| format!("{path}: {why}"))?);
            }
            print!("{}", table(&counts)?);
            Ok(())
        }
        _ => Err("usage: count calls [--against LOADER] | count table PROFILE".to_owned()),
    }
}

fn main() -> ExitCode {
    let words: Vec<String> = std::env::args().skip(1).collect();
    match run(&words.iter().map(String::as_str).collect::<Vec<_>>()) {
        Ok(()) => ExitCode::SUCCESS,
        Err(why) => {
            eprintln!("{why}");
            ExitCode::from(2)
        }
    }
}
