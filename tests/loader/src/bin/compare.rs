//! Compares the Rust loader with the proved one.
//!
//!     compare [--against archive] [--cases N] [--first N] [--seed N] [--dump PATH] [--stop N]
//!     compare replay PATH --bias N --memory N --plane N --choices HEX [--against archive]
//!
//! --against self and --against fault:NAME put another Rust loader in the archive's place.
//! Ends with 0 where all is equal, 1 where something differs, 2 where it cannot run.

use loader::answers::{Call, Loader, RIGHT};
use loader::compare::{difference, partner, run, unhex, Settings};
use loader::generate::{count, SEED};
use std::process::ExitCode;

/// Taken, and the refusals of the picker in their order.
const PICK_ANSWERS: [u8; 7] = [0, 7, 2, 3, 4, 5, 8];

fn number(text: &str) -> Result<u64, String> {
    let parsed = match text.strip_prefix("0x") {
        Some(digits) => u64::from_str_radix(digits, 16),
        None => text.parse(),
    };
    parsed.map_err(|_| format!("not a number: {text}"))
}

/// The options as (name, value) pairs.
fn options(words: &[String]) -> Result<Vec<(&str, &str)>, String> {
    let pairs = words.chunks(2).map(|pair| match pair {
        [name, value] if name.starts_with("--") => Ok((name.as_str(), value.as_str())),
        _ => Err(format!("not an option with a value: {}", pair.join(" "))),
    });
    pairs.collect()
}

fn replay(path: &str, words: &[String]) -> Result<bool, String> {
    let file = std::fs::read(path).map_err(|e| format!("{path}: {e}"))?;
    let mut call = Call { file, bias: 0, memory_length: 0, plane_length: 0, choices: Vec::new() };
    let mut against = "archive";
    for (name, value) in options(words)? {
        match name {
            "--bias" => call.bias = number(value)?,
            "--memory" => call.memory_length = number(value)? as usize,
            "--plane" => call.plane_length = number(value)? as usize,
            "--choices" => call.choices = unhex(value).ok_or(format!("not hex: {value}"))?,
            "--against" => against = value,
            _ => return Err(format!("unknown option {name}")),
        }
    }
    let other = partner(against)?.outcome(&call);
    let plain = RIGHT.outcome(&call);
    println!("answers: plain {}, other {}", plain.load, other.load);
    let words = difference(&call, &plain, &other);
    println!(
        "{}",
        if words.is_empty() { "equal".to_owned() } else { format!("different\n  {words}") }
    );
    Ok(words.is_empty())
}

fn whole(words: &[String]) -> Result<bool, String> {
    let mut settings = Settings {
        against: "archive".to_owned(),
        seed: SEED,
        first: 0,
        cases: count(22_000),
        dump: "different".to_owned(),
        stop: 5,
    };
    for (name, value) in options(words)? {
        match name {
            "--against" => settings.against = value.to_owned(),
            "--cases" => settings.cases = number(value)?,
            "--first" => settings.first = number(value)?,
            "--seed" => settings.seed = number(value)?,
            "--dump" => settings.dump = value.to_owned(),
            "--stop" => settings.stop = number(value)? as usize,
            _ => return Err(format!("unknown option {name}")),
        }
    }
    let counts = run(&settings)?;
    println!(
        "{} calls, {} descriptor steps, {} table writes, {} picks, against {}",
        counts.calls, counts.steps, counts.writes, counts.picks, settings.against
    );
    println!("taken {}", counts.answers[0]);
    for (i, n) in counts.answers.iter().enumerate().skip(1) {
        println!("refused {i}: {n}");
    }
    println!("tables taken {}", counts.write_answers[0]);
    for (i, n) in counts.write_answers.iter().enumerate().skip(1) {
        println!("tables refused {i}: {n}");
    }
    let picks = PICK_ANSWERS.map(|number| counts.pick_answers[usize::from(number)]);
    println!("picks taken {}", picks[0]);
    for (number, n) in PICK_ANSWERS.iter().zip(picks).skip(1) {
        println!("picks refused {number}: {n}");
    }
    println!("different: {}", counts.different);
    if counts.different == 0 {
        let mut answers = counts.answers.iter().chain(&counts.write_answers).chain(&picks);
        assert!(answers.all(|&n| n > 0), "an answer was never seen");
    }
    Ok(counts.different == 0)
}

fn main() -> ExitCode {
    let words: Vec<String> = std::env::args().skip(1).collect();
    let done = match words.as_slice() {
        [first, path, rest @ ..] if first == "replay" => replay(path, rest),
        all => whole(all),
    };
    match done {
        Ok(true) => ExitCode::SUCCESS,
        Ok(false) => ExitCode::from(1),
        Err(why) => {
            eprintln!("{why}");
            ExitCode::from(2)
        }
    }
}
