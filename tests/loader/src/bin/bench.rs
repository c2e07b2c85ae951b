//! Times the proved loader, writer and picker beside the Rust ones; prints six markdown tables.
//!
//!     bench [--against archive] [--rounds N]

use loader::answers::{Listing, Loader, Picking};
use loader::bench::{bare, empty_bitmaps, examines, image, loads, mixed, packed, Times, SIZES};
use loader::bench::{entries, loads_beside_copies, repeated, walks, ORDERS};
use loader::bench::{mixed_globals, short_globals, writes};
use loader::bench::{picks, picks_of, Abutting, THREE_LEFT};
use loader::compare::partner;
use std::process::ExitCode;
use std::time::Duration;

/// Best and median of both in a unit of so many nanoseconds, and their ratios.
fn cells([proved, plain]: [Times; 2], unit: f64, places: usize) -> String {
    let times = [proved.best, proved.median, plain.best, plain.median];
    let [a, b, c, d] = times.map(|time| time.as_nanos() as f64 / unit);
    let ratios = [a / c, b / d].map(|ratio| format!("{ratio:.2}"));
    [a, b, c, d]
        .map(|time| format!("{time:.places$}"))
        .into_iter()
        .chain(ratios)
        .collect::<Vec<_>>()
        .join(" | ")
}

fn row(image: &str, call: &str, times: [Times; 2]) {
    println!("| {image} | {call} | {} |", cells(times, 1000.0, 1));
}

fn write_row(name: &str, list: &Listing, loaders: [&dyn Loader; 2], rounds: usize) {
    let times = writes(list, loaders, rounds);
    println!("| {name} | {} |", cells(times, list.addresses.len() as f64, 2));
}

fn pick_row(name: &str, pick: &Picking, loaders: [&dyn Loader; 2], rounds: usize) {
    let times = picks(pick, loaders, rounds);
    println!("| {name} | {} |", cells(times, pick.addresses.len() as f64, 2));
}

/// The numbers of entries, each time beside none.
const COUNTS: [u64; 3] = [256, 1_000, 1_024];

/// Which of the times a row shows.
type Shown = (&'static str, fn(&Times) -> Duration);
const TIMES: [Shown; 2] = [("best", |times| times.best), ("median", |times| times.median)];

/// What examine takes with entries beyond what it takes without: a row of best and a row of median
/// times. A small memory has the smallest number alone.
fn walk_rows(memory: usize, order: usize, symbols: bool, loaders: [&dyn Loader; 2], rounds: usize) {
    let (name, places) = ORDERS[order];
    let counts = if memory < 1 << 20 { &COUNTS[..1] } else { &COUNTS };
    let mut calls = vec![entries(memory, &[], symbols)];
    calls.extend(counts.iter().map(|&n| entries(memory, &places(memory as u64, n), symbols)));
    let taken = walks(&calls, &vec![0; calls.len()], &loaders, rounds);
    let kinds = if symbols { ", half with symbols" } else { "" };
    for (which, time) in TIMES {
        let mut cells = Vec::new();
        for loader in 0..loaders.len() {
            let micros: Vec<f64> =
                taken.iter().map(|of| time(&of[loader]).as_nanos() as f64 / 1000.0).collect();
            let walk = |i: usize| micros.get(i).map(|time| time - micros[0]);
            let shown = |time: Option<f64>| time.map_or("-".to_owned(), |t| format!("{t:.2}"));
            cells.push(shown(Some(micros[0])));
            cells.extend((1..=COUNTS.len()).map(|i| shown(walk(i))));
            cells.push(shown(walk(3).zip(walk(1)).map(|(long, short)| long / short)));
        }
        println!("| {} KiB | {name}{kinds} | {which} | {} |", memory >> 10, cells.join(" | "));
    }
}

/// Memories and numbers of entries at which what an entry costs is shown.
const GROWING: [(usize, usize); 3] = [(1 << 20, 16_384), (4 << 20, 65_536), (16 << 20, 65_536)];

/// Nanoseconds an entry of examine, where the places are distinct and where the last repeats the
/// first.
fn growing_rows(order: usize, repeats: bool, loaders: [&dyn Loader; 2], rounds: usize) {
    let (name, places) = ORDERS[order];
    let what = if repeats { ", the last as the first: refused by 11" } else { "" };
    for (which, time) in TIMES {
        let mut cells = [Vec::new(), Vec::new()];
        for (memory, count) in GROWING {
            let (call, answer) = if repeats {
                (repeated(memory, count), 256 * (count as u64 - 1) + 11)
            } else {
                (entries(memory, &places(memory as u64, count as u64), false), 0)
            };
            let taken = walks(&[call], &[answer], &loaders, rounds);
            for (cells, times) in cells.iter_mut().zip(&taken[0]) {
                cells.push(format!("{:.2}", time(times).as_nanos() as f64 / count as f64));
            }
        }
        println!("| {name}{what} | {which} | {} |", cells.concat().join(" | "));
    }
}

fn run(words: &[String]) -> Result<(), String> {
    let (mut against, mut rounds) = ("archive", 300);
    for pair in words.chunks(2) {
        match pair {
            [name, value] if name == "--against" => against = value,
            [name, value] if name == "--rounds" => {
                let number = value.parse().ok().filter(|&n| n > 0);
                rounds = number.ok_or(format!("not a number of rounds: {value}"))?;
            }
            _ => return Err(format!("unknown option {}", pair.join(" "))),
        }
    }
    let loaders = [partner(against)?, partner("self")?];
    println!(
        "Microseconds, {rounds} rounds in turn; first loader: {against}, second: plain Rust.\n"
    );
    println!("| image | call | first best | first median | second best | second median | best ratio | median ratio |");
    println!("|---|---|---|---|---|---|---|---|");
    for size in SIZES {
        let call = image(size);
        let name = format!("{} KiB", size >> 10);
        row(&name, "load", loads(&call, loaders, rounds));
        row(&name, "examine", examines(&call, loaders, rounds));
    }
    for size in SIZES {
        let call = mixed(size);
        let name = format!("{} KiB, places mixed", size >> 10);
        row(&name, "load", loads(&call, loaders, rounds));
        row(&name, "examine", examines(&call, loaders, rounds));
    }
    let others = [
        ("1024 KiB, no relocations", bare(1 << 20)),
        ("16384 KiB, no relocations", bare(16 << 20)),
        ("256 KiB, 1,000 packed places", packed(256 << 10)),
        ("256 KiB, 10,000 empty bitmaps", empty_bitmaps(256 << 10, 10_000)),
    ];
    for (name, call) in others {
        row(name, "load", loads(&call, loaders, rounds));
        row(name, "examine", examines(&call, loaders, rounds));
    }

    println!("\nMicroseconds of a load beside clearing memory and copying the file over it, in turn, best times.\n");
    println!("| image | clear + copy | first | first : clear + copy | second | second : clear + copy | first : second |");
    println!("|---|---|---|---|---|---|---|");
    for size in &SIZES[2..] {
        for (order, call) in [("rising", image(*size)), ("mixed", mixed(*size))] {
            let best = loads_beside_copies(&call, loaders, rounds).map(|times| times.best);
            let [copy, first, second] = best.map(|time| time.as_nanos() as f64 / 1000.0);
            println!(
                "| {} KiB, places {order} | {copy:.0} | {first:.0} | {:.2} | {second:.0} | {:.2} | {:.2} |",
                size >> 10,
                first / copy,
                second / copy,
                first / second
            );
        }
    }

    println!("\nNanoseconds an entry of examine: 1 MiB of memory with 16,384 entries, 4 and 16 MiB with 65,536.\n");
    println!("| places | time | first, 1 MiB | 4 MiB | 16 MiB | second, 1 MiB | 4 MiB | 16 MiB |");
    println!("|---|---|---|---|---|---|---|---|");
    for order in 0..ORDERS.len() {
        growing_rows(order, false, loaders, rounds);
    }
    growing_rows(0, true, loaders, rounds);

    println!("\nThe walk of 10 and 11: microseconds of examine without entries, and what so many of distinct places add to them.\n");
    println!("| memory | places | time | first, none | 256 | 1,000 | 1,024 | 1,024 : 256 | second, none | 256 | 1,000 | 1,024 | 1,024 : 256 |");
    println!("|---|---|---|---|---|---|---|---|---|---|---|---|---|");
    for order in 0..ORDERS.len() {
        walk_rows(1 << 20, order, false, loaders, rounds);
    }
    walk_rows(1 << 20, 0, true, loaders, rounds);
    for order in 0..3 {
        walk_rows(16 << 10, order, false, loaders, rounds);
    }

    println!("\nNanoseconds a global of write_table, in the same way.\n");
    println!("| list | first best | first median | second best | second median | best ratio | median ratio |");
    println!("|---|---|---|---|---|---|---|");
    write_row("1,024 globals of a byte", &short_globals(1_024), loaders, rounds);
    for (name, count) in [("1,024", 1_024), ("65,536", 65_536)] {
        let mixed = mixed_globals(count);
        let buffer_length = loaders[1].written(&mixed).index() as usize;
        write_row(&format!("{name} mixed globals"), &mixed, loaders, rounds);
        let exact = Listing { buffer_length, ..mixed };
        write_row(&format!("{name} mixed globals, no byte to spare"), &exact, loaders, rounds);
    }

    println!("\nNanoseconds a global of pick_tags, in the same way, with new random bytes for each two.\n");
    println!("| list | first best | first median | second best | second median | best ratio | median ratio |");
    println!("|---|---|---|---|---|---|---|");
    for (name, count) in [("1,024", 1_024), ("65,536", 65_536)] {
        let abutting = [
            ("apart", Abutting::Nothing),
            ("abutting", Abutting::All),
            ("half abutting", Abutting::Half),
        ];
        for (how, abutting) in abutting {
            for (tags, excluded) in [("nothing excluded", 0), ("three tags left", THREE_LEFT)] {
                let pick = picks_of(count, abutting, excluded);
                pick_row(&format!("{name} globals {how}, {tags}"), &pick, loaders, rounds);
            }
        }
    }
    Ok(())
}

fn main() -> ExitCode {
    let words: Vec<String> = std::env::args().skip(1).collect();
    match run(&words) {
        Ok(()) => ExitCode::SUCCESS,
        Err(why) => {
            eprintln!("{why}");
            ExitCode::from(2)
        }
    }
}
