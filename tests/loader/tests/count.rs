//! The calls of the program count with the Rust loader in the archive's place, and its table.

use loader::count::{instructions, table};
use std::process::{Command, Output};

const COUNT: &str = env!("CARGO_BIN_EXE_count");

fn run(words: &[&str]) -> (Option<i32>, String) {
    let Output { status, stdout, .. } = Command::new(COUNT).args(words).output().unwrap();
    (status.code(), String::from_utf8(stdout).unwrap())
}

/// How many calls the program makes; it ends early where one is refused.
fn calls() -> usize {
    let (code, text) = run(&["calls", "--against", "self"]);
    assert_eq!(code, Some(0), "{text}");
    text.strip_suffix(" calls\n").unwrap().parse().unwrap()
}

#[test]
fn all_but_the_items_cancels() {
    let text = table(&vec![1_000; calls()]).unwrap();
    let (rest, items): (Vec<&str>, Vec<&str>) =
        text.lines().filter(|l| l.contains(".0 |")).partition(|l| l.contains("the rest"));
    assert_eq!(rest, ["| the rest of examine, once | 1000.0 | 1000.0 |"]);
    assert!(items.len() > 10, "{text}");
    assert!(items.iter().all(|l| l.ends_with(" | 0.0 | 0.0 |")), "{text}");
}

#[test]
fn each_call_has_a_count() {
    assert!(table(&vec![1_000; calls() - 1]).is_err());
    assert_eq!(run(&["table", "no such profile"]).0, Some(2));
    assert_eq!(run(&["calls", "--against", "nothing"]).0, Some(2));
}

const PROFILE: &str = "\
positions: line
events: Ir

ob=/usr/lib/libc.so.6
fn=0x000000000018b3c0
10 400
+1 4
ob=/home/count
fn=<A as B>::examine
0 30
cob=/usr/lib/libc.so.6
cfn=0x000000000018b3c0
calls=1 10
0 404
0 7
fn=compiler_builtins::mem::memcpy
* 50

totals: 491
";

#[test]
fn own_instructions_are_counted() {
    assert_eq!(instructions(PROFILE), Ok(37));
    assert!(instructions(&PROFILE.replace("totals: 491", "totals: 492")).is_err());
    assert!(instructions(&PROFILE.replace("totals: 491", "")).is_err());
    assert!(instructions("totals: 0\n").is_err());
}
