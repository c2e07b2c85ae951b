//! The programs compare and bench, with Rust loaders in the archive's place.

use std::path::PathBuf;
use std::process::{Command, Output};

const COMPARE: &str = env!("CARGO_BIN_EXE_compare");
const BENCH: &str = env!("CARGO_BIN_EXE_bench");

fn run(program: &str, words: &[&str]) -> (Option<i32>, String) {
    let Output { status, stdout, .. } = Command::new(program).args(words).output().unwrap();
    (status.code(), String::from_utf8(stdout).unwrap())
}

#[test]
fn equal_loaders_are_equal() {
    let (code, text) = run(COMPARE, &["--against", "self", "--cases", "2000"]);
    assert_eq!(code, Some(0), "{text}");
    let counts = "3985 calls, 2703 descriptor steps, 2346 table writes, 2358 picks";
    assert!(text.contains(counts), "{text}");
    assert!(text.contains("different: 0"), "{text}");
}

#[test]
fn a_difference_is_shown_and_replayed() {
    let dump = PathBuf::from(env!("CARGO_TARGET_TMPDIR")).join("different");
    let against = "fault:the tag source forgets *P";
    let words = ["--against", against, "--cases", "500", "--stop", "1", "--dump"];
    let (code, text) = run(COMPARE, &[&words[..], &[dump.to_str().unwrap()]].concat());
    assert_eq!(code, Some(1), "{text}");
    let line = text.lines().find_map(|l| l.trim().strip_prefix("compare ")).unwrap();
    // Quoted words may hold spaces.
    let mut again = Vec::new();
    for (i, part) in line.split('\'').enumerate() {
        if i % 2 == 1 {
            again.push(part);
        } else {
            again.extend(part.split_whitespace());
        }
    }
    let (code, shown) = run(COMPARE, &again);
    assert_eq!(code, Some(1), "{shown}");
    assert!(shown.contains("memory: "), "{shown}");
    *again.last_mut().unwrap() = "self";
    assert_eq!(run(COMPARE, &again).0, Some(0));
}

#[test]
fn the_untagged_loader_is_compared() {
    let shown = |fault, line| {
        let against = format!("fault:{fault}");
        let dump = PathBuf::from(env!("CARGO_TARGET_TMPDIR")).join("untagged");
        let words = ["--against", &against, "--cases", "0", "--stop", "1", "--dump"];
        let (code, text) = run(COMPARE, &[&words[..], &[dump.to_str().unwrap()]].concat());
        assert_eq!(code, Some(1), "{text}");
        assert!(text.contains(line), "{text}");
    };
    shown("the bias by 4,096 alone", "\n  untagged: refused 12 at 0, other taken\n");
    shown("symbols read from relocated memory", "\n  memory but for tags: 6 bytes, first at ");
}

#[test]
fn a_different_table_is_shown() {
    let against = "fault:the size as second number";
    let words = ["--against", against, "--cases", "0", "--stop", "1"];
    let (code, text) = run(COMPARE, &words);
    assert_eq!(code, Some(1), "{text}");
    assert!(text.contains("different: write vector 0, bench_list_in_5_bytes"), "{text}");
    assert!(text.contains("buffer: 1 bytes, first at 0x3: plain 0x07, other 0x08"), "{text}");
    assert!(text.contains("write_table([1000, 1040, 10c0], [20, 80, 10], 5 bytes)"), "{text}");
}

#[test]
fn a_different_pick_is_shown() {
    let against = "fault:the search goes down";
    let words = ["--against", against, "--cases", "0", "--stop", "1"];
    let (code, text) = run(COMPARE, &words);
    assert_eq!(code, Some(1), "{text}");
    assert!(text.contains("different: pick vector 0, random_0_nothing_excluded"), "{text}");
    assert!(text.contains("choices: 1 bytes, first at 0x0: plain 0x01, other 0x0f"), "{text}");
    let words = "by the words, other: choice 0 is 15, and another good one comes before it";
    assert!(text.contains(words), "{text}");
    assert!(text.contains("pick_tags([100], [10], 00, 0x0000, 07)"), "{text}");
}

#[test]
fn wrong_words_are_told() {
    assert_eq!(run(COMPARE, &["--against", "nothing"]).0, Some(2));
    assert_eq!(run(COMPARE, &["replay", "no such file"]).0, Some(2));
    assert_eq!(run(BENCH, &["--rounds", "0"]).0, Some(2));
}

#[test]
fn the_bench_images_are_taken() {
    let (code, text) = run(BENCH, &["--against", "self", "--rounds", "3"]);
    assert_eq!(code, Some(0), "{text}");
    assert_eq!(text.matches("| load |").count(), 14, "{text}");
    assert_eq!(text.matches("KiB, places rising |").count(), 3, "{text}");
    assert_eq!(text.matches("refused by 11 |").count(), 2, "{text}");
    assert_eq!(text.matches("| best |").count(), 19, "{text}");
    assert_eq!(text.matches("| median |").count(), 19, "{text}");
    assert_eq!(text.matches("globals").count(), 5 + 12, "{text}");
    assert_eq!(text.matches("abutting, three tags left |").count(), 4, "{text}");
}
