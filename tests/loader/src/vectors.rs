//! The outside vectors in tests/vectors.

use crate::answers::{Call, Listing, Outcome, Picked, Picking, StepAnswer, Written};
use crate::bytes::{u16_at, u32_at, u64_at};
use crate::compare::hex;
use crate::crc::crc32;
use crate::{Facts, Mode, Refusal, Step, Switch, Untagged};
use std::path::PathBuf;

pub struct LoadVector {
    pub name: String,
    pub call: Call,
    pub answer: String,
}

pub struct StepVector {
    pub table: Vec<u8>,
    pub position: u64,
    pub last_end: u64,
    pub index: u64,
    pub answer: String,
}

pub struct WriteVector {
    pub name: String,
    pub list: Listing,
    pub answer: String,
}

pub struct PickVector {
    pub name: String,
    pub pick: Picking,
    pub answer: String,
}

fn read(name: &str) -> Vec<u8> {
    let path = PathBuf::from(env!("CARGO_MANIFEST_DIR")).join("../vectors").join(name);
    std::fs::read(&path).unwrap_or_else(|e| panic!("{}: {e}", path.display()))
}

fn lines(name: &str) -> Vec<String> {
    String::from_utf8(read(name)).unwrap().lines().map(str::to_owned).collect()
}

struct Records<'a>(&'a [u8]);

impl<'a> Records<'a> {
    fn bytes(&mut self, count: usize) -> &'a [u8] {
        let (taken, rest) = self.0.split_at(count);
        self.0 = rest;
        taken
    }

    fn u16(&mut self) -> u16 {
        u16_at(self.bytes(2), 0)
    }

    fn u32(&mut self) -> usize {
        u32_at(self.bytes(4), 0) as usize
    }

    fn u64(&mut self) -> u64 {
        u64_at(self.bytes(8), 0)
    }

    fn counted(&mut self) -> Vec<u8> {
        let count = self.u32();
        self.bytes(count).to_vec()
    }

    fn words(&mut self) -> Vec<u64> {
        let count = self.u32();
        (0..count).map(|_| self.u64()).collect()
    }

    /// Zeros with pieces over them. A piece is a unit put down a number of times, one copy after the
    /// other; in copy k each word of the unit has k times its step added.
    fn pieces(&mut self) -> Vec<u8> {
        let mut out = vec![0; self.u32()];
        for _ in 0..self.u32() {
            let (start, length, count) = (self.u32(), self.u32(), self.u32());
            let unit = self.bytes(length);
            let steps: Vec<u64> = (0..length / 8).map(|_| self.u64()).collect();
            let copies = out[start..][..length * count].chunks_exact_mut(length);
            for (k, copy) in (0..).zip(copies) {
                copy.copy_from_slice(unit);
                for (word, (at, step)) in copy.chunks_exact_mut(8).zip((0..).step_by(8).zip(&steps))
                {
                    let moved = u64_at(unit, at).wrapping_add(step.wrapping_mul(k));
                    word.copy_from_slice(&moved.to_le_bytes());
                }
            }
        }
        out
    }

    /// A load, whose file and choices are read by a function.
    fn call(&mut self, bytes: fn(&mut Self) -> Vec<u8>) -> Call {
        let call = Call {
            file: bytes(self),
            bias: self.u64(),
            memory_length: self.u32(),
            plane_length: self.u32(),
            choices: bytes(self),
        };
        assert_eq!(self.u32(), 0);
        call
    }
}

/// The sets of loads.
pub const LOADS: [&str; 6] =
    ["load", "level-02/load", "level-03/load", "level-04/load", "level-05/load", "level-06/load"];
/// The set of large loads, whose records are packed.
pub const LARGE: &str = "level-05/large";
/// The folders of those that the untagged loader has answers for.
pub const UNTAGGED: [&str; 5] = ["level-02", "level-03", "level-04", "level-05", "level-06"];
/// The sets of descriptor steps.
pub const STEPS: [&str; 2] = ["descriptors", "level-06/descriptors"];

pub fn loads(set: &str) -> Vec<LoadVector> {
    let bytes = read(&format!("{set}.cases"));
    let mut records = Records(&bytes);
    let names = lines(&format!("{set}.names"));
    let named = names.into_iter().zip(lines(&format!("{set}.answers")));
    let vectors = named
        .map(|(name, answer)| LoadVector { name, call: records.call(Records::counted), answer })
        .collect();
    assert!(records.0.is_empty());
    vectors
}

/// The large loads one by one: together they would fill hundreds of megabytes.
pub fn each_large(mut each: impl FnMut(usize, LoadVector)) {
    let bytes = read(&format!("{LARGE}.cases"));
    let mut records = Records(&bytes);
    let names = lines(&format!("{LARGE}.names"));
    let named = names.into_iter().zip(lines(&format!("{LARGE}.answers")));
    for (i, (name, answer)) in named.enumerate() {
        each(i, LoadVector { name, call: records.call(Records::pieces), answer });
    }
    assert!(records.0.is_empty());
}

/// The loads of a folder with the untagged loader's answers in place of the loads'.
pub fn untagged_loads(folder: &str) -> Vec<LoadVector> {
    let answers = lines(&format!("{folder}/plain.answers"));
    let loads = loads(&format!("{folder}/load"));
    assert_eq!(loads.len(), answers.len());
    loads.into_iter().zip(answers).map(|(load, answer)| LoadVector { answer, ..load }).collect()
}

pub fn steps(set: &str) -> Vec<StepVector> {
    let bytes = read(&format!("{set}.cases"));
    let mut records = Records(&bytes);
    let vectors = lines(&format!("{set}.answers"))
        .into_iter()
        .map(|answer| StepVector {
            table: records.counted(),
            position: records.u64(),
            last_end: records.u64(),
            index: records.u64(),
            answer,
        })
        .collect();
    assert!(records.0.is_empty());
    vectors
}

pub fn writes() -> Vec<WriteVector> {
    let bytes = read("write.cases");
    let mut records = Records(&bytes);
    let named = lines("write.names").into_iter().zip(lines("write.answers"));
    let vectors = named
        .map(|(name, answer)| {
            let list = Listing {
                addresses: records.words(),
                sizes: records.words(),
                buffer_length: records.u32(),
            };
            WriteVector { name, list, answer }
        })
        .collect();
    assert!(records.0.is_empty());
    vectors
}

/// Choice i is lent as i × 3 + 7.
pub fn picks() -> Vec<PickVector> {
    let bytes = read("level-07/pick.cases");
    let mut records = Records(&bytes);
    let named = lines("level-07/pick.names").into_iter().zip(lines("level-07/pick.answers"));
    let vectors = named
        .map(|(name, answer)| {
            let pick = Picking {
                addresses: records.words(),
                sizes: records.words(),
                random: records.counted(),
                excluded: records.u16(),
                choices: (0..records.u32()).map(|i| (3 * i + 7) as u8).collect(),
            };
            PickVector { name, pick, answer }
        })
        .collect();
    assert!(records.0.is_empty());
    vectors
}

/// The line of load.answers for an outcome and the facts of examine.
pub fn load_line(outcome: &Outcome, examined: &Result<Facts, Refusal>) -> String {
    let switch = |s| match s {
        Switch::Absent => "absent",
        Switch::Off => "off",
        Switch::On => "on",
    };
    let facts = match examined {
        Err(_) => "- - - - - -".to_owned(),
        Ok(f) => {
            let mode = match f.mode {
                Mode::Absent => "absent",
                Mode::Synchronous => "sync",
                Mode::Asynchronous => "async",
            };
            format!("{mode} {} {} {} {} 0", switch(f.heap), switch(f.stack), f.globals, f.words)
        }
    };
    format!(
        "{} 0 {:08x} {:08x} 00000000 {} {facts}",
        outcome.load,
        crc32(&outcome.memory),
        crc32(&outcome.plane),
        outcome.examine,
    )
}

/// The line of plain.answers for the untagged loader.
pub fn untagged_line(answer: &Result<Untagged, Refusal>) -> String {
    match answer {
        Ok(untagged) => format!("0 {:08x}", crc32(&untagged.memory)),
        Err(r) => format!("{} -", r.position * 256 + u64::from(r.number)),
    }
}

/// The line of descriptors.answers for a step.
pub fn step_line(answer: &StepAnswer) -> String {
    match answer {
        Ok(Step::Finished) => "finished".to_owned(),
        Ok(Step::Global { start, granules, position, end }) => {
            format!("global {start} {granules} {position} {end}")
        }
        Err(r) => format!("refused {} {}", r.number, r.position),
    }
}

/// A buffer whole, or by its CRC-32 where it is long.
fn shown(buffer: &[u8]) -> String {
    match buffer {
        [] => "-".to_owned(),
        short if short.len() <= 64 => hex(short),
        long => format!("#{:08x}", crc32(long)),
    }
}

/// The line of write.answers for a table write.
pub fn write_line(written: &Written) -> String {
    format!("{} {}", written.answer, shown(&written.buffer))
}

/// The line of pick.answers for a pick.
pub fn pick_line(picked: &Picked) -> String {
    format!("{} {}", picked.answer, shown(&picked.choices))
}
