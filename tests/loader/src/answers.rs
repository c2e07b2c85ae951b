//! Answers in the packed form of the C interface, and what two loaders are compared by.

use crate::rules::{Right, Rules};
use crate::{examine_by, load_by, pick_tags_by, step_by, write_table_by};
use crate::{Facts, Mode, Refusal, Step, Switch};
use std::marker::PhantomData;

/// position × 256 + refusal number, or globals × 256.
pub fn packed(answer: &Result<Facts, Refusal>) -> u64 {
    match answer {
        Ok(facts) => facts.globals * 256,
        Err(refusal) => refusal.position * 256 + u64::from(refusal.number),
    }
}

/// index × 256 + refusal number, or the table's length or the number of globals × 256.
pub fn packed_count(answer: &Result<usize, Refusal>) -> u64 {
    match answer {
        Ok(count) => *count as u64 * 256,
        Err(refusal) => refusal.position * 256 + u64::from(refusal.number),
    }
}

/// 0 where examine refuses. Else bit 0 is set; mode, heap and stack have two bits each from bit 2 on,
/// globals and words 17 bits each from bits 8 and 25 on.
pub fn packed_facts(answer: &Result<Facts, Refusal>) -> u64 {
    let Ok(facts) = answer else { return 0 };
    let mode = match facts.mode {
        Mode::Absent => 0,
        Mode::Synchronous => 1,
        Mode::Asynchronous => 2,
    };
    let switch = |s| match s {
        Switch::Absent => 0,
        Switch::Off => 1,
        Switch::On => 2,
    };
    1 + 4 * mode
        + 16 * switch(facts.heap)
        + 64 * switch(facts.stack)
        + (facts.globals << 8)
        + (facts.words << 25)
}

/// The arguments of one load; the buffers are filled by a pattern before it.
#[derive(Clone, Debug, PartialEq, Eq)]
pub struct Call {
    pub file: Vec<u8>,
    pub bias: u64,
    pub memory_length: usize,
    pub plane_length: usize,
    pub choices: Vec<u8>,
}

/// All that a load and an examine of the same file give.
#[derive(Clone, Debug, PartialEq, Eq)]
pub struct Outcome {
    pub load: u64,
    pub memory: Vec<u8>,
    pub plane: Vec<u8>,
    pub examine: u64,
    pub facts: u64,
    /// A byte beside the lent buffers was changed.
    pub strayed: bool,
}

impl Outcome {
    pub fn number(&self) -> u8 {
        self.load as u8
    }

    pub fn position(&self) -> u64 {
        self.load >> 8
    }

    /// Memory and plane are still the pattern.
    pub fn untouched(&self) -> bool {
        MEMORY.is(&self.memory) && PLANE.is(&self.plane)
    }
}

/// The arguments of one table write; the buffer is filled by a pattern before it.
#[derive(Clone, Debug, PartialEq, Eq)]
pub struct Listing {
    pub addresses: Vec<u64>,
    pub sizes: Vec<u64>,
    pub buffer_length: usize,
}

/// All that a table write gives.
#[derive(Clone, Debug, PartialEq, Eq)]
pub struct Written {
    pub answer: u64,
    pub buffer: Vec<u8>,
    /// A byte beside the lent buffer was changed.
    pub strayed: bool,
}

impl Written {
    pub fn number(&self) -> u8 {
        self.answer as u8
    }

    pub fn index(&self) -> u64 {
        self.answer >> 8
    }

    /// The table of a list that was taken.
    pub fn table(&self) -> Option<&[u8]> {
        if self.number() != 0 {
            return None;
        }
        self.buffer.get(..(self.answer >> 8) as usize)
    }

    /// The buffer from some byte on is still the pattern.
    pub fn untouched_from(&self, start: usize) -> bool {
        let row = BUFFER.row();
        self.buffer.iter().zip(row.iter().cycle()).skip(start).all(|(byte, lent)| byte == lent)
    }
}

/// The arguments of one pick.
#[derive(Clone, Debug, PartialEq, Eq)]
pub struct Picking {
    pub addresses: Vec<u64>,
    pub sizes: Vec<u64>,
    pub random: Vec<u8>,
    pub excluded: u16,
    /// The choices as lent.
    pub choices: Vec<u8>,
}

/// All that a pick gives.
#[derive(Clone, Debug, PartialEq, Eq)]
pub struct Picked {
    pub answer: u64,
    pub choices: Vec<u8>,
    /// A byte beside the lent choices was changed.
    pub strayed: bool,
}

impl Picked {
    pub fn number(&self) -> u8 {
        self.answer as u8
    }

    pub fn index(&self) -> u64 {
        self.answer >> 8
    }
}

/// What a lent buffer holds before a call: byte i is i × factor + first, so that 256 bytes come again
/// and again.
#[derive(Clone, Copy)]
struct Pattern {
    factor: usize,
    first: usize,
}

const BUFFER: Pattern = Pattern { factor: 13, first: 5 };
const MEMORY: Pattern = Pattern { factor: 7, first: 3 };
const PLANE: Pattern = Pattern { factor: 5, first: 1 };

impl Pattern {
    fn row(self) -> [u8; 256] {
        std::array::from_fn(|i| (i * self.factor + self.first) as u8)
    }

    fn extend(self, bytes: &mut Vec<u8>, length: usize) {
        let row = self.row();
        for start in (0..length).step_by(row.len()) {
            bytes.extend(&row[..row.len().min(length - start)]);
        }
    }

    fn is(self, bytes: &[u8]) -> bool {
        let row = self.row();
        bytes.chunks(row.len()).all(|part| *part == row[..part.len()])
    }
}

/// A lent buffer between margins, at an odd address.
struct Lent(Vec<u8>);

const MARGIN: usize = 61;
const BESIDE: u8 = 0xc9;

impl Lent {
    fn new(pattern: Pattern, length: usize) -> Lent {
        Lent::with(length, |all| pattern.extend(all, length))
    }

    fn of(bytes: &[u8]) -> Lent {
        Lent::with(bytes.len(), |all| all.extend(bytes))
    }

    fn with(length: usize, extend: impl FnOnce(&mut Vec<u8>)) -> Lent {
        let mut all = Vec::with_capacity(length + 2 * MARGIN);
        all.extend([BESIDE; MARGIN]);
        extend(&mut all);
        all.extend([BESIDE; MARGIN]);
        Lent(all)
    }

    fn bytes(&mut self) -> &mut [u8] {
        let end = self.0.len() - MARGIN;
        &mut self.0[MARGIN..end]
    }

    fn strayed(&self) -> bool {
        let end = self.0.len() - MARGIN;
        self.0[..MARGIN].iter().chain(&self.0[end..]).any(|&b| b != BESIDE)
    }

    /// The buffer without its margins.
    fn into_bytes(mut self) -> Vec<u8> {
        self.0.truncate(self.0.len() - MARGIN);
        self.0.drain(..MARGIN);
        self.0
    }
}

pub type StepAnswer = Result<Step, Refusal>;

pub trait Loader {
    fn examine(&self, file: &[u8]) -> u64;
    fn facts(&self, file: &[u8]) -> u64;
    fn load(
        &self,
        file: &[u8],
        bias: u64,
        memory: &mut [u8],
        plane: &mut [u8],
        choices: &[u8],
    ) -> u64;
    /// None where the loader has no call for it.
    fn step(&self, table: &[u8], position: u64, last_end: u64, index: u64) -> Option<StepAnswer>;
    fn write_table(&self, addresses: &[u64], sizes: &[u64], buffer: &mut [u8]) -> u64;
    fn pick_tags(
        &self,
        addresses: &[u64],
        sizes: &[u64],
        random: &[u8],
        excluded: u16,
        choices: &mut [u8],
    ) -> u64;

    fn outcome(&self, call: &Call) -> Outcome {
        let mut memory = Lent::new(MEMORY, call.memory_length);
        let mut plane = Lent::new(PLANE, call.plane_length);
        let load = self.load(&call.file, call.bias, memory.bytes(), plane.bytes(), &call.choices);
        let (examine, facts) = (self.examine(&call.file), self.facts(&call.file));
        Outcome {
            load,
            strayed: memory.strayed() || plane.strayed(),
            memory: memory.into_bytes(),
            plane: plane.into_bytes(),
            examine,
            facts,
        }
    }

    fn written(&self, list: &Listing) -> Written {
        let mut buffer = Lent::new(BUFFER, list.buffer_length);
        let answer = self.write_table(&list.addresses, &list.sizes, buffer.bytes());
        Written { answer, strayed: buffer.strayed(), buffer: buffer.into_bytes() }
    }

    fn picked(&self, pick: &Picking) -> Picked {
        let Picking { addresses, sizes, random, excluded, choices } = pick;
        let mut choices = Lent::of(choices);
        let answer = self.pick_tags(addresses, sizes, random, *excluded, choices.bytes());
        Picked { answer, strayed: choices.strayed(), choices: choices.into_bytes() }
    }
}

/// The Rust loader under some rules of modules; of lists of globals, which are written and picked for,
/// under the same or under others.
pub struct Under<M, L = M>(PhantomData<(M, L)>);

impl<M, L> Under<M, L> {
    pub const fn new() -> Under<M, L> {
        Under(PhantomData)
    }
}

impl<M, L> Default for Under<M, L> {
    fn default() -> Under<M, L> {
        Under::new()
    }
}

pub const RIGHT: Under<Right> = Under::new();

impl<M: Rules, L: Rules> Loader for Under<M, L> {
    fn examine(&self, file: &[u8]) -> u64 {
        packed(&examine_by::<M>(file))
    }

    fn facts(&self, file: &[u8]) -> u64 {
        packed_facts(&examine_by::<M>(file))
    }

    fn load(
        &self,
        file: &[u8],
        bias: u64,
        memory: &mut [u8],
        plane: &mut [u8],
        choices: &[u8],
    ) -> u64 {
        packed(&load_by::<M>(file, bias, memory, plane, choices))
    }

    fn step(&self, table: &[u8], position: u64, last_end: u64, index: u64) -> Option<StepAnswer> {
        Some(step_by::<M>(table, position, last_end, index))
    }

    fn write_table(&self, addresses: &[u64], sizes: &[u64], buffer: &mut [u8]) -> u64 {
        packed_count(&write_table_by::<L>(addresses, sizes, buffer))
    }

    fn pick_tags(
        &self,
        addresses: &[u64],
        sizes: &[u64],
        random: &[u8],
        excluded: u16,
        choices: &mut [u8],
    ) -> u64 {
        packed_count(&pick_tags_by::<L>(addresses, sizes, random, excluded, choices))
    }
}
