//! A plain loader, a plain writer of descriptor tables and a plain picker of tags, written from the
//! documents alone, to be compared with the proved ones.

pub mod answers;
pub mod bench;
pub mod by_words;
mod bytes;
pub mod compare;
pub mod count;
pub mod crc;
mod descriptors;
mod dynamic;
pub mod faults;
pub mod ffi;
pub mod generate;
mod headers;
mod load;
mod packed;
pub mod pick_by_words;
mod picker;
pub mod random;
mod relocations;
pub mod rules;
mod untagged;
pub mod vectors;
pub mod writer;

pub use descriptors::{step_by, Step};
pub use load::{examine_by, load_by};
pub use picker::pick_tags_by;
pub use untagged::{load_untagged_by, Untagged};
pub use writer::write_table_by;

use rules::Right;

/// Largest file and largest lent memory, in bytes.
pub const LARGEST: u64 = 16_777_216;
/// Most RELA entries and packed places together, and most descriptors.
pub const MOST: usize = 65_536;
/// Bytes of the smallest page: every bias is a multiple of it.
pub const PAGE: u64 = 4_096;
/// Bytes of a granule.
pub const GRANULE: u64 = 16;
/// End of the addresses that a pointer can hold below its top bits.
pub const ADDRESS_END: u64 = 1 << 48;

#[derive(Clone, Copy, Debug, PartialEq, Eq)]
pub struct Refusal {
    pub number: u8,
    pub position: u64,
}

#[inline]
pub(crate) fn refusal(number: u8, position: u64) -> Refusal {
    Refusal { number, position }
}

#[derive(Clone, Copy, Debug, PartialEq, Eq)]
pub enum Mode {
    Absent,
    Synchronous,
    Asynchronous,
}

#[derive(Clone, Copy, Debug, PartialEq, Eq)]
pub enum Switch {
    Absent,
    Off,
    On,
}

#[derive(Clone, Copy, Debug, PartialEq, Eq)]
pub struct Facts {
    pub mode: Mode,
    pub heap: Switch,
    pub stack: Switch,
    pub globals: u64,
    pub words: u64,
}

/// Checks 1 to 11, 15 and 16 of a file, and its facts.
pub fn examine(file: &[u8]) -> Result<Facts, Refusal> {
    examine_by::<Right>(file)
}

/// Checks 1 to 16, then places, tags and relocates. A refusal leaves both buffers as they were.
pub fn load(
    file: &[u8],
    bias: u64,
    memory: &mut [u8],
    plane: &mut [u8],
    choices: &[u8],
) -> Result<Facts, Refusal> {
    load_by::<Right>(file, bias, memory, plane, choices)
}

/// The load of demand 3's plain loader.
pub fn load_untagged(file: &[u8], bias: u64, length: u64) -> Result<Untagged, Refusal> {
    load_untagged_by::<Right>(file, bias, length)
}

/// Reads one descriptor.
pub fn step(table: &[u8], position: u64, last_end: u64, index: u64) -> Result<Step, Refusal> {
    step_by::<Right>(table, position, last_end, index)
}

/// Writes the descriptor table of a list of globals, in shortest form; its length. A refusal leaves
/// the buffer as it was, and bytes after the table stay.
pub fn write_table(addresses: &[u64], sizes: &[u64], buffer: &mut [u8]) -> Result<usize, Refusal> {
    write_table_by::<Right>(addresses, sizes, buffer)
}

/// Picks a tag for each global: the first one, from its random byte on, that is not excluded and not that
/// of an abutting global before. The number of globals; a refusal leaves the choices as they were.
pub fn pick_tags(
    addresses: &[u64],
    sizes: &[u64],
    random: &[u8],
    excluded: u16,
    choices: &mut [u8],
) -> Result<usize, Refusal> {
    pick_tags_by::<Right>(addresses, sizes, random, excluded, choices)
}
