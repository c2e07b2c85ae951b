//! Checks 1 to 4: file length, identification, header, PT_LOADs.

use crate::bytes::{u16_at, u32_at, u64_at};
use crate::rules::Rules;
use crate::{refusal, Refusal};

const IDENTIFICATION: [u8; 7] = [0x7f, b'E', b'L', b'F', 2, 1, 1];
const DYN: u16 = 3;
const AARCH64: u16 = 183;
pub const HEADER_BYTES: usize = 56;
const MOST_HEADERS: usize = 16;
pub const PT_LOAD: u32 = 1;
pub const PT_DYNAMIC: u32 = 2;
pub const WRITABLE: u32 = 2;

/// A program header as it stands in the file.
#[derive(Clone, Default)]
pub struct Header {
    pub kind: u32,
    pub flags: u32,
    pub offset: u64,
    pub address: u64,
    pub file_size: u64,
    pub memory_size: u64,
    pub align: u64,
}

impl Header {
    #[inline]
    fn read(bytes: &[u8; HEADER_BYTES]) -> Header {
        Header {
            kind: u32_at(bytes, 0),
            flags: u32_at(bytes, 4),
            offset: u64_at(bytes, 8),
            address: u64_at(bytes, 16),
            file_size: u64_at(bytes, 32),
            memory_size: u64_at(bytes, 40),
            align: u64_at(bytes, 48),
        }
    }
}

/// A good PT_LOAD: its sums stay far below 2^64.
#[derive(Clone, Copy, Default)]
pub struct Segment {
    pub writable: bool,
    pub offset: u64,
    pub address: u64,
    pub file_size: u64,
    pub memory_size: u64,
}

impl Segment {
    #[inline]
    pub fn end(&self) -> u64 {
        self.address + self.memory_size
    }

    pub fn contents<'a>(&self, file: &'a [u8]) -> &'a [u8] {
        &file[self.offset as usize..][..self.file_size as usize]
    }

    /// The eight bytes at a place of the memory part as they are loaded: 0 past the file part.
    pub fn loaded<R: Rules>(&self, file: &[u8], place: u64) -> u64 {
        let contents = &file[self.offset as usize..][..R::loaded_size(self, file.len())];
        let rest = contents.get((place - self.address) as usize..).unwrap_or(&[]);
        match rest.first_chunk() {
            Some(bytes) => u64::from_le_bytes(*bytes),
            None => rest.iter().rev().fold(0, |word, &byte| word << 8 | u64::from(byte)),
        }
    }
}

/// The PT_LOADs in table order.
#[derive(Default)]
pub struct Segments {
    list: [Segment; MOST_HEADERS],
    count: usize,
}

impl Segments {
    #[inline]
    pub fn all(&self) -> &[Segment] {
        &self.list[..self.count]
    }

    /// End of the last PT_LOAD, 0 where there is none.
    pub fn end(&self) -> u64 {
        self.all().last().map_or(0, Segment::end)
    }

    /// For lookups one after the other.
    #[inline]
    pub fn lookup(&self) -> Lookup<'_> {
        Lookup { all: self.all(), last: &self.list[0] }
    }

    /// Puts each segment's bytes from its own address onward, and clears what lies between.
    pub fn place<R: Rules>(&self, file: &[u8], memory: &mut [u8]) {
        let mut end = 0;
        for segment in self.all() {
            let (start, bytes) = (segment.address as usize, segment.contents(file));
            clear::<R>(memory, end, start);
            memory[start..][..bytes.len()].copy_from_slice(bytes);
            end = start + bytes.len();
        }
        clear::<R>(memory, end, memory.len());
    }

    /// The file's bytes from an address to the end of the file part that it is in.
    pub fn backed_from<'a, R: Rules>(&self, file: &'a [u8], address: u64) -> Option<&'a [u8]> {
        let size = |s: &Segment| R::backing_end(self.all(), s) - s.address;
        let holds = |s: &&Segment| address.checked_sub(s.address).is_some_and(|at| at < size(s));
        let segment = self.all().iter().find(holds)?;
        let part = file.get(segment.offset as usize..)?;
        part[..part.len().min(size(segment) as usize)].get((address - segment.address) as usize..)
    }

    /// The file's bytes for a range of addresses that is wholly inside one file part.
    pub fn backed<'a, R: Rules>(
        &self,
        file: &'a [u8],
        address: u64,
        size: u64,
    ) -> Option<&'a [u8]> {
        self.backed_from::<R>(file, address)?.get(..usize::try_from(size).ok()?)
    }
}

fn clear<R: Rules>(memory: &mut [u8], start: usize, end: usize) {
    if let Some(gap) = memory.get_mut(start..end).filter(|_| R::CLEARS_MEMORY) {
        gap.fill(0);
    }
}

/// The PT_LOADs, and the one found last, which is tried first.
pub struct Lookup<'s> {
    pub all: &'s [Segment],
    last: &'s Segment,
}

impl<'s> Lookup<'s> {
    /// The first of the PT_LOADs, of which no two overlap, that holds what is asked for.
    #[inline]
    pub fn find(&mut self, holds: impl Fn(&Segment) -> bool) -> Option<&'s Segment> {
        if holds(self.last) {
            return Some(self.last);
        }
        self.search(holds)
    }

    #[cold]
    #[inline(never)]
    fn search(&mut self, holds: impl Fn(&Segment) -> bool) -> Option<&'s Segment> {
        self.last = self.all.iter().find(|segment| holds(segment))?;
        Some(self.last)
    }
}

/// Checks 1 to 3; the program headers' bytes.
pub fn header_table<R: Rules>(file: &[u8]) -> Result<&[u8], Refusal> {
    let length = file.len() as u64;
    if !R::file_length(length) || length < 64 {
        return Err(refusal(1, 0));
    }
    if let Some(wrong) = (0..7).find(|&i| file[i] != IDENTIFICATION[i]) {
        return Err(refusal(2, wrong as u64));
    }
    let count = usize::from(u16_at(file, 56));
    let start = u64_at(file, 32);
    let bytes = count * HEADER_BYTES;
    let good = u16_at(file, 16) == DYN
        && u16_at(file, 18) == AARCH64
        && u32_at(file, 20) == 1
        && usize::from(u16_at(file, 54)) == HEADER_BYTES
        && (1..=MOST_HEADERS).contains(&count)
        && R::headers_end(start, bytes as u64) <= length;
    if !good {
        return Err(refusal(3, 0));
    }
    // Only a wrong rule leaves a table here that is not inside; it has no headers then.
    Ok(file.get(start as usize..).and_then(|rest| rest.get(..bytes)).unwrap_or_default())
}

pub fn headers(table: &[u8]) -> impl Iterator<Item = (u64, Header)> + '_ {
    (0..).zip(table.as_chunks().0.iter().map(Header::read))
}

/// The aligns that check 12 asks of the bias, in table order.
pub fn aligns<R: Rules>(table: &[u8]) -> impl DoubleEndedIterator<Item = u64> + '_ {
    let all = table.as_chunks().0.iter().map(Header::read);
    all.filter(|header| R::align_counts(header.kind)).map(|header| header.align)
}

fn good_load<R: Rules>(header: &Header, end_before: u64, length: u64) -> bool {
    header.memory_size != 0
        && header.file_size <= header.memory_size
        && R::in_file(header.offset, header.file_size, length)
        && R::sum(header.address, header.memory_size) <= R::LOADS_END
        && R::follows(header.address, end_before)
        && R::aligned(header.align, header.offset, header.address)
}

/// Check 4.
pub fn segments<R: Rules>(file: &[u8], table: &[u8]) -> Result<Segments, Refusal> {
    let mut segments = Segments::default();
    for (index, header) in headers(table).filter(|(_, h)| h.kind == PT_LOAD) {
        if !good_load::<R>(&header, segments.end(), file.len() as u64) {
            return Err(refusal(4, index));
        }
        segments.list[segments.count] = Segment {
            writable: R::writable(header.flags),
            offset: header.offset,
            address: header.address,
            file_size: header.file_size,
            memory_size: header.memory_size,
        };
        segments.count += 1;
    }
    Ok(segments)
}
