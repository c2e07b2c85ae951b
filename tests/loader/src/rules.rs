//! The single rules of the loader, of the writer and of the picker that the seeded faults change. The
//! defaults are the right ones; a fault overrides one of them.

use crate::headers::{Lookup, Segment, Segments, PT_LOAD, WRITABLE};
use crate::relocations::{ENTRY, NONE};
use crate::{Mode, ADDRESS_END, GRANULE, LARGEST, MOST, PAGE};

/// What of a descriptor comes before 16.
#[derive(PartialEq, Eq)]
pub enum After {
    Reading,
    /// 9 of an end above 2^48.
    End,
    /// 9 of a global outside every PT_LOAD too.
    Loads,
    /// 8 and 9 of all descriptors.
    All,
}

/// A part of the picker's checks.
#[derive(Clone, Copy)]
pub enum Stage {
    /// 7.
    Lengths,
    /// 2 to 5.
    Globals,
    /// 8.
    Tags,
}

pub trait Rules {
    /// 1: lengths that a file may have.
    fn file_length(length: u64) -> bool {
        (64..=LARGEST).contains(&length)
    }

    /// Sums of addresses and sizes are exact: one from 2^64 on is above every limit.
    fn sum(a: u64, b: u64) -> u64 {
        a.saturating_add(b)
    }

    /// 3: where the program header table ends.
    fn headers_end(start: u64, bytes: u64) -> u64 {
        Self::sum(start, bytes)
    }

    /// 4: where the addresses of PT_LOADs end.
    const LOADS_END: u64 = LARGEST;

    /// 4: a PT_LOAD starts at or after the end of the one before.
    fn follows(address: u64, end_before: u64) -> bool {
        address >= end_before
    }

    /// 4: align is 0, 1 or a power of two modulo which offset and address agree.
    fn aligned(align: u64, offset: u64, address: u64) -> bool {
        align <= 1 || align.is_power_of_two() && offset % align == address % align
    }

    /// 4: what of offset and file size must lie in the file, even when the size is 0.
    fn in_file(offset: u64, file_size: u64, length: u64) -> bool {
        Self::sum(offset, file_size) <= length
    }

    /// Where the part of a segment ends that can back a table.
    fn backing_end(_all: &[Segment], segment: &Segment) -> u64 {
        segment.address + segment.file_size
    }

    /// 5: which header is named when there are two PT_DYNAMICs.
    fn second_dynamic(_first: u64, second: u64) -> u64 {
        second
    }

    /// 5: the fewest and the most bytes of PT_DYNAMIC.
    const DYNAMIC_LEAST: u64 = 16;
    const DYNAMIC_BYTES: u64 = 4_096;
    /// 5: PT_DYNAMIC is read at its address, not at its offset.
    const DYNAMIC_AT_OFFSET: bool = false;
    /// 6: entries end at the first DT_NULL.
    const READS_PAST_NULL: bool = false;
    /// 6: a missing partner is refused.
    const PARTNERS: bool = true;
    /// 6: other tags may be repeated.
    const UNKNOWN_ONCE: bool = false;
    /// 6: tags that are refused besides REL and JMPREL.
    fn refused_tag(_tag: u64) -> bool {
        false
    }

    /// 6: a known tag's value is one of those allowed.
    fn allowed(_tag: u64, allowed: bool) -> bool {
        allowed
    }

    /// 6: a known tag that comes again is refused, whatever its values.
    fn refused_again(_before: u64, _value: u64) -> bool {
        true
    }

    /// 6: known tags whose partners are looked for.
    fn needs_partners(_tag: u64) -> bool {
        true
    }

    /// 6: tags are compared on 64 bits.
    const TAG_BITS: u32 = 64;
    /// 7: the most relocations.
    const MOST_RELOCATIONS: usize = MOST;
    /// 7: a table of 0 bytes is accepted anywhere.
    const EMPTY_ANYWHERE: bool = true;
    /// 15: so is a packed table of 0 bytes.
    const EMPTY_PACKED_ANYWHERE: bool = true;
    /// 15 comes after 7, of the descriptor table too, and before 8.
    const PACKED_EARLY: bool = false;
    const PACKED_LATE: bool = false;
    /// 15: an odd first word is refused.
    const ODD_FIRST: bool = false;
    /// 15: the most RELA entries and packed places together.
    const MOST_PLACES: usize = MOST;

    /// 15: RELA entries that count, skipped ones too.
    fn counted(relocations: &[u8]) -> usize {
        relocations.len() / ENTRY
    }

    /// 15: how many places a packed word names; an empty bitmap costs least.
    fn named(word: u64) -> usize {
        match word {
            1 => 0,
            _ if word & 1 == 0 => 1,
            _ => word.count_ones() as usize - 1,
        }
    }

    /// 15: the position of the word that goes past the most, beside the RELA table.
    fn passed_at(_relocations: &[u8], index: usize) -> u64 {
        index as u64
    }

    /// The run that follows an even word starts 8 bytes after it.
    fn run_after(place: u64) -> u64 {
        place.wrapping_add(8)
    }

    /// What the run moves on by for each odd word.
    const RUN_BYTES: u64 = 504;

    /// The bits of an odd word that name places, bit 1 the lowest.
    fn bits(word: u64) -> u64 {
        word >> 1
    }

    /// How far into the run the place of one of these bits is.
    fn into_run(bit: u32) -> u64 {
        8 * u64::from(bit)
    }

    /// 9: the most descriptors.
    const MOST_DESCRIPTORS: usize = MOST;

    /// 9: the position of bytes left after so many.
    fn left_at(descriptors: u64) -> u64 {
        descriptors
    }

    /// 9: the descriptor that begins with such bytes is not read.
    const READS_LEFT: bool = false;

    /// The tenth byte of a number.
    fn tenth(byte: u8) -> bool {
        byte <= 1
    }

    /// A number is padded where it has more than one byte and the last is 0.
    fn padded(bytes: usize, last: u8) -> bool {
        bytes > 1 && last == 0
    }

    /// 16: a first number that is padded.
    fn long_first(padded: bool) -> bool {
        padded
    }

    /// 16: a second one that is padded, or needless: sizes below 8 go into the first.
    fn long_second(padded: bool, second: u64) -> bool {
        padded || second < 7
    }

    /// 16: its number.
    const LONG: u8 = 16;

    /// 16: its position.
    fn long_at(index: u64) -> u64 {
        index
    }

    /// 16 comes after 8 of both numbers of a descriptor, and before 9.
    const LONG_EARLY: bool = false;
    const LONG_AFTER: After = After::Reading;

    /// 16 is in the walk, and in the reader alone.
    const WALK_LONG: bool = true;
    const ALONE_LONG: bool = true;
    /// There it comes after the tests of the last end that was handed in, and has the index handed in.
    const ALONE_LONG_FIRST: bool = false;
    fn alone_at(index: u64) -> u64 {
        index
    }

    /// The granules of a global whose first number has three low bits of 0.
    fn second_size(second: u64) -> u64 {
        second.saturating_add(1)
    }

    /// Granules between a global and the end of the one before.
    fn distance(granules: u64) -> u64 {
        granules
    }

    /// 9: a global lies inside the memory part of one PT_LOAD.
    fn holds(segments: &mut Lookup, start: u64, end: u64) -> bool {
        segments.find(|s| s.address <= start && end <= s.end()).is_some()
    }

    /// 8, 16 and 9 come from one walk.
    const RANGES_LAST: bool = false;

    /// Entries of kind 0 are skipped; a kind has 32 bits.
    fn skipped(kind: u32) -> bool {
        kind == NONE
    }

    /// 10: what the other kinds are told by.
    fn kind(kind: u32) -> u32 {
        kind
    }

    /// 10 before 11 at each entry.
    const PLACE_FIRST: bool = false;

    /// 10: symbol types that are refused.
    fn refused_type(kind: u8) -> bool {
        kind == 6 || kind == 10
    }

    /// 10: sections that are refused whatever the binding.
    fn refused_section(section: u16) -> bool {
        section >= 0xff00
    }

    /// 10: section 0 needs this binding.
    fn weak(binding: u8) -> bool {
        binding == 2
    }

    /// 11: the flags of a writable segment.
    fn writable(flags: u32) -> bool {
        flags & WRITABLE != 0
    }

    /// 11: a place lies in one writable segment.
    fn place_in(segment: &Segment, place: u64) -> bool {
        segment.writable && segment.address <= place && Self::sum(place, 8) <= segment.end()
    }

    /// 11: an entry's place differs from those met before.
    fn repeats(met: bool) -> bool {
        met
    }

    /// 11: where the places that are met end.
    fn map_end(segments: &Segments) -> u64 {
        segments.end()
    }

    /// 11: the bit by which a place is looked for, and the one that is set for it.
    fn looked_at(place: u64) -> u64 {
        place / 8
    }
    fn marked_at(place: u64) -> u64 {
        place / 8
    }

    /// 11: a word of the map with a bit more.
    fn marked(word: u64, mask: u64) -> u64 {
        word | mask
    }

    /// 11: later entries and packed words do not meet the places of skipped entries.
    const MARKS_SKIPPED: bool = false;
    /// 11: nor do packed words alone.
    const MARKS_SKIPPED_LATE: bool = false;
    /// 11: a packed place differs from those of RELA entries.
    const FORGETS_ENTRIES: bool = false;
    /// 11: a packed place differs from the packed ones before.
    const MARKS_PACKED: bool = true;

    /// 11: a packed place is a multiple of 8.
    fn packed_aligned(place: u64) -> bool {
        place.is_multiple_of(8)
    }

    /// 11: a packed place lies where others do.
    fn packed_in(segment: &Segment, place: u64) -> bool {
        Self::place_in(segment, place)
    }

    /// 11: the position of a packed word, behind all RELA entries.
    fn place_at(relocations: &[[u8; ENTRY]], index: usize) -> u64 {
        (relocations.len() + index) as u64
    }

    /// 13: the same, however many packed places come before.
    fn address_at(relocations: &[[u8; ENTRY]], index: usize, _places: u64) -> u64 {
        (relocations.len() + index) as u64
    }

    /// 11 and 13: packed words come after RELA entries.
    const PACKED_FIRST: bool = false;

    /// The mode by the value of its entry.
    fn mode(value: Option<u64>) -> Mode {
        match value {
            None => Mode::Absent,
            Some(0) => Mode::Synchronous,
            Some(_) => Mode::Asynchronous,
        }
    }

    /// Words relocated are the entries not skipped.
    fn words(relocated: u64, _entries: u64) -> u64 {
        relocated
    }

    /// And the packed places.
    fn packed_words(places: u64) -> u64 {
        places
    }

    /// 12: the most bytes of memory.
    const MEMORY_BYTES: u64 = LARGEST;

    /// 12: memory length against the end of the last PT_LOAD.
    fn memory_reaches(length: u64, end: u64) -> bool {
        length >= end
    }

    /// 12: the headers whose align counts are the PT_LOADs.
    fn align_counts(kind: u32) -> bool {
        kind == PT_LOAD
    }

    /// 12: the bias is a multiple of 4,096 and of the largest align; 0 counts as 1.
    fn bias_fits(aligns: impl DoubleEndedIterator<Item = u64>, bias: u64) -> bool {
        let largest = aligns.fold(1, u64::max);
        bias.is_multiple_of(PAGE) && bias.is_multiple_of(largest)
    }

    /// 12: run-time addresses end at 2^48.
    fn run_fits(bias: u64, length: u64) -> bool {
        Self::sum(bias, length) <= ADDRESS_END
    }

    /// 12 comes before 13.
    const ADDRESSES_FIRST: bool = false;

    /// 13: the address of a value and an addend, none below 0 or from 2^64 on. An addend brings no sum
    /// from 2^64 on back below 2^48.
    fn address(bias: u64, value: u64, addend: i64) -> Option<u64> {
        bias.checked_add(value)?.checked_add_signed(addend)
    }

    /// 13: addresses that a word can hold.
    fn address_fits(address: Option<u64>) -> bool {
        address.is_some_and(|address| address < ADDRESS_END)
    }

    /// 14: the position of a wrong number of choices.
    fn wrong_number(globals: u64, _choices: u64) -> u64 {
        globals
    }

    /// 14: a choice on its own.
    fn choice(choice: u8) -> bool {
        (1..=15).contains(&choice)
    }

    /// 14: a choice beside the one before.
    fn differs(choice: u8, before: u8, abut: bool) -> bool {
        !abut || choice != before
    }

    /// Tags are written after the last check.
    const TAGS_BEFORE_CHOICES: bool = false;
    /// Memory and plane outside segments and globals are cleared.
    const CLEARS_MEMORY: bool = true;
    const CLEARS_PLANE: bool = true;

    /// Tag source of 257 and 1025, none from 2^64 on: no memory is there.
    fn symbol_source(bias: u64, value: u64, _addend: i64) -> Option<u64> {
        bias.checked_add(value)
    }

    /// Tag source of 1027, wrapping at 2^64.
    fn relative_source(bias: u64, addend: i64, at_place: u64) -> Option<u64> {
        Some(bias.wrapping_add_signed(addend).wrapping_add(at_place))
    }

    /// Tag source of a weak undefined symbol.
    fn weak_source(_bias: u64, _value: u64) -> Option<u64> {
        None
    }

    /// Address of a weak undefined symbol's word.
    fn weak_address(_bias: u64, addend: i64) -> Option<u64> {
        Self::address(0, 0, addend)
    }

    /// The bytes of a segment that are loaded from the file.
    fn loaded_size(segment: &Segment, _file: usize) -> usize {
        segment.file_size as usize
    }

    /// Address of a packed place, from its loaded bytes, unsigned.
    fn packed_address(bias: u64, loaded: u64) -> Option<u64> {
        Self::address(bias, loaded, 0)
    }

    /// Tag source of a packed place: its address.
    fn packed_source(bias: u64, loaded: u64) -> Option<u64> {
        bias.checked_add(loaded)
    }

    /// Symbols and packed words are read from the file.
    const SYMBOLS_FROM_MEMORY: bool = false;
    const PACKED_FROM_MEMORY: bool = false;

    /// The plain loader of demand 3 knows the packed tags, and keeps 15.
    const UNTAGGED_KNOWS_PACKED: bool = true;
    const UNTAGGED_CHECKS_PACKED: bool = true;
    /// There too it comes before 10 and 11.
    const UNTAGGED_PACKED_LATE: bool = false;

    // The writer of tables.

    /// 1: the lists differ in length.
    fn unequal(addresses: usize, sizes: usize) -> bool {
        addresses != sizes
    }

    /// 1: its index.
    fn unequal_at(_addresses: usize, _sizes: usize) -> u64 {
        0
    }

    /// 1 comes before 2 to 5.
    const LENGTHS_LAST: bool = false;

    /// 2: a global has a size.
    fn has_size(size: u64) -> bool {
        size != 0
    }

    /// 3: address and size are multiples of 16.
    fn in_granules(address: u64, size: u64) -> bool {
        (address | size).is_multiple_of(GRANULE)
    }

    /// 4: a start at or after the last one's end, which is 0 before the first.
    fn starts_behind(address: u64, last_end: u64) -> bool {
        address >= last_end
    }

    /// 5: an end, which is exact, of at most 2^48.
    fn ends_inside(address: u64, size: u64) -> bool {
        address.checked_add(size).is_some_and(|end| end <= ADDRESS_END)
    }

    /// The order of 2 to 5 at a global.
    const ORDER: [u8; 4] = [2, 3, 4, 5];

    /// The first of them that a global breaks, where it breaks one.
    fn first_broken(address: u64, size: u64, last_end: u64) -> u8 {
        let broken = |number: &u8| match number {
            2 => !Self::has_size(size),
            3 => !Self::in_granules(address, size),
            4 => !Self::starts_behind(address, last_end),
            _ => !Self::ends_inside(address, size),
        };
        Self::ORDER.into_iter().find(broken).expect("a rule is broken")
    }

    /// 2 to 5 come from one walk.
    const RULE_BY_RULE: bool = false;

    /// 6 comes after 2 to 5.
    const ROOM_FIRST: bool = false;

    /// 6: the table fits into the buffer.
    fn room(table: usize, buffer: usize) -> bool {
        table <= buffer
    }

    /// 6: its index.
    fn no_room_at(_globals: usize) -> u64 {
        0
    }

    /// Sizes below it, in granules, go into the first number.
    const SHORT_SIZES: u64 = 8;

    /// The second number, from the size in granules.
    fn second_number(granules: u64) -> u64 {
        granules - 1
    }

    /// Bytes from the last global's end to a start.
    fn distance_from(address: u64, last_end: u64) -> u64 {
        address.wrapping_sub(last_end)
    }

    /// What the next distance is measured from.
    fn next_end(address: u64, size: u64) -> u64 {
        address.wrapping_add(size)
    }

    /// A refusal writes nothing.
    const WRITES_AS_IT_CHECKS: bool = false;
    const WRITES_WHAT_FITS: bool = false;
    /// Bytes after the table stay.
    const CLEARS_REST: bool = false;

    // The picker of tags. Of a global it checks 2 to 5 as the writer does.

    /// 7: the lists of addresses, sizes, random bytes and choices are not all equally long.
    fn lengths_differ([addresses, sizes, random, choices]: [usize; 4]) -> bool {
        addresses != sizes || addresses != random || addresses != choices
    }

    /// 7: its number and its index.
    const LENGTHS: u8 = 7;
    fn lengths_at(_lengths: [usize; 4]) -> u64 {
        0
    }

    /// The order of 7, of 2 to 5 and of 8.
    const STAGES: [Stage; 3] = [Stage::Lengths, Stage::Globals, Stage::Tags];

    /// The tags left by a mask of excluded ones, whose bit 0 counts as set.
    fn left(excluded: u16) -> u16 {
        !excluded & !1
    }

    /// 8: where there is no global, no tag is needed.
    const EMPTY_NEEDS_TAG: bool = false;
    /// 8: tags that are enough where nothing abuts, and whatever abuts.
    const ENOUGH_APART: u32 = 1;
    const ENOUGH_ABUTTING: u32 = 2;

    /// 8: the first global that abuts with the one before.
    fn abutting(addresses: &[u64], sizes: &[u64]) -> Option<usize> {
        let ends = addresses.iter().zip(sizes).map(|(&a, &s)| Self::next_end(a, s));
        let first = ends.zip(addresses.iter().skip(1)).position(|(end, &start)| end == start);
        first.map(|before| before + 1)
    }

    /// 8: its index, from that of a global for which no tag is left.
    fn none_at(_stuck: usize, _globals: usize) -> u64 {
        0
    }

    /// Where the search starts, below 16. The choice as lent has no say.
    fn start(random: u8, _lent: u8) -> u8 {
        random % 16
    }

    /// The first tag left from a start on, going up and wrapping at 16.
    fn first_from(start: u8, left: u16) -> u8 {
        let further = left.rotate_right(start.into()).trailing_zeros() as u8;
        (start + further) % 16
    }

    /// The first one after a tag that is the neighbour's.
    fn first_after(tag: u8, left: u16) -> u8 {
        Self::first_from((tag + 1) % 16, left)
    }

    /// A global has to differ from the one before where they abut.
    fn must_differ(address: u64, last_end: u64) -> bool {
        address == last_end
    }

    /// What the next one differs from, by the choice and by the tag that the search started at.
    fn neighbour(choice: u8, _start: u8) -> u8 {
        choice
    }

    /// The neighbour of a first global at address 0: tag 0 is never left.
    const BEFORE_FIRST: u8 = 0;
    /// The neighbour after does not count.
    const AVOIDS_AFTER: bool = false;

    /// A refusal leaves the choices as lent.
    fn fills_before(_number: u8) -> bool {
        false
    }
    const CLEARS_CHOICES: bool = false;
}

/// The rules as they stand.
pub struct Right;

impl Rules for Right {}
