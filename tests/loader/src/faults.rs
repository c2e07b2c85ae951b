//! Wrong variants of the Rust loader, writer and picker: each breaks one rule. The generated cases must
//! tell each of them from the right one.

use crate::answers::{Loader, Under};
use crate::headers::{Lookup, Segment, Segments, PT_DYNAMIC, PT_LOAD};
use crate::relocations::ENTRY;
use crate::rules::{After, Right, Rules, Stage};
use crate::{load_untagged_by, Mode, Refusal, Untagged, ADDRESS_END, PAGE};

pub struct Fault {
    pub name: &'static str,
    pub loader: &'static (dyn Loader + Sync),
}

/// A fault of the plain loader of demand 3.
pub struct UntaggedFault {
    pub name: &'static str,
    pub load: fn(&[u8], u64, u64) -> Result<Untagged, Refusal>,
}

/// The fault of a name, among those of loads, steps, writes and picks.
pub fn named(name: &str) -> Option<&'static Fault> {
    let lists = [FAULTS, STEP_FAULTS, WRITER_FAULTS, PICKER_FAULTS];
    lists.into_iter().flatten().find(|fault| fault.name == name)
}

/// A bias by 4,096 and one align.
fn bias_by(align: Option<u64>, bias: u64) -> bool {
    bias.is_multiple_of(PAGE) && bias.is_multiple_of(align.unwrap_or(0).max(1))
}

/// RELA entries that are not skipped.
fn not_skipped(relocations: &[u8]) -> usize {
    let kinds = relocations.chunks_exact(ENTRY).map(|entry| &entry[8..12]);
    kinds.filter(|&kind| kind != [0; 4]).count()
}

/// A packed tag.
fn packed_tag(tag: u64) -> bool {
    (35..=37).contains(&tag)
}

/// Rules with the given items put in.
macro_rules! rules {
    ($($kind:ident { $($item:item)* })*) => {
        $(
            pub struct $kind;
            impl Rules for $kind { $($item)* }
        )*
    };
}

/// What a fault is of; all else is right, and need not be compiled again.
type OfModules<R> = Under<R, Right>;
type OfLists<R> = Under<Right, R>;

/// Defines each fault as the rules with the given items put in, and lists them all.
macro_rules! faults {
    ($list:ident $of:ident: $($kind:ident $name:literal { $($item:item)* })*) => {
        rules! { $($kind { $($item)* })* }
        pub const $list: &[Fault] =
            &[$(Fault { name: $name, loader: &$of::<$kind>::new() }),*];
    };
}

/// The same for the plain loader of demand 3.
macro_rules! untagged_faults {
    ($list:ident: $($kind:ident $name:literal { $($item:item)* })*) => {
        rules! { $($kind { $($item)* })* }
        pub const $list: &[UntaggedFault] =
            &[$(UntaggedFault { name: $name, load: load_untagged_by::<$kind> }),*];
    };
}

// Loads tell these apart.
faults! {
    FAULTS OfModules:
    ForgetsPlace "the tag source forgets *P" {
        fn relative_source(bias: u64, addend: i64, _: u64) -> Option<u64> {
            Some(bias.wrapping_add_signed(addend))
        }
    }
    UnsignedPlace "*P unsigned with a range check" {
        fn relative_source(bias: u64, addend: i64, at_place: u64) -> Option<u64> {
            u64::try_from(i128::from(bias) + i128::from(addend) + i128::from(at_place)).ok()
        }
    }
    SourceBelowZero "RELATIVE's tag source below 0 counts as 0" {
        fn relative_source(bias: u64, addend: i64, at_place: u64) -> Option<u64> {
            let source = i128::from(bias) + i128::from(addend) + i128::from(at_place as i64);
            Some(source.max(0) as u64)
        }
    }
    SecondIsSize "the second number is the size" {
        fn second_size(second: u64) -> u64 {
            second
        }
    }
    WeakGranuleZero "weak undefined takes granule 0's tag" {
        fn weak_source(_: u64, _: u64) -> Option<u64> {
            Some(0)
        }
    }
    WeakAsDefined "weak undefined takes its value's tag" {
        fn weak_source(bias: u64, value: u64) -> Option<u64> {
            bias.checked_add(value)
        }
    }
    WeakBiased "weak undefined gets the bias" {
        fn weak_address(bias: u64, addend: i64) -> Option<u64> {
            Self::address(bias, 0, addend)
        }
    }
    AddressAtLimit "13 with at most 2^48" {
        fn address_fits(address: Option<u64>) -> bool {
            address.is_some_and(|address| address <= ADDRESS_END)
        }
    }
    AddressBelowZero "13 on wrapped addresses" {
        fn address(bias: u64, value: u64, addend: i64) -> Option<u64> {
            Some(bias.wrapping_add(value).wrapping_add_signed(addend))
        }
    }
    ComparesSkipped "the repeat test compares skipped entries" {
        const MARKS_SKIPPED: bool = true;
    }
    NoRepeats "no repeat test" {
        fn repeats(_: bool) -> bool {
            false
        }
    }
    PlaceFirst "11 before 10" {
        const PLACE_FIRST: bool = true;
    }
    NoPartners "no partner rule" {
        const PARTNERS: bool = false;
    }
    SymbolsFromMemory "symbols read from relocated memory" {
        const SYMBOLS_FROM_MEMORY: bool = true;
    }
    TagsEarly "tags written before 14" {
        const TAGS_BEFORE_CHOICES: bool = true;
    }
    SourceWithAddend "ABS64's tag source with the addend" {
        fn symbol_source(bias: u64, value: u64, addend: i64) -> Option<u64> {
            Self::address(bias, value, addend)
        }
    }
    FileAtLimit "a file below 16,777,216 bytes only" {
        fn file_length(length: u64) -> bool {
            (64..16_777_216).contains(&length)
        }
    }
    FileSmall "a file of 1,048,576 bytes at most" {
        fn file_length(length: u64) -> bool {
            (64..=1_048_576).contains(&length)
        }
    }
    FileOver "a file of any length" {
        fn file_length(length: u64) -> bool {
            length >= 64
        }
    }
    WrappedSums "sums wrap at 2^64" {
        fn sum(a: u64, b: u64) -> u64 {
            a.wrapping_add(b)
        }
    }
    HeadersWrap "the program header table's end wraps at 2^64" {
        fn headers_end(start: u64, bytes: u64) -> u64 {
            start.wrapping_add(bytes)
        }
    }
    LoadsHigher "PT_LOADs may end one past 16,777,216" {
        const LOADS_END: u64 = 16_777_217;
    }
    LoadsLower "PT_LOADs end below 16,777,216" {
        const LOADS_END: u64 = 16_777_215;
    }
    LoadsLow "PT_LOADs end at 1,048,576" {
        const LOADS_END: u64 = 1_048_576;
    }
    MemoryLonger "a memory of 16,777,232 bytes" {
        const MEMORY_BYTES: u64 = 16_777_232;
    }
    MemoryAtLimit "a memory of 16,777,200 bytes at most" {
        const MEMORY_BYTES: u64 = 16_777_200;
    }
    MemorySmall "a memory of 1,048,576 bytes at most" {
        const MEMORY_BYTES: u64 = 1_048_576;
    }
    LoadsOverlap "PT_LOADs may overlap" {
        fn follows(_: u64, _: u64) -> bool {
            true
        }
    }
    LoadsApart "PT_LOADs may not abut" {
        fn follows(address: u64, end_before: u64) -> bool {
            end_before == 0 || address > end_before
        }
    }
    AnyPower "offset and address need not agree" {
        fn aligned(align: u64, _: u64, _: u64) -> bool {
            align <= 1 || align.is_power_of_two()
        }
    }
    AnyAlign "align need not be a power of two" {
        fn aligned(align: u64, offset: u64, address: u64) -> bool {
            align <= 1 || offset % align == address % align
        }
    }
    EmptyFree "an empty file part may have any offset" {
        fn in_file(offset: u64, file_size: u64, length: u64) -> bool {
            file_size == 0 || Self::sum(offset, file_size) <= length
        }
    }
    MemoryBacks "the memory part backs tables" {
        fn backing_end(_: &[Segment], segment: &Segment) -> u64 {
            segment.end()
        }
    }
    LoadsBack "abutting file parts back a table together" {
        fn backing_end(all: &[Segment], segment: &Segment) -> u64 {
            all.iter().fold(segment.address + segment.file_size, |end, next| {
                end + if next.address == end { next.file_size } else { 0 }
            })
        }
    }
    ModeZeroAbsent "a mode of 0 is told as absent" {
        fn mode(value: Option<u64>) -> Mode {
            match value {
                None | Some(0) => Mode::Absent,
                Some(_) => Mode::Asynchronous,
            }
        }
    }
    SkippedCounted "skipped entries count as words" {
        fn words(_: u64, entries: u64) -> u64 {
            entries
        }
    }
    ChoicesNamed "14 names the number of choices" {
        fn wrong_number(_: u64, choices: u64) -> u64 {
            choices
        }
    }
    FirstDynamic "two PT_DYNAMICs name the first" {
        fn second_dynamic(first: u64, _: u64) -> u64 {
            first
        }
    }
    DynamicAtOffset "PT_DYNAMIC read at its offset" {
        const DYNAMIC_AT_OFFSET: bool = true;
    }
    DynamicLarger "PT_DYNAMIC of 4,112 bytes" {
        const DYNAMIC_BYTES: u64 = 4_112;
    }
    DynamicSmaller "PT_DYNAMIC of 4,080 bytes at most" {
        const DYNAMIC_BYTES: u64 = 4_080;
    }
    DynamicAboveOne "PT_DYNAMIC of 16 bytes is refused" {
        const DYNAMIC_LEAST: u64 = 32;
    }
    PastNull "entries after DT_NULL are read" {
        const READS_PAST_NULL: bool = true;
    }
    UnknownOnce "unknown tags may not be repeated" {
        const UNKNOWN_ONCE: bool = true;
    }
    AgainEqual "a repeated tag is refused only where the values differ" {
        fn refused_again(before: u64, value: u64) -> bool {
            before != value
        }
    }
    ShortTags "tags compared on 32 bits" {
        const TAG_BITS: u32 = 32;
    }
    MoreRelocations "65,537 relocations" {
        const MOST_RELOCATIONS: usize = 65_537;
    }
    FewerRelocations "65,535 relocations at most" {
        const MOST_RELOCATIONS: usize = 65_535;
    }
    FewRelocations "1,024 relocations at most" {
        const MOST_RELOCATIONS: usize = 1_024;
    }
    EmptyBacked "a table of 0 bytes must be backed" {
        const EMPTY_ANYWHERE: bool = false;
    }
    MoreDescriptors "65,537 descriptors" {
        const MOST_DESCRIPTORS: usize = 65_537;
    }
    FewerDescriptors "65,535 descriptors at most" {
        const MOST_DESCRIPTORS: usize = 65_535;
    }
    FewDescriptors "1,024 descriptors at most" {
        const MOST_DESCRIPTORS: usize = 1_024;
    }
    LeftAtOld "9 at 1,024 for bytes left" {
        fn left_at(_: u64) -> u64 {
            1_024
        }
    }
    LeftAtLast "9 at the last descriptor for bytes left" {
        fn left_at(descriptors: u64) -> u64 {
            descriptors - 1
        }
    }
    TenthFree "any tenth byte" {
        fn tenth(byte: u8) -> bool {
            byte < 0x80
        }
    }
    TenthZero "the tenth byte must be 0" {
        fn tenth(byte: u8) -> bool {
            byte == 0
        }
    }
    LongAsEight "8 in place of 16" {
        const LONG: u8 = 8;
    }
    NoLong "no 16 in the walk" {
        const WALK_LONG: bool = false;
    }
    PaddedFirst "a padded first number is taken" {
        fn long_first(_: bool) -> bool {
            false
        }
    }
    PaddedSecond "a padded second number is taken" {
        fn long_second(_: bool, second: u64) -> bool {
            second < 7
        }
    }
    PaddedByOne "padding is seen in numbers of two bytes alone" {
        fn padded(bytes: usize, last: u8) -> bool {
            bytes == 2 && last == 0
        }
    }
    PaddedToNine "padding to ten bytes is not seen" {
        fn padded(bytes: usize, last: u8) -> bool {
            (2..10).contains(&bytes) && last == 0
        }
    }
    PaddedZero "a byte 0 alone counts as padding" {
        fn padded(_: usize, last: u8) -> bool {
            last == 0
        }
    }
    SecondAny "any second number is taken" {
        fn long_second(padded: bool, _: u64) -> bool {
            padded
        }
    }
    SecondSix "a second number of 6 is taken" {
        fn long_second(padded: bool, second: u64) -> bool {
            padded || second < 6
        }
    }
    SecondSeven "a second number of 7 is refused" {
        fn long_second(padded: bool, second: u64) -> bool {
            padded || second <= 7
        }
    }
    LongBeforeCut "16 of a first number before 8 of the second" {
        const LONG_EARLY: bool = true;
    }
    LongAfterEnd "9 of an end above 2^48 before 16" {
        const LONG_AFTER: After = After::End;
    }
    LongAfterLoads "9 before 16 at each descriptor" {
        const LONG_AFTER: After = After::Loads;
    }
    LongLast "16 after all of 8 and 9" {
        const LONG_AFTER: After = After::All;
    }
    LongAtZero "16 always at 0" {
        fn long_at(_: u64) -> u64 {
            0
        }
    }
    LongAtNext "16 at the descriptor after" {
        fn long_at(index: u64) -> u64 {
            index + 1
        }
    }
    LeftRead "the descriptor after the most is read" {
        const READS_LEFT: bool = true;
    }
    SecondWraps "the size wraps at 2^64" {
        fn second_size(second: u64) -> u64 {
            second.wrapping_add(1)
        }
    }
    DistanceWraps "the distance wraps at 2^64" {
        fn distance(granules: u64) -> u64 {
            granules.wrapping_mul(16) / 16
        }
    }
    GlobalOverLoads "a global may lie over two PT_LOADs" {
        fn holds(segments: &mut Lookup, start: u64, end: u64) -> bool {
            let mut at = start;
            for s in segments.all {
                if s.address <= at && at < s.end() {
                    at = s.end();
                }
            }
            end <= at
        }
    }
    GlobalStart "only a global's start is tested" {
        fn holds(segments: &mut Lookup, start: u64, _: u64) -> bool {
            segments.find(|s| s.address <= start && start < s.end()).is_some()
        }
    }
    RangesLast "9 after all of 8" {
        const RANGES_LAST: bool = true;
    }
    ShortKinds "relocation kinds compared on 16 bits" {
        fn kind(kind: u32) -> u32 {
            u32::from(kind as u16)
        }
    }
    ShortSkipped "kind 0 is told on 16 bits" {
        fn skipped(kind: u32) -> bool {
            kind as u16 == 0
        }
    }
    TypeTen "IFUNC symbols are allowed" {
        fn refused_type(kind: u8) -> bool {
            kind == 6
        }
    }
    TypeSix "TLS symbols are allowed" {
        fn refused_type(kind: u8) -> bool {
            kind == 10
        }
    }
    SectionAfter "section 0xff00 is allowed" {
        fn refused_section(section: u16) -> bool {
            section > 0xff00
        }
    }
    SectionBefore "section 0xfeff is refused" {
        fn refused_section(section: u16) -> bool {
            section >= 0xfeff
        }
    }
    SectionsToProcessor "sections from 0xff20 up are allowed" {
        fn refused_section(section: u16) -> bool {
            (0xff00..=0xff1f).contains(&section)
        }
    }
    AnyBinding "undefined symbols of any binding" {
        fn weak(_: u8) -> bool {
            true
        }
    }
    WritableAbove "writable is told by flags above 4" {
        fn writable(flags: u32) -> bool {
            flags > 4
        }
    }
    WritableReadable "only a readable segment is writable" {
        fn writable(flags: u32) -> bool {
            flags & 6 == 6
        }
    }
    ReadOnlyPlace "places in read-only segments" {
        fn place_in(segment: &Segment, place: u64) -> bool {
            segment.address <= place && Self::sum(place, 8) <= segment.end()
        }
    }
    PlaceStart "only a place's first byte is tested" {
        fn place_in(segment: &Segment, place: u64) -> bool {
            segment.writable && segment.address <= place && place < segment.end()
        }
    }
    PlaceInFile "a place must be in the file part" {
        fn place_in(segment: &Segment, place: u64) -> bool {
            let end = segment.address + segment.file_size;
            segment.writable && segment.address <= place && Self::sum(place, 8) <= end
        }
    }
    MemoryOver "memory must go past the last end" {
        fn memory_reaches(length: u64, end: u64) -> bool {
            length > end
        }
    }
    MemoryShort "memory may end a granule early" {
        fn memory_reaches(length: u64, end: u64) -> bool {
            length + 16 >= end
        }
    }
    BiasPage "the bias by 4,096 alone" {
        fn bias_fits(_: impl DoubleEndedIterator<Item = u64>, bias: u64) -> bool {
            bias.is_multiple_of(PAGE)
        }
    }
    BiasAlign "the bias by the largest align alone" {
        fn bias_fits(aligns: impl DoubleEndedIterator<Item = u64>, bias: u64) -> bool {
            bias.is_multiple_of(aligns.fold(1, u64::max))
        }
    }
    BiasFirst "the bias by the first align" {
        fn bias_fits(mut aligns: impl DoubleEndedIterator<Item = u64>, bias: u64) -> bool {
            bias_by(aligns.next(), bias)
        }
    }
    BiasLast "the bias by the last align" {
        fn bias_fits(mut aligns: impl DoubleEndedIterator<Item = u64>, bias: u64) -> bool {
            bias_by(aligns.next_back(), bias)
        }
    }
    BiasSmallest "the bias by the smallest align" {
        fn bias_fits(aligns: impl DoubleEndedIterator<Item = u64>, bias: u64) -> bool {
            bias_by(aligns.min(), bias)
        }
    }
    BiasHalf "the bias by half the largest align" {
        fn bias_fits(aligns: impl DoubleEndedIterator<Item = u64>, bias: u64) -> bool {
            bias_by(aligns.max().map(|align| align / 2), bias)
        }
    }
    BiasTwice "the bias by twice the largest align" {
        fn bias_fits(aligns: impl DoubleEndedIterator<Item = u64>, bias: u64) -> bool {
            bias_by(aligns.max().map(|align| align.saturating_mul(2)), bias)
        }
    }
    BiasSixteen "the bias by an align of at most 16 KiB" {
        fn bias_fits(aligns: impl DoubleEndedIterator<Item = u64>, bias: u64) -> bool {
            bias_by(aligns.max().map(|align| align.min(16_384)), bias)
        }
    }
    BiasSmall "aligns above 65,536 are passed over" {
        fn bias_fits(aligns: impl DoubleEndedIterator<Item = u64>, bias: u64) -> bool {
            bias_by(aligns.filter(|&align| align <= 65_536).max(), bias)
        }
    }
    BiasShort "aligns of 32 bits" {
        fn bias_fits(aligns: impl DoubleEndedIterator<Item = u64>, bias: u64) -> bool {
            bias_by(aligns.map(|align| align & 0xffff_ffff).max(), bias)
        }
    }
    BiasFar "aligns above 2^48 are passed over" {
        fn bias_fits(aligns: impl DoubleEndedIterator<Item = u64>, bias: u64) -> bool {
            bias_by(aligns.filter(|&align| align <= ADDRESS_END).max(), bias)
        }
    }
    BiasNear "an align above 2^48 is refused at every bias" {
        fn bias_fits(mut aligns: impl DoubleEndedIterator<Item = u64>, bias: u64) -> bool {
            aligns.all(|align| align <= ADDRESS_END && bias_by(Some(align), bias))
        }
    }
    BiasZero "an align of 0 leaves bias 0 alone" {
        fn bias_fits(mut aligns: impl DoubleEndedIterator<Item = u64>, bias: u64) -> bool {
            bias.is_multiple_of(PAGE) && aligns.all(|align| bias.is_multiple_of(align))
        }
    }
    BiasSum "the bias by the sum of all aligns" {
        fn bias_fits(aligns: impl DoubleEndedIterator<Item = u64>, bias: u64) -> bool {
            bias_by(Some(aligns.fold(0, u64::wrapping_add)), bias)
        }
    }
    AnyHeader "aligns of other headers count" {
        fn align_counts(_: u32) -> bool {
            true
        }
    }
    DynamicAlign "PT_DYNAMIC's align counts" {
        fn align_counts(kind: u32) -> bool {
            [PT_LOAD, PT_DYNAMIC].contains(&kind)
        }
    }
    RunBelow "run-time addresses end below 2^48" {
        fn run_fits(bias: u64, length: u64) -> bool {
            Self::sum(bias, length) < ADDRESS_END
        }
    }
    RunFree "only the bias is below 2^48" {
        fn run_fits(bias: u64, _: u64) -> bool {
            bias < ADDRESS_END
        }
    }
    AddressesFirst "13 before 12" {
        const ADDRESSES_FIRST: bool = true;
    }
    ChoiceZero "choice 0 is allowed" {
        fn choice(choice: u8) -> bool {
            choice <= 15
        }
    }
    ChoiceSixteen "choice 16 is allowed" {
        fn choice(choice: u8) -> bool {
            (1..=16).contains(&choice)
        }
    }
    ChoiceLow "only a choice's low bits are tested" {
        fn choice(choice: u8) -> bool {
            choice & 15 != 0
        }
    }
    AbutFree "abutting globals may share a tag" {
        fn differs(_: u8, _: u8, _: bool) -> bool {
            true
        }
    }
    AbutAlways "neighbours over a gap must differ" {
        fn differs(choice: u8, before: u8, _: bool) -> bool {
            choice != before
        }
    }
    MemoryKept "other memory is not cleared" {
        const CLEARS_MEMORY: bool = false;
    }
    PlaneKept "other granules are not cleared" {
        const CLEARS_PLANE: bool = false;
    }
    PackedRefused "tag 36 is a bad entry" {
        fn refused_tag(tag: u64) -> bool {
            tag == 36
        }
    }
    AnyPackedSize "packed bytes need not be a multiple of 8" {
        fn allowed(tag: u64, allowed: bool) -> bool {
            tag == 35 || allowed
        }
    }
    AnyPackedEntry "any packed entry size" {
        fn allowed(tag: u64, allowed: bool) -> bool {
            tag == 37 || allowed
        }
    }
    PackedAlone "packed tags need no partners" {
        fn needs_partners(tag: u64) -> bool {
            !packed_tag(tag)
        }
    }
    PackedEmptyBacked "a packed table of 0 bytes must be backed" {
        const EMPTY_PACKED_ANYWHERE: bool = false;
    }
    PackedEarly "15 before 7 of the descriptor table" {
        const PACKED_EARLY: bool = true;
    }
    PackedLate "15 after 8 and 9" {
        const PACKED_LATE: bool = true;
    }
    OddFirst "an odd first word is taken" {
        const ODD_FIRST: bool = true;
    }
    MorePlaces "65,537 entries and packed places" {
        const MOST_PLACES: usize = 65_537;
    }
    FewerPlaces "65,535 entries and packed places at most" {
        const MOST_PLACES: usize = 65_535;
    }
    FewPlaces "1,024 entries and packed places at most" {
        const MOST_PLACES: usize = 1_024;
    }
    ShortCount "entries beside packed places counted in 16 bits" {
        fn counted(relocations: &[u8]) -> usize {
            usize::from((relocations.len() / ENTRY) as u16)
        }
    }
    ShortWords "words counted in 16 bits" {
        fn words(relocated: u64, _: u64) -> u64 {
            u64::from(relocated as u16)
        }
    }
    ShortPackedWords "packed words counted in 16 bits" {
        fn packed_words(places: u64) -> u64 {
            u64::from(places as u16)
        }
    }
    ShortPlaceAt "11 of a packed word in 16 bits" {
        fn place_at(relocations: &[[u8; ENTRY]], index: usize) -> u64 {
            u64::from((relocations.len() + index) as u16)
        }
    }
    ShortPassedAt "15 in 16 bits" {
        fn passed_at(_: &[u8], index: usize) -> u64 {
            u64::from(index as u16)
        }
    }
    SkippedFree "skipped entries do not count beside packed places" {
        fn counted(relocations: &[u8]) -> usize {
            not_skipped(relocations)
        }
    }
    EntriesFree "entries do not count beside packed places" {
        fn counted(_: &[u8]) -> usize {
            0
        }
    }
    EvenFree "even words do not count" {
        fn named(word: u64) -> usize {
            if word & 1 == 0 { 0 } else { word.count_ones() as usize - 1 }
        }
    }
    LowBitCounts "a bitmap's low bit counts" {
        fn named(word: u64) -> usize {
            if word & 1 == 0 { 1 } else { word.count_ones() as usize }
        }
    }
    WordsCount "each packed word counts as one place" {
        fn named(_: u64) -> usize {
            1
        }
    }
    PassedAtZero "15 always at 0" {
        fn passed_at(_: &[u8], _: usize) -> u64 {
            0
        }
    }
    PassedNext "15 at the word after" {
        fn passed_at(_: &[u8], index: usize) -> u64 {
            index as u64 + 1
        }
    }
    PassedBehind "15 with the number of entries" {
        fn passed_at(relocations: &[u8], index: usize) -> u64 {
            (relocations.len() / ENTRY + index) as u64
        }
    }
    LowBitNames "a bitmap of 64 places" {
        fn bits(word: u64) -> u64 {
            word
        }
    }
    ShortBitmap "a bitmap of 62 places" {
        fn bits(word: u64) -> u64 {
            word << 1 >> 2
        }
    }
    LongRun "the run moves on by 512" {
        const RUN_BYTES: u64 = 512;
    }
    ShortRun "the run moves on by 496" {
        const RUN_BYTES: u64 = 496;
    }
    RunAtPlace "the run starts at the even word's place" {
        fn run_after(place: u64) -> u64 {
            place
        }
    }
    BitsFromOne "bit i names 8 * i into the run" {
        fn into_run(bit: u32) -> u64 {
            8 * (u64::from(bit) + 1)
        }
    }
    PackedUneven "packed places need not be multiples of 8" {
        fn packed_aligned(_: u64) -> bool {
            true
        }
    }
    PackedReadOnly "packed places in read-only segments" {
        fn packed_in(segment: &Segment, place: u64) -> bool {
            segment.address <= place && Self::sum(place, 8) <= segment.end()
        }
    }
    PackedInFile "a packed place must be in the file part" {
        fn packed_in(segment: &Segment, place: u64) -> bool {
            let end = segment.address + segment.file_size;
            segment.writable && segment.address <= place && Self::sum(place, 8) <= end
        }
    }
    RepeatsEntry "a packed place may be a RELA entry's" {
        const FORGETS_ENTRIES: bool = true;
    }
    RepeatsSkipped "a packed place may not be a skipped entry's" {
        const MARKS_SKIPPED_LATE: bool = true;
    }
    RepeatsPacked "packed places may be repeated" {
        const MARKS_PACKED: bool = false;
    }
    MarkNextWord "a place is marked in the next word of the map" {
        fn marked_at(place: u64) -> u64 {
            place / 8 + 64
        }
    }
    LookNextPlace "the place after is looked for" {
        fn looked_at(place: u64) -> u64 {
            place / 8 + 1
        }
    }
    LookPlaceBefore "the place before is looked for" {
        fn looked_at(place: u64) -> u64 {
            (place / 8).saturating_sub(1)
        }
    }
    LookWordBefore "a place is looked for in the word of the map before" {
        fn looked_at(place: u64) -> u64 {
            (place / 8).saturating_sub(64)
        }
    }
    MapOfSixteens "a mark for each 16 bytes" {
        fn looked_at(place: u64) -> u64 {
            place / 16
        }
        fn marked_at(place: u64) -> u64 {
            place / 16
        }
    }
    MapWraps "places 64 KiB apart share a mark" {
        fn looked_at(place: u64) -> u64 {
            place / 8 % 8_192
        }
        fn marked_at(place: u64) -> u64 {
            place / 8 % 8_192
        }
    }
    MapWrapsByMib "places 1 MiB apart share a mark" {
        fn looked_at(place: u64) -> u64 {
            place / 8 % (1 << 17)
        }
        fn marked_at(place: u64) -> u64 {
            place / 8 % (1 << 17)
        }
    }
    MapWrapsByFour "places 4 MiB apart share a mark" {
        fn looked_at(place: u64) -> u64 {
            place / 8 % (1 << 19)
        }
        fn marked_at(place: u64) -> u64 {
            place / 8 % (1 << 19)
        }
    }
    MapPassesSides "the places just before a MiB are not looked for" {
        fn looked_at(place: u64) -> u64 {
            match place % (1 << 20) {
                0xf_fff8 => (place - 64) / 8,
                _ => place / 8,
            }
        }
    }
    MapHalfWords "places 256 bytes apart in a word of the map share a mark" {
        fn looked_at(place: u64) -> u64 {
            place / 512 * 64 + place / 8 % 32
        }
        fn marked_at(place: u64) -> u64 {
            place / 512 * 64 + place / 8 % 32
        }
    }
    MarkAlone "a mark takes away the others of its word" {
        fn marked(_: u64, mask: u64) -> u64 {
            mask
        }
    }
    MapOfFirst "the map ends with the first PT_LOAD" {
        fn map_end(segments: &Segments) -> u64 {
            segments.all().first().map_or(0, Segment::end)
        }
    }
    PlaceBare "11 at the bare index of a packed word" {
        fn place_at(_: &[[u8; ENTRY]], index: usize) -> u64 {
            index as u64
        }
    }
    PlaceSkips "11 counts entries not skipped before a packed word" {
        fn place_at(relocations: &[[u8; ENTRY]], index: usize) -> u64 {
            (not_skipped(relocations.as_flattened()) + index) as u64
        }
    }
    AddressBare "13 at the bare index of a packed word" {
        fn address_at(_: &[[u8; ENTRY]], index: usize, _: u64) -> u64 {
            index as u64
        }
    }
    AddressSkips "13 counts entries not skipped before a packed word" {
        fn address_at(relocations: &[[u8; ENTRY]], index: usize, _: u64) -> u64 {
            (not_skipped(relocations.as_flattened()) + index) as u64
        }
    }
    AddressByPlace "13 counts packed places and not words" {
        fn address_at(relocations: &[[u8; ENTRY]], _: usize, places: u64) -> u64 {
            relocations.len() as u64 + places
        }
    }
    PackedFirst "packed words before RELA entries" {
        const PACKED_FIRST: bool = true;
    }
    PackedUncounted "packed places do not count as words" {
        fn packed_words(_: u64) -> u64 {
            0
        }
    }
    LoadedOver "13 reads past the file part" {
        fn loaded_size(segment: &Segment, file: usize) -> usize {
            file - segment.offset as usize
        }
    }
    LoadedSigned "loaded bytes read signed" {
        fn packed_address(bias: u64, loaded: u64) -> Option<u64> {
            Self::address(bias, 0, loaded as i64)
        }
    }
    LoadedBare "a packed address without the bias" {
        fn packed_address(_: u64, loaded: u64) -> Option<u64> {
            Some(loaded)
        }
    }
    PackedBareSource "a packed tag source without the bias" {
        fn packed_source(_: u64, loaded: u64) -> Option<u64> {
            Some(loaded)
        }
    }
    PackedRelative "a packed tag source by RELATIVE's rule" {
        fn packed_source(bias: u64, loaded: u64) -> Option<u64> {
            Some(bias.wrapping_add(loaded).wrapping_add(loaded))
        }
    }
    PackedUntagged "packed words have tag 0" {
        fn packed_source(_: u64, _: u64) -> Option<u64> {
            None
        }
    }
    PackedFromMemory "packed words read from relocated memory" {
        const PACKED_FROM_MEMORY: bool = true;
    }
}

// Steps of the descriptor reader alone tell these apart.
faults! {
    STEP_FAULTS OfModules:
    AloneNoLong "no 16 in the reader alone" {
        const ALONE_LONG: bool = false;
    }
    AloneLongFirst "16 before 9 of the last end handed in" {
        const ALONE_LONG_FIRST: bool = true;
    }
    AloneLongAtZero "16 of the reader alone at 0" {
        fn alone_at(_: u64) -> u64 {
            0
        }
    }
}

// Loads by the plain loader of demand 3 tell these apart.
untagged_faults! {
    UNTAGGED_FAULTS:
    UntaggedUnknown "the plain loader passes over tags 35 to 37" {
        const UNTAGGED_KNOWS_PACKED: bool = false;
    }
    UntaggedUnchecked "the plain loader has no 15" {
        const UNTAGGED_CHECKS_PACKED: bool = false;
    }
    UntaggedLate "the plain loader has 15 after 11" {
        const UNTAGGED_PACKED_LATE: bool = true;
    }
    UntaggedFile "the plain loader takes files of 1,048,576 bytes at most" {
        fn file_length(length: u64) -> bool {
            (64..=1_048_576).contains(&length)
        }
    }
    UntaggedLoads "the plain loader has PT_LOADs end at 1,048,576" {
        const LOADS_END: u64 = 1_048_576;
    }
    UntaggedRelocations "the plain loader takes 1,024 relocations at most" {
        const MOST_RELOCATIONS: usize = 1_024;
    }
    UntaggedPlaces "the plain loader takes 1,024 entries and packed places at most" {
        const MOST_PLACES: usize = 1_024;
    }
    UntaggedMemory "the plain loader takes memories of 1,048,576 bytes at most" {
        const MEMORY_BYTES: u64 = 1_048_576;
    }
    UntaggedMorePlaces "the plain loader takes 65,537 entries and packed places" {
        const MOST_PLACES: usize = 65_537;
    }
    UntaggedMoreRelocations "the plain loader takes 65,537 relocations" {
        const MOST_RELOCATIONS: usize = 65_537;
    }
    UntaggedMoreMemory "the plain loader takes a memory of 16,777,232 bytes" {
        const MEMORY_BYTES: u64 = 16_777_232;
    }
    UntaggedByPlace "the plain loader's 13 counts packed places and not words" {
        fn address_at(relocations: &[[u8; ENTRY]], _: usize, places: u64) -> u64 {
            relocations.len() as u64 + places
        }
    }
    UntaggedSigned "the plain loader reads loaded bytes signed" {
        fn packed_address(bias: u64, loaded: u64) -> Option<u64> {
            Self::address(bias, 0, loaded as i64)
        }
    }
}

// Table writes tell these apart.
faults! {
    WRITER_FAULTS OfLists:
    MoreAddresses "addresses without a size are passed over" {
        fn unequal(addresses: usize, sizes: usize) -> bool {
            addresses < sizes
        }
    }
    MoreSizes "sizes without an address are passed over" {
        fn unequal(addresses: usize, sizes: usize) -> bool {
            addresses > sizes
        }
    }
    UnequalNamed "unequal lists name the shorter length" {
        fn unequal_at(addresses: usize, sizes: usize) -> u64 {
            addresses.min(sizes) as u64
        }
    }
    LengthsLast "the lengths are compared after the globals" {
        const LENGTHS_LAST: bool = true;
    }
    SizeZero "a size of 0 is written" {
        fn has_size(_: u64) -> bool {
            true
        }
    }
    SizeAny "only addresses must be multiples of 16" {
        fn in_granules(address: u64, _: u64) -> bool {
            address.is_multiple_of(16)
        }
    }
    AddressAny "only sizes must be multiples of 16" {
        fn in_granules(_: u64, size: u64) -> bool {
            size.is_multiple_of(16)
        }
    }
    EndInGranules "only ends must be multiples of 16" {
        fn in_granules(address: u64, size: u64) -> bool {
            address.wrapping_add(size).is_multiple_of(16)
        }
    }
    Eights "multiples of 8 are taken" {
        fn in_granules(address: u64, size: u64) -> bool {
            (address | size).is_multiple_of(8)
        }
    }
    BehindStart "a start may be a granule before the last end" {
        fn starts_behind(address: u64, last_end: u64) -> bool {
            address.saturating_add(16) >= last_end
        }
    }
    AnyOrder "starts in any order" {
        fn starts_behind(_: u64, _: u64) -> bool {
            true
        }
    }
    ListedApart "listed globals may not abut" {
        fn starts_behind(address: u64, last_end: u64) -> bool {
            last_end == 0 || address > last_end
        }
    }
    NotAtZero "no global at address 0" {
        fn starts_behind(address: u64, last_end: u64) -> bool {
            address != 0 && address >= last_end
        }
    }
    EndBelow "an end of 2^48 is refused" {
        fn ends_inside(address: u64, size: u64) -> bool {
            address.checked_add(size).is_some_and(|end| end < ADDRESS_END)
        }
    }
    EndOver "an end a granule above 2^48 is taken" {
        fn ends_inside(address: u64, size: u64) -> bool {
            address.checked_add(size).is_some_and(|end| end <= ADDRESS_END + 16)
        }
    }
    EndWraps "an end wraps at 2^64" {
        fn ends_inside(address: u64, size: u64) -> bool {
            address.wrapping_add(size) <= ADDRESS_END
        }
    }
    EndAtZero "an end of 2^64 counts as 0" {
        fn ends_inside(address: u64, size: u64) -> bool {
            let end = u128::from(address) + u128::from(size);
            end <= ADDRESS_END.into() || end == 1 << 64
        }
    }
    StartInside "only the start must be below 2^48" {
        fn ends_inside(address: u64, _: u64) -> bool {
            address < ADDRESS_END
        }
    }
    GranulesFirst "3 before 2" {
        const ORDER: [u8; 4] = [3, 2, 4, 5];
    }
    OrderFirst "4 before 2 and 3" {
        const ORDER: [u8; 4] = [4, 2, 3, 5];
    }
    EndsBeforeOrder "5 before 4" {
        const ORDER: [u8; 4] = [2, 3, 5, 4];
    }
    EndsFirst "5 before 2 and 3" {
        const ORDER: [u8; 4] = [5, 2, 3, 4];
    }
    RuleByRule "each rule over the whole list before the next" {
        const RULE_BY_RULE: bool = true;
    }
    RoomFirst "6 before 2 to 5 where no table can fit" {
        const ROOM_FIRST: bool = true;
    }
    RoomShort "a buffer one byte too small is taken" {
        fn room(table: usize, buffer: usize) -> bool {
            table <= buffer + 1
        }
    }
    RoomOver "a buffer of the table's length is refused" {
        fn room(table: usize, buffer: usize) -> bool {
            table < buffer
        }
    }
    RoomNamed "6 names the number of globals" {
        fn no_room_at(globals: usize) -> u64 {
            globals as u64
        }
    }
    ShortSeven "a second number from 7 granules on" {
        const SHORT_SIZES: u64 = 7;
    }
    ShortNine "a second number from 9 granules on" {
        const SHORT_SIZES: u64 = 9;
    }
    SecondSize "the size as second number" {
        fn second_number(granules: u64) -> u64 {
            granules
        }
    }
    FromStart "distances from the last start" {
        fn starts_behind(_: u64, _: u64) -> bool {
            true
        }
        fn next_end(address: u64, _: u64) -> u64 {
            address
        }
    }
    FromZero "distances from address 0" {
        fn distance_from(address: u64, _: u64) -> u64 {
            address
        }
    }
    ShortDistance "distances of 32 bits" {
        fn distance_from(address: u64, last_end: u64) -> u64 {
            address.wrapping_sub(last_end) as u32 as u64
        }
    }
    WritesAsItChecks "the globals before a refused one are written" {
        const WRITES_AS_IT_CHECKS: bool = true;
    }
    WritesWhatFits "a buffer too small is filled" {
        const WRITES_WHAT_FITS: bool = true;
    }
    ClearsRest "the bytes after the table are cleared" {
        const CLEARS_REST: bool = true;
    }
}

// Picks tell these apart. Those of the writer's rules 2 to 5 are told by picks too.
faults! {
    PICKER_FAULTS OfLists:
    NeighboursTag "the neighbour's tag where they abut" {
        fn must_differ(_: u64, _: u64) -> bool {
            false
        }
    }
    DiffersApart "globals apart have to differ too" {
        fn must_differ(_: u64, _: u64) -> bool {
            true
        }
    }
    DiffersNear "globals a granule apart have to differ too" {
        fn must_differ(address: u64, last_end: u64) -> bool {
            address.wrapping_sub(last_end) <= 16
        }
    }
    AbutsShort "abutting by the low 32 bits" {
        fn must_differ(address: u64, last_end: u64) -> bool {
            address as u32 == last_end as u32
        }
    }
    NeighbourAfter "the neighbour after counts too" {
        const AVOIDS_AFTER: bool = true;
    }
    NeighbourStart "the neighbour counts by its random byte" {
        fn neighbour(_: u8, start: u8) -> u8 {
            start
        }
    }
    FirstAbuts "a first global at address 0 abuts with tag 1" {
        const BEFORE_FIRST: u8 = 1;
    }
    StartFifteen "start at the byte modulo 15" {
        fn start(random: u8, _: u8) -> u8 {
            random % 15
        }
    }
    StartFromOne "start at the byte modulo 15, plus 1" {
        fn start(random: u8, _: u8) -> u8 {
            random % 15 + 1
        }
    }
    StartHigh "start at the byte's high half" {
        fn start(random: u8, _: u8) -> u8 {
            random >> 4
        }
    }
    StartOn "start one on" {
        fn start(random: u8, _: u8) -> u8 {
            random.wrapping_add(1) % 16
        }
    }
    StartLent "the choice as lent moves the start" {
        fn start(random: u8, lent: u8) -> u8 {
            random.wrapping_add(lent) % 16
        }
    }
    GoesDown "the search goes down" {
        fn first_from(start: u8, left: u16) -> u8 {
            let further = left.rotate_left(15 - u32::from(start)).leading_zeros() as u8;
            (start + 16 - further) % 16
        }
        fn first_after(tag: u8, left: u16) -> u8 {
            Self::first_from((tag + 15) % 16, left)
        }
    }
    WrapsEarly "the search wraps at 15" {
        fn first_from(start: u8, left: u16) -> u8 {
            Right::first_from(start, left & 0x7fff)
        }
    }
    NoWrap "the search ends at 15" {
        fn first_from(start: u8, left: u16) -> u8 {
            let further = (left >> start).trailing_zeros() as u8;
            start + further.min(15 - start)
        }
    }
    NextTag "the tag after the neighbour's, excluded or not" {
        fn first_after(tag: u8, _: u16) -> u8 {
            (tag + 1) % 16
        }
    }
    ZeroLeft "bit 0 of the mask may be clear" {
        fn left(excluded: u16) -> u16 {
            !excluded
        }
    }
    MaskUp "mask bits are one up" {
        fn left(excluded: u16) -> u16 {
            !(excluded << 1) & !1
        }
    }
    MaskDown "mask bits are one down" {
        fn left(excluded: u16) -> u16 {
            !(excluded >> 1) & !1
        }
    }
    MaskAllowed "the mask is of the tags allowed" {
        fn left(excluded: u16) -> u16 {
            excluded & !1
        }
    }
    MaskBits "bit 15 of the mask is not read" {
        fn left(excluded: u16) -> u16 {
            !(excluded & 0x7fff) & !1
        }
    }
    MaskByte "the mask has a byte" {
        fn left(excluded: u16) -> u16 {
            !(excluded & 0xff) & !1
        }
    }
    OneTooFew "8 where one tag is left and nothing abuts" {
        const ENOUGH_APART: u32 = 2;
    }
    OneEnough "no 8 where one tag is left and two abut" {
        const ENOUGH_ABUTTING: u32 = 1;
    }
    TwoTooFew "8 where two tags are left and two abut" {
        const ENOUGH_ABUTTING: u32 = 3;
    }
    NoneEnough "no 8 where no tag is left and nothing abuts" {
        const ENOUGH_APART: u32 = 0;
    }
    EmptyNeedsTag "8 for no globals where no tag is left" {
        const EMPTY_NEEDS_TAG: bool = true;
    }
    ZeroAbuts "8 where one tag is left and a first global is at address 0" {
        fn abutting(addresses: &[u64], sizes: &[u64]) -> Option<usize> {
            if addresses.first() == Some(&0) { Some(0) } else { Right::abutting(addresses, sizes) }
        }
    }
    FirstTwo "8 asks the first two globals" {
        fn abutting(addresses: &[u64], sizes: &[u64]) -> Option<usize> {
            Right::abutting(&addresses[..addresses.len().min(2)], sizes)
        }
    }
    AllButLast "8 asks all globals but the last" {
        fn abutting(addresses: &[u64], sizes: &[u64]) -> Option<usize> {
            Right::abutting(addresses.split_last()?.1, sizes)
        }
    }
    AbutsInLimit "8 asks the first 65,536 globals" {
        fn abutting(addresses: &[u64], sizes: &[u64]) -> Option<usize> {
            Right::abutting(&addresses[..addresses.len().min(65_536)], sizes)
        }
    }
    NoneAtStuck "8 at the global for which no tag is left" {
        fn none_at(stuck: usize, _: usize) -> u64 {
            stuck as u64
        }
    }
    NoneAtCount "8 at the number of globals" {
        fn none_at(_: usize, globals: usize) -> u64 {
            globals as u64
        }
    }
    NoneFirst "8 before 2 to 5" {
        const STAGES: [Stage; 3] = [Stage::Lengths, Stage::Tags, Stage::Globals];
    }
    NoneBeforeLengths "8 before 7" {
        const STAGES: [Stage; 3] = [Stage::Tags, Stage::Lengths, Stage::Globals];
    }
    LengthsAfterGlobals "7 after 2 to 5" {
        const STAGES: [Stage; 3] = [Stage::Globals, Stage::Lengths, Stage::Tags];
    }
    LengthsAfterNone "7 after 2 to 5 and 8" {
        const STAGES: [Stage; 3] = [Stage::Globals, Stage::Tags, Stage::Lengths];
    }
    AddressesUnasked "7 does not ask the addresses" {
        fn lengths_differ([_, sizes, random, choices]: [usize; 4]) -> bool {
            sizes != random || sizes != choices
        }
    }
    SizesUnasked "7 does not ask the sizes" {
        fn lengths_differ([addresses, _, random, choices]: [usize; 4]) -> bool {
            addresses != random || addresses != choices
        }
    }
    RandomUnasked "7 does not ask the random bytes" {
        fn lengths_differ([addresses, sizes, _, choices]: [usize; 4]) -> bool {
            addresses != sizes || addresses != choices
        }
    }
    ChoicesUnasked "7 does not ask the choices" {
        fn lengths_differ([addresses, sizes, random, _]: [usize; 4]) -> bool {
            addresses != sizes || addresses != random
        }
    }
    RandomOver "random bytes left over are passed over" {
        fn lengths_differ([addresses, sizes, random, choices]: [usize; 4]) -> bool {
            addresses != sizes || addresses > random || addresses != choices
        }
    }
    ChoicesOver "room for more choices is passed over" {
        fn lengths_differ([addresses, sizes, random, choices]: [usize; 4]) -> bool {
            addresses != sizes || addresses != random || addresses > choices
        }
    }
    PicksLimited "65,536 globals at most" {
        fn lengths_differ(lengths: [usize; 4]) -> bool {
            Right::lengths_differ(lengths) || lengths[0] > 65_536
        }
    }
    LengthsAsOne "1 in place of 7" {
        const LENGTHS: u8 = 1;
    }
    LengthsNamed "7 at the shortest length" {
        fn lengths_at(lengths: [usize; 4]) -> u64 {
            lengths.into_iter().min().unwrap_or(0) as u64
        }
    }
    FillsWalked "the choices before a refused global are written" {
        fn fills_before(number: u8) -> bool {
            (2..=5).contains(&number)
        }
    }
    FillsNone "the choices are written before 8" {
        fn fills_before(number: u8) -> bool {
            number == 8
        }
    }
    FillsUnequal "the choices are written before 7" {
        fn fills_before(number: u8) -> bool {
            number == 7
        }
    }
    ClearsChoices "the choices are cleared before a refusal" {
        const CLEARS_CHOICES: bool = true;
    }
}
