//! The images, lists and picks of the benchmark, and the timing of loaders side by side.

use crate::answers::{Call, Listing, Loader, Picking};
use crate::generate::module::uleb;
use crate::random::Random;
use crate::writer::ENOUGH;
use crate::MOST;
use std::hint::black_box;
use std::time::{Duration, Instant};

pub const SIZES: [usize; 5] = [16 << 10, 256 << 10, 1 << 20, 4 << 20, 16 << 20];

const SYMBOLS: usize = 32;
const PAGE: u64 = 4_096;

fn put(file: &mut [u8], at: usize, words: &[u64]) {
    for (i, word) in words.iter().enumerate() {
        file[at + 8 * i..][..8].copy_from_slice(&word.to_le_bytes());
    }
}

/// A relocation for each 64 bytes and a global for each 256 bytes, as many as the limits allow.
/// The places rise.
pub fn image(size: usize) -> Call {
    image_with(size, &rising(size), Vec::new())
}

/// The same with the places in mixed order.
pub fn mixed(size: usize) -> Call {
    let mut places = rising(size);
    Random::new(size as u64).shuffle(&mut places);
    image_with(size, &places, Vec::new())
}

/// Entries at so many places in mixed order, the last at the place of the first.
pub fn repeated(size: usize, count: usize) -> Call {
    let mut places = ORDERS[0].1(size as u64, count as u64);
    places[count - 1] = places[0];
    entries(size, &places, false)
}

/// The same without relocations.
pub fn bare(size: usize) -> Call {
    image_with(size, &[], Vec::new())
}

fn rising(size: usize) -> Vec<u64> {
    let count = (size / 64).min(MOST);
    (0..count).map(|i| (i * (size / count) + 8) as u64).collect()
}

fn globals(size: usize) -> usize {
    (size / 256).min(MOST)
}

/// Places in some order, so many below a limit.
pub type Order = fn(u64, u64) -> Vec<u64>;

/// Orders of places for the walk of checks 10 and 11, none of them with a repeat. The remarks are on a
/// map with a bit for each eight bytes: it has 64 places a word, and 512 a line of 64 bytes.
pub const ORDERS: [(&str, Order); 7] = [
    ("mixed", |end, count| {
        let mut all: Vec<u64> = (0..end / 8).map(|i| 8 * i).collect();
        Random::new(end).shuffle(&mut all);
        all.truncate(count as usize);
        all
    }),
    // The same word 64 times.
    ("rising, 8 bytes apart", |_, count| (0..count).map(|i| 8 * i).collect()),
    ("rising over all of memory", |end, count| spread(end, count).collect()),
    ("falling over all of memory", |end, count| spread(end, count).rev().collect()),
    // The next word each time.
    ("rising, 512 bytes apart", |end, count| rounds(end, count, 512)),
    // The next line each time, in the first word of each, then in the same words again.
    ("4 KiB apart, in rounds", |end, count| rounds(end, count, 4 << 10)),
    // Words 4 KiB apart in turn: they share a set of the processor's cache, and the low bits by which it
    // tells a read from a write before it.
    ("256 KiB apart, in rounds", |end, count| rounds(end, count, 256 << 10)),
];

fn spread(end: u64, count: u64) -> impl DoubleEndedIterator<Item = u64> {
    (0..count).map(move |i| i * (end / count) / 8 * 8)
}

/// Up to the end by a step, then again from 8 bytes further on.
fn rounds(end: u64, count: u64, step: u64) -> Vec<u64> {
    let each = end / step;
    (0..count).map(|i| i % each * step + i / each * 8).collect()
}

/// A module without globals whose RELA entries have these places: RELATIVE, or half of them with a
/// symbol as in the other images. Only examine is for it: places may lie in the tables.
pub fn entries(size: usize, places: &[u64], symbols: bool) -> Call {
    let mut r = Random::new(size as u64);
    let entries = (0..).zip(places).map(|(i, &place)| {
        let i = if symbols { i } else { 0 };
        relocation(&mut r, i, place, |r| r.below(size as u64))
    });
    let relocations = entries.collect();
    let symbols = (0..SYMBOLS).map(|i| [0x11 << 32 | 1 << 48, 64 * i as u64, 8]).collect();
    let (packed, descriptors) = (Vec::new(), Vec::new());
    let mut file = vec![0; size];
    assemble(&mut file, 0, 64 + 2 * 56, &Tables { symbols, relocations, packed, descriptors });
    call(file, 0)
}

/// The same with 1,000 packed places, one after the other in full bitmaps, in place of RELA entries.
pub fn packed(size: usize) -> Call {
    let globals = globals(size);
    let mut r = Random::new(size as u64);
    let first = size / 2;
    let loaded: Vec<u64> =
        (0..1_000).map(|_| (r.index(globals) * (size / globals)) as u64 + r.below(97)).collect();
    let mut call = image_with(size, &[], dense(first as u64, loaded.len()));
    put(&mut call.file, first, &loaded);
    call
}

/// The same with a packed place and so many empty bitmaps after it.
pub fn empty_bitmaps(size: usize, count: usize) -> Call {
    let first = size / 2;
    let words = [vec![first as u64], vec![1; count]].concat();
    let mut call = image_with(size, &[], words);
    put(&mut call.file, first, &[0]);
    call
}

/// The packed words of so many places, one after the other.
pub(crate) fn dense(first: u64, places: usize) -> Vec<u64> {
    if places == 0 {
        return Vec::new();
    }
    let mut words = vec![first];
    let mut left = places - 1;
    while left > 0 {
        let bits = left.min(63);
        words.push(u64::MAX >> (63 - bits));
        left -= bits;
    }
    words
}

/// One writable PT_LOAD over the whole file, with globals spread over all of it.
fn image_with(size: usize, places: &[u64], packed: Vec<u64>) -> Call {
    let mut r = Random::new(size as u64);
    let mut file = r.bytes(size);
    let globals = globals(size);
    let global_step = size / globals;

    let mut descriptors = Vec::new();
    for i in 0..globals {
        let distance = if i == 0 { 0 } else { (global_step - 96) / 16 };
        descriptors.extend(uleb((distance as u64) << 3 | 6, 1));
    }
    // Words in places first: tables may lie over them.
    for (i, &place) in places.iter().enumerate() {
        put(&mut file, place as usize, &[[0, 0u64.wrapping_sub(16)][i % 2]]);
    }
    let symbols = (0..SYMBOLS).map(|_| {
        let value = (r.index(globals) * global_step) as u64 + r.below(96);
        [0x11 << 32 | 1 << 48, value, 8]
    });
    let symbols = symbols.collect();
    let relocations = places.iter().enumerate().map(|(i, &place)| {
        relocation(&mut r, i, place, |r| (r.index(globals) * global_step) as u64 + r.below(97))
    });
    let relocations = relocations.collect();
    assemble(&mut file, 0, 64 + 2 * 56, &Tables { symbols, relocations, packed, descriptors });
    call(file, globals)
}

/// Of four entries two are RELATIVE, one is ABS64 and one is GLOB_DAT.
fn relocation(
    r: &mut Random,
    index: usize,
    place: u64,
    target: impl Fn(&mut Random) -> u64,
) -> [u64; 3] {
    let target = target(r);
    let symbol = r.from(1, SYMBOLS as u64 - 1) << 32;
    let (info, addend) = match index % 4 {
        0 | 2 => (1027, target),
        1 => (257 | symbol, r.below(16)),
        _ => (1025 | symbol, 0),
    };
    [place, info, addend]
}

/// The tables that a module is read by.
pub(crate) struct Tables {
    pub symbols: Vec<[u64; 3]>,
    pub relocations: Vec<[u64; 3]>,
    /// Where it is empty there are no packed tags.
    pub packed: Vec<u64>,
    pub descriptors: Vec<u8>,
}

/// Puts headers and tables into a file: some writable PT_LOADs of a page each, one from there to the
/// file's end, and a PT_DYNAMIC with the tables after it.
pub(crate) fn assemble(file: &mut [u8], pages: usize, dynamic_at: usize, tables: &Tables) {
    let entries = if tables.packed.is_empty() { 11 } else { 14 };
    let symbols_at = dynamic_at + 16 * entries;
    let relocations_at = symbols_at + 24 * tables.symbols.len();
    let packed_at = relocations_at + 24 * tables.relocations.len();
    let packed_bytes = 8 * tables.packed.len();
    let descriptors_at = packed_at + packed_bytes;
    let mut dynamic = vec![
        (6, symbols_at as u64),
        (11, 24),
        (7, relocations_at as u64),
        (8, 24 * tables.relocations.len() as u64),
        (9, 24),
        (0x7000_0009, 0),
        (0x7000_000b, 1),
        (0x7000_000c, 1),
        (0x7000_000d, descriptors_at as u64),
        (0x7000_000f, tables.descriptors.len() as u64),
    ];
    if packed_bytes > 0 {
        dynamic.extend([(36, packed_at as u64), (35, packed_bytes as u64), (37, 8)]);
    }
    dynamic.push((0, 0));
    assert_eq!(dynamic.len(), entries);
    file[..7].copy_from_slice(&[0x7f, 0x45, 0x4c, 0x46, 2, 1, 1]);
    put(file, 16, &[3 | 183 << 16 | 1 << 32, 0, 64, 0, 0]);
    put(file, 48, &[56 << 48, pages as u64 + 2]);
    for i in 0..=pages {
        let at = i as u64 * PAGE;
        let bytes = if i < pages { PAGE } else { file.len() as u64 - at };
        put(file, 64 + 56 * i, &[1 | 6 << 32, at, at, at, bytes, bytes, PAGE]);
    }
    let (at, bytes) = (dynamic_at as u64, 16 * entries as u64);
    put(file, 64 + 56 * (pages + 1), &[2 | 6 << 32, at, at, at, bytes, bytes, 8]);
    for (i, (tag, value)) in dynamic.into_iter().enumerate() {
        put(file, dynamic_at + 16 * i, &[tag, value]);
    }
    put(file, symbols_at, tables.symbols.as_flattened());
    put(file, relocations_at, tables.relocations.as_flattened());
    put(file, packed_at, &tables.packed);
    file[descriptors_at..][..tables.descriptors.len()].copy_from_slice(&tables.descriptors);
}

/// The load of a file into memory of its own length.
pub(crate) fn call(file: Vec<u8>, globals: usize) -> Call {
    Call {
        bias: 0x4000_0000,
        memory_length: file.len(),
        plane_length: file.len() / 16,
        choices: (0..globals).map(|i| (i % 15 + 1) as u8).collect(),
        file,
    }
}

/// A list from the granules before each global and of it, with a buffer that takes any table.
pub(crate) fn listing(globals: impl Iterator<Item = (u64, u64)>) -> Listing {
    let (mut addresses, mut sizes, mut at) = (Vec::new(), Vec::new(), 0);
    for (distance, granules) in globals {
        addresses.push(16 * (at + distance));
        sizes.push(16 * granules);
        at += distance + granules;
    }
    Listing { buffer_length: ENOUGH * addresses.len(), addresses, sizes }
}

/// Globals of a byte each.
pub fn short_globals(count: usize) -> Listing {
    let mut r = Random::new(count as u64);
    listing((0..count).map(|_| (r.below(16), r.from(1, 7))))
}

/// Of eight globals four have one byte, two have two, one has three, and one has two numbers of one or
/// two bytes, in random order.
pub fn mixed_globals(count: usize) -> Listing {
    let mut r = Random::new(count as u64);
    let global = |_| match r.below(8) {
        0..=3 => (r.below(16), r.from(1, 7)),
        4 | 5 => (r.from(16, 2_047), r.from(1, 7)),
        6 => (r.from(2_048, 100_000), r.from(1, 7)),
        _ => (r.below(30), r.from(8, 256)),
    };
    listing((0..count).map(global))
}

/// A pick for a list, with random bytes; those of a shorter list are the first of them.
pub(crate) fn picking(list: Listing, excluded: u16) -> Picking {
    let count = list.addresses.len();
    let random = Random::new(excluded.into()).bytes(count);
    let Listing { addresses, sizes, .. } = list;
    Picking { addresses, sizes, random, excluded, choices: vec![0; count] }
}

/// A mask that leaves three tags.
pub const THREE_LEFT: u16 = 0xfbdd;

/// What of a list for the picker abuts: nothing, all, or a half in random order.
#[derive(Clone, Copy, PartialEq, Eq)]
pub enum Abutting {
    Nothing,
    All,
    Half,
}

/// Globals of up to 7 granules.
pub fn picks_of(count: usize, abutting: Abutting, excluded: u16) -> Picking {
    let mut r = Random::new(count as u64);
    let global = |_| {
        let abuts = abutting == Abutting::All || abutting == Abutting::Half && r.once_in(2);
        (if abuts { 0 } else { r.from(1, 15) }, r.from(1, 7))
    };
    picking(listing((0..count).map(global)), excluded)
}

/// Best and median time.
pub struct Times {
    pub best: Duration,
    pub median: Duration,
}

fn times(mut list: Vec<Duration>) -> Times {
    list.sort();
    Times { best: list[0], median: list[list.len() / 2] }
}

/// Loads by two loaders in turn, each into cleared buffers.
pub fn loads(call: &Call, loaders: [&dyn Loader; 2], rounds: usize) -> [Times; 2] {
    let mut memory = vec![0; call.memory_length];
    let mut plane = vec![0; call.plane_length];
    let mut taken = [Vec::new(), Vec::new()];
    let mut first: Option<(Vec<u8>, Vec<u8>)> = None;
    for round in 0..2 * rounds {
        let which = (round + round / 2) % 2;
        memory.fill(0);
        plane.fill(0);
        let start = Instant::now();
        let answer =
            loaders[which].load(&call.file, call.bias, &mut memory, &mut plane, &call.choices);
        taken[which].push(start.elapsed());
        assert_eq!(answer, call.choices.len() as u64 * 256);
        match &first {
            Some((m, p)) => assert!(*m == memory && *p == plane),
            None => first = Some((memory.clone(), plane.clone())),
        }
    }
    taken.map(times)
}

/// Clearing memory and copying the file over it, and loads by two loaders, in turn.
pub fn loads_beside_copies(call: &Call, loaders: [&dyn Loader; 2], rounds: usize) -> [Times; 3] {
    let mut memory = vec![0; call.memory_length];
    let mut plane = vec![0; call.plane_length];
    let mut taken = [Vec::new(), Vec::new(), Vec::new()];
    for round in 0..3 * rounds {
        let which = (round + round / 3) % 3;
        memory.fill(0);
        plane.fill(0);
        let start = Instant::now();
        if which == 0 {
            black_box(&mut memory).fill(0);
            black_box(&mut memory).copy_from_slice(&call.file);
            black_box(&memory);
        } else {
            let loader = loaders[which - 1];
            let answer = loader.load(&call.file, call.bias, &mut memory, &mut plane, &call.choices);
            assert_eq!(answer, call.choices.len() as u64 * 256);
        }
        taken[which].push(start.elapsed());
    }
    taken.map(times)
}

/// Examines by two loaders in turn.
pub fn examines(call: &Call, loaders: [&dyn Loader; 2], rounds: usize) -> [Times; 2] {
    let mut taken = [Vec::new(), Vec::new()];
    for round in 0..2 * rounds {
        let which = (round + round / 2) % 2;
        let start = Instant::now();
        let answer = loaders[which].examine(&call.file);
        taken[which].push(start.elapsed());
        assert_eq!(answer, call.choices.len() as u64 * 256);
    }
    taken.map(times)
}

/// The times of examine of each file by each loader, all in turn; by file, then by loader. The answers
/// are of modules without globals: 0, or the refusal of the file.
pub fn walks(
    calls: &[Call],
    answers: &[u64],
    loaders: &[&dyn Loader],
    rounds: usize,
) -> Vec<Vec<Times>> {
    let mut taken = vec![vec![Vec::new(); loaders.len()]; calls.len()];
    for round in 0..rounds {
        for ((call, expected), taken) in calls.iter().zip(answers).zip(&mut taken) {
            for i in 0..loaders.len() {
                let which = (round + i) % loaders.len();
                let start = Instant::now();
                let answer = loaders[which].examine(&call.file);
                taken[which].push(start.elapsed());
                assert_eq!(answer, *expected);
            }
        }
    }
    taken.into_iter().map(|taken| taken.into_iter().map(times).collect()).collect()
}

/// Table writes by two loaders in turn, each into a cleared buffer.
pub fn writes(list: &Listing, loaders: [&dyn Loader; 2], rounds: usize) -> [Times; 2] {
    let mut buffer = vec![0; list.buffer_length];
    let mut taken = [Vec::new(), Vec::new()];
    let mut first: Option<(u64, Vec<u8>)> = None;
    for round in 0..2 * rounds {
        let which = (round + round / 2) % 2;
        buffer.fill(0);
        let start = Instant::now();
        let answer = loaders[which].write_table(&list.addresses, &list.sizes, &mut buffer);
        taken[which].push(start.elapsed());
        assert!(answer.is_multiple_of(256), "refused: {answer}");
        match &first {
            Some((a, b)) => assert!(*a == answer && *b == buffer),
            None => first = Some((answer, buffer.clone())),
        }
    }
    taken.map(times)
}

/// Picks by two loaders in turn, each into cleared choices. Each pair has random bytes of its own: what a
/// processor has learnt of the last ones is of no use.
pub fn picks(pick: &Picking, loaders: [&dyn Loader; 2], rounds: usize) -> [Times; 2] {
    let Picking { addresses, sizes, excluded, .. } = pick;
    let (mut random, mut choices) = (pick.random.clone(), pick.choices.clone());
    let mut r = Random::new(rounds as u64);
    let mut taken = [Vec::new(), Vec::new()];
    let mut first: Option<Vec<u8>> = None;
    for round in 0..2 * rounds {
        let which = (round + round / 2) % 2;
        choices.fill(0);
        let start = Instant::now();
        let answer = loaders[which].pick_tags(addresses, sizes, &random, *excluded, &mut choices);
        taken[which].push(start.elapsed());
        assert_eq!(answer, addresses.len() as u64 * 256);
        match first.take() {
            Some(picked) => {
                assert!(picked == choices);
                random = r.bytes(random.len());
            }
            None => first = Some(choices.clone()),
        }
    }
    taken.map(times)
}
