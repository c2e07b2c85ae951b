//! Calls that need a module of their own: the limits of counts and lengths.

use super::damage::Expected::{self, Refused, Taken};
use super::damage::{Damage, LARGE_DAMAGES};
use super::module::*;
use crate::answers::Call;
use crate::bench::{assemble, call, Tables};
use crate::random::Random;
use crate::{LARGEST, MOST};
use std::collections::BTreeSet;

pub type Special = (&'static str, fn(&mut Random) -> (Call, Expected));

fn of(r: &mut Random, shape: Shape, expected: Expected) -> (Call, Expected) {
    (Module::shaped(r, &shape).call(), expected)
}

/// A file of 64 bytes whose header table, if inside, begins at byte 8.
fn smallest(kind: u8, at: u8, expected: Expected) -> (Call, Expected) {
    let mut file = vec![0; 64];
    file[..7].copy_from_slice(&[0x7f, 0x45, 0x4c, 0x46, 2, 1, 1]);
    (file[8], file[16], file[18], file[20]) = (kind, 3, 183, 1);
    (file[32], file[54], file[56]) = (at, 56, 1);
    let call = Call { file, bias: 0, memory_length: 64, plane_length: 4, choices: Vec::new() };
    (call, expected)
}

fn many_globals(r: &mut Random, count: usize) -> Module {
    let shape = Shape {
        loads: Some(1),
        globals: Some(count),
        short_globals: true,
        bss: Some(17 * count as u64),
        ..Shape::default()
    };
    Module::shaped(r, &shape)
}

/// The first so many descriptors, then other bytes.
fn last_descriptor(m: &mut Module, count: usize, bytes: &[u8]) {
    let table = [&m.encoded()[..count].concat(), bytes].concat();
    assert!(m.put_descriptors(table));
}

fn many_relocations(r: &mut Random, count: usize) -> Module {
    Module::shaped(r, &Shape { relocations: Some(count), ..Shape::default() })
}

/// So many relocations, of which some are skipped, and so many packed places.
fn both(r: &mut Random, relocations: usize, skipped: usize, packed: usize) -> (Call, Expected) {
    let shape = Shape { relocations: Some(relocations), packed: Some(packed), ..Shape::default() };
    let mut m = Module::shaped(r, &shape);
    for i in 0..skipped {
        m.relocations[7 * i].kind = NONE;
    }
    let passed = passing(relocations, &m.packed);
    assert_eq!(passed.is_some(), relocations + packed > MOST);
    (m.call(), passed.map_or(Taken, |word| Refused(15, word as u64)))
}

/// So many relocations and packed places in mixed order over a large memory.
fn over_large_memory(r: &mut Random, relocations: usize, packed: usize) -> Module {
    let shape = Shape {
        loads: Some(1),
        relocations: Some(relocations),
        packed: Some(packed),
        packed_words: Some(64),
        bss: Some(900_000),
        ..Shape::default()
    };
    Module::shaped(r, &shape)
}

/// RELATIVE entries at some places, and packed words, over the largest file and memory.
fn over_largest_memory(r: &mut Random, places: &[u64], packed: Vec<u64>) -> Call {
    let entry = |&place| [place, RELATIVE.into(), r.below(LARGEST)];
    let relocations = places.iter().map(entry).collect();
    let descriptors = vec![0x82, 0x10, 0x10, 0x07, 0x01];
    let mut file = vec![0; LARGEST as usize];
    let tables = Tables { symbols: Vec::new(), relocations, packed, descriptors };
    assemble(&mut file, 0, 64 + 2 * 56, &tables);
    call(file, 3)
}

/// Places on both sides of each MiB from the lowest one, in the largest memory.
fn sides(lowest: u64) -> Vec<u64> {
    let each = (1..=16).flat_map(|i| [-16, -8, 0, 8].map(|side| i * (1 << 20) + side));
    let places = each.map(|off| lowest.wrapping_add_signed(off));
    places.filter(|&place| place < LARGEST).collect()
}

/// So many places in mixed order: the lowest, the last one of the largest memory, both sides of each
/// MiB, and others anywhere between.
fn mixed_places(r: &mut Random, lowest: u64, count: usize) -> Vec<u64> {
    let mut places: BTreeSet<u64> = sides(lowest).into_iter().collect();
    places.extend([lowest, LARGEST - 8]);
    while places.len() < count {
        places.insert(lowest + 8 * r.below((LARGEST - lowest) / 8));
    }
    let mut places: Vec<u64> = places.into_iter().collect();
    r.shuffle(&mut places);
    places
}

/// The most entries in mixed order over the largest memory, of which the last repeats this place.
fn last_repeats(r: &mut Random, lowest: u64, place: u64) -> (Call, Expected) {
    let mut places = mixed_places(r, lowest, MOST);
    let at = places.iter().position(|&other| other == place).expect("the place is one of them");
    places.swap(at, r.index(LAST));
    places[LAST] = place;
    (over_largest_memory(r, &places, Vec::new()), Refused(11, LAST as u64))
}

/// A damage that needs the largest memory.
fn damaged(r: &mut Random, damage: &Damage) -> (Call, Expected) {
    loop {
        let mut m = Module::random(r);
        if let Some(expected) = (damage.apply)(&mut m, r) {
            if expected != Taken || m.unfit().is_empty() {
                return (m.call(), expected);
            }
        }
    }
}

/// A place, a row of empty bitmaps, a bitmap of one bit that names another place, and more words. Both
/// places are past the file part, where zeros are loaded.
fn long_row(r: &mut Random, row: usize, more: &[u64]) -> Module {
    let shape = Shape {
        loads: Some(1),
        packed: Some(1),
        packed_words: Some(row + 2 + more.len()),
        bss: Some(504 * row as u64 + 1_024),
        ..Shape::default()
    };
    loop {
        let mut m = Module::shaped(r, &shape);
        let end = m.headers[m.loads()[0]].end();
        let mut words = vec![1; row + 1];
        words[0] = (end - 504 * (row as u64 + 1) - 16) / 8 * 8;
        words.push(1 | 2 << r.below(63));
        let places = unpack(&words);
        let used = |e: &Rela| places.iter().any(|place| place.1 == e.place.into());
        if !m.relocations.iter().any(used) {
            words.extend(more);
            assert!(m.put_packed(words));
            return m;
        }
    }
}

/// A place, so many empty bitmaps, and more words; their first index.
fn empty_row(r: &mut Random, row: usize, more: &[u64]) -> (Module, u64) {
    let shape = Shape {
        loads: Some(1),
        packed: Some(1),
        packed_words: Some(row + 1 + more.len()),
        ..Shape::default()
    };
    let mut m = Module::shaped(r, &shape);
    let words = [&m.packed[..1], &vec![1; row], more].concat();
    assert!(m.put_packed(words));
    (m, row as u64 + 1)
}

/// An entry whose address is just below 0.
fn below_zero(m: &mut Module, entry: usize) {
    let e = &mut m.relocations[entry];
    (e.kind, e.symbol, e.addend) = (RELATIVE, 0, -1 - m.bias as i64);
}

/// 15 loads, one of which has an align above the others' and above 4,096, and a bias that is a
/// multiple of it, or of half of it.
fn one_large_align(r: &mut Random, half: bool) -> Call {
    let shape = Shape { level: true, ..many_loads() };
    loop {
        let mut m = Module::shaped(r, &shape);
        for i in m.loads() {
            m.headers[i].align = r.pick(&[0, 1, 16, 4096, 8192]);
        }
        let power = r.from(14, 46);
        let large = r.pick(&m.loads());
        m.headers[large].align = 1 << power;
        let odd = 1 + 2 * r.below(1 << (46 - power));
        if m.rebias(odd << (power - u64::from(half))).is_some() {
            return m.call();
        }
    }
}

fn many_loads() -> Shape {
    Shape { headers: Some(16), loads: Some(15), spare: Some(false), ..Shape::default() }
}

const LAST: usize = MOST - 1;

pub const SPECIALS: &[Special] = &[
    ("64 bytes, table outside", |_| smallest(1, 64, Refused(3, 0))),
    ("64 bytes, table one past", |_| smallest(1, 9, Refused(3, 0))),
    ("64 bytes, table ends at 2^64", |_| {
        let (mut call, _) = smallest(1, 8, Taken);
        call.file[32..40].copy_from_slice(&0u64.wrapping_sub(56).to_le_bytes());
        (call, Refused(3, 0))
    }),
    ("64 bytes, a load", |_| smallest(1, 8, Refused(4, 0))),
    ("64 bytes, dynamic", |_| smallest(2, 8, Refused(5, 0))),
    ("64 bytes, other", |_| smallest(0, 8, Refused(5, 1))),
    ("63 bytes", |_| {
        let (mut call, _) = smallest(1, 8, Taken);
        call.file.pop();
        (call, Refused(1, 0))
    }),
    ("1,025 relocations", |r| (many_relocations(r, 1_025).call(), Taken)),
    ("1,025 relocations, the last repeats the first", |r| {
        let mut m = many_relocations(r, 1_025);
        m.relocations[1_024].place = m.relocations[0].place;
        (m.call(), Refused(11, 1_024))
    }),
    ("1,025 relocations, the last of a bad kind", |r| {
        let mut m = many_relocations(r, 1_025);
        m.relocations[1_024].kind = 1026;
        (m.call(), Refused(10, 1_024))
    }),
    ("1,025 relocations, the last address below 0", |r| {
        let mut m = many_relocations(r, 1_025);
        below_zero(&mut m, 1_024);
        (m.call(), Refused(13, 1_024))
    }),
    ("1,025 packed places", |r| both(r, 0, 0, 1_025)),
    ("1,000 relocations and 25 packed places", |r| both(r, 1_000, 0, 25)),
    ("1,000 relocations, 9 skipped, and 34 packed places", |r| both(r, 1_000, 9, 34)),
    ("1,025 packed places, the last repeats the first", |r| {
        let shape = Shape { relocations: Some(0), packed: Some(1_024), ..Shape::default() };
        let mut m = Module::shaped(r, &shape);
        let words = [&m.packed[..], &m.packed[..1]].concat();
        assert!(m.put_packed(words));
        (m.call(), Refused(11, m.packed.len() as u64 - 1))
    }),
    ("1,800 empty bitmaps", |r| (long_row(r, 1_800, &[]).call(), Taken)),
    ("1,800 empty bitmaps, and a place outside", |r| {
        let m = long_row(r, 1_800, &[LARGEST]);
        (m.call(), Refused(11, m.relocations.len() as u64 + 1_802))
    }),
    ("1,800 empty bitmaps, and too many places", |r| {
        let m = long_row(r, 1_800, &[u64::MAX; MOST / 63 + 1]);
        let passed = passing(m.relocations.len(), &m.packed).expect("too many places");
        (m.call(), Refused(15, passed as u64))
    }),
    ("1,025 relocations over a large memory", |r| (over_large_memory(r, 1_025, 0).call(), Taken)),
    ("1,025 relocations over a large memory, the last repeats another", |r| {
        let mut m = over_large_memory(r, 1_025, 0);
        m.relocations[1_024].place = m.relocations[r.index(1_024)].place;
        (m.call(), Refused(11, 1_024))
    }),
    ("1,000 relocations over a large memory, a packed place repeats one", |r| {
        let mut m = over_large_memory(r, 1_000, 20);
        let words = [&m.packed[..], &[m.relocations[r.index(1_000)].place]].concat();
        assert!(m.put_packed(words));
        (m.call(), Refused(11, 999 + m.packed.len() as u64))
    }),
    ("1,025 descriptors", |r| (many_globals(r, 1_025).call(), Taken)),
    ("1,025 descriptors, the last cut", |r| {
        let mut m = many_globals(r, 1_025);
        last_descriptor(&mut m, 1_024, &[0x80]);
        (m.call(), Refused(8, 1_024))
    }),
    ("1,025 descriptors, the last padded", |r| {
        let mut m = many_globals(r, 1_025);
        last_descriptor(&mut m, 1_024, &[0x81, 0]);
        (m.call(), Refused(16, 1_024))
    }),
    ("1,025 descriptors, the last with a second number of 0", |r| {
        let mut m = many_globals(r, 1_025);
        last_descriptor(&mut m, 1_024, &[0, 0]);
        (m.call(), Refused(16, 1_024))
    }),
    ("1,025 descriptors, the last choice as before", |r| {
        let mut m = many_globals(r, 1_025);
        m.choices[1_024] = m.choices[1_023];
        (m.call(), Refused(14, 1_024))
    }),
    ("4,096 bytes of dynamic entries", |r| {
        of(r, Shape { entries: Some(256), null_last: true, ..Shape::default() }, Taken)
    }),
    ("4,112 bytes of dynamic entries", |r| {
        let m = Module::shaped(r, &Shape { entries: Some(257), ..Shape::default() });
        (m.call(), Refused(5, m.dynamic_header().unwrap() as u64))
    }),
    ("one dynamic entry", |r| {
        let mut m = Module::shaped(r, &Shape { globals: Some(0), ..Shape::default() });
        let i = m.dynamic_header().unwrap();
        m.headers[i].file_size = 16;
        m.dynamic[0].0 = 0;
        (m.call(), Taken)
    }),
    ("16 headers", |r| of(r, Shape { headers: Some(16), ..Shape::default() }, Taken)),
    ("16 loads less one", |r| of(r, many_loads(), Taken)),
    ("15 loads, the bias by the largest align", |r| (one_large_align(r, false), Taken)),
    ("15 loads, the bias by half the largest align", |r| {
        (one_large_align(r, true), Refused(12, 0))
    }),
    ("17 headers", |r| of(r, Shape { headers: Some(17), ..Shape::default() }, Refused(3, 0))),
];

/// The same at the limits, where they are large.
pub const LARGE_SPECIALS: &[Special] = &[
    ("the largest file", |r| {
        of(r, Shape { file_length: Some(LARGEST as usize), ..Shape::default() }, Taken)
    }),
    ("one byte more", |r| {
        of(r, Shape { file_length: Some(LARGEST as usize + 1), ..Shape::default() }, Refused(1, 0))
    }),
    ("a PT_LOAD moved to the limit", |r| damaged(r, &LARGE_DAMAGES[0])),
    ("a PT_LOAD grown to the limit", |r| damaged(r, &LARGE_DAMAGES[1])),
    ("the largest memory", |r| damaged(r, &LARGE_DAMAGES[2])),
    ("16 bytes more", |r| damaged(r, &LARGE_DAMAGES[3])),
    ("16 bytes more, and an address below 0", |r| {
        let mut m = many_relocations(r, 2);
        below_zero(&mut m, 0);
        (m.memory, m.plane) = (LARGEST + 16, LARGEST / 16 + 1);
        (m.call(), Refused(12, 0))
    }),
    ("65,535 relocations", |r| (many_relocations(r, LAST).call(), Taken)),
    ("65,536 relocations", |r| (many_relocations(r, MOST).call(), Taken)),
    ("65,537 relocations", |r| (many_relocations(r, MOST + 1).call(), Refused(7, 0))),
    ("65,537 relocations, one skipped", |r| {
        let mut m = many_relocations(r, MOST + 1);
        m.relocations[7].kind = NONE;
        (m.call(), Refused(7, 0))
    }),
    ("65,536 relocations, the last repeats the first", |r| {
        let mut m = many_relocations(r, MOST);
        m.relocations[LAST].place = m.relocations[0].place;
        (m.call(), Refused(11, LAST as u64))
    }),
    ("65,536 relocations, the last of a bad kind", |r| {
        let mut m = many_relocations(r, MOST);
        m.relocations[LAST].kind = 1026;
        (m.call(), Refused(10, LAST as u64))
    }),
    ("65,536 relocations, the last address below 0", |r| {
        let mut m = many_relocations(r, MOST);
        below_zero(&mut m, LAST);
        (m.call(), Refused(13, LAST as u64))
    }),
    ("65,536 packed places", |r| both(r, 0, 0, MOST)),
    ("65,537 packed places", |r| both(r, 0, 0, MOST + 1)),
    ("65,000 relocations and 536 packed places", |r| both(r, 65_000, 0, 536)),
    ("65,000 relocations and 537 packed places", |r| both(r, 65_000, 0, 537)),
    ("65,000 relocations, 9 skipped, and 536 packed places", |r| both(r, 65_000, 9, 536)),
    ("65,000 relocations, 9 skipped, and 537 packed places", |r| both(r, 65_000, 9, 537)),
    ("1,000 relocations and 64,536 packed places", |r| both(r, 1_000, 0, 64_536)),
    ("65,536 relocations and a packed place", |r| both(r, MOST, 3, 1)),
    ("65,536 relocations and no packed place", |r| both(r, MOST, 3, 0)),
    ("65,536 packed places, the last repeats the first", |r| {
        let shape = Shape { relocations: Some(0), packed: Some(LAST), ..Shape::default() };
        let mut m = Module::shaped(r, &shape);
        let words = [&m.packed[..], &m.packed[..1]].concat();
        assert!(m.put_packed(words));
        (m.call(), Refused(11, m.packed.len() as u64 - 1))
    }),
    ("2,000,000 empty bitmaps, and a place outside", |r| {
        let (m, at) = empty_row(r, 2_000_000, &[1 << 32]);
        (m.call(), Refused(11, m.relocations.len() as u64 + at))
    }),
    ("120,000 empty bitmaps, and too many places", |r| {
        let (m, at) = empty_row(r, 120_000, &[u64::MAX; MOST / 63 + 1]);
        let passed = passing(m.relocations.len(), &m.packed).expect("too many places");
        assert!(passed as u64 > at);
        (m.call(), Refused(15, passed as u64))
    }),
    ("65,536 relocations over the largest memory", |r| {
        let places = mixed_places(r, 0, MOST);
        (over_largest_memory(r, &places, Vec::new()), Taken)
    }),
    ("65,536 relocations over the largest memory but its first bytes", |r| {
        let lowest = 8 * r.below(1 << 16);
        let places = mixed_places(r, lowest, MOST);
        (over_largest_memory(r, &places, Vec::new()), Taken)
    }),
    ("the last of them repeats the memory's first place", |r| last_repeats(r, 0, 0)),
    ("the last of them repeats the memory's last place", |r| last_repeats(r, 0, LARGEST - 8)),
    ("the last of them repeats a place beside a MiB", |r| {
        let place = r.pick(&sides(0));
        last_repeats(r, 0, place)
    }),
    ("the last of them repeats a place beside a MiB from the lowest", |r| {
        let lowest = 8 * r.from(1, 1 << 16);
        let place = r.pick(&sides(lowest));
        last_repeats(r, lowest, place)
    }),
    ("65,000 relocations and 536 packed places over the largest memory", |r| {
        let mut places = mixed_places(r, 4 << 20, MOST);
        let packed = places.split_off(65_000);
        (over_largest_memory(r, &places, packed), Taken)
    }),
    ("65,000 relocations over the largest memory, a packed place repeats one", |r| {
        let mut places = mixed_places(r, 4 << 20, 65_000 + 535);
        let packed = [&places[65_000..], &[r.pick(&places[..65_000])]].concat();
        places.truncate(65_000);
        (over_largest_memory(r, &places, packed), Refused(11, 65_535))
    }),
    ("65,535 descriptors", |r| (many_globals(r, LAST).call(), Taken)),
    ("65,536 descriptors", |r| (many_globals(r, MOST).call(), Taken)),
    ("65,537 descriptors", |r| (many_globals(r, MOST + 1).call(), Refused(9, MOST as u64))),
    ("65,536 descriptors and a cut one", |r| {
        let mut m = many_globals(r, MOST);
        last_descriptor(&mut m, MOST, &[0x80]);
        (m.call(), Refused(9, MOST as u64))
    }),
    ("65,536 descriptors and a padded one", |r| {
        let mut m = many_globals(r, MOST);
        last_descriptor(&mut m, MOST, &[0x81, 0]);
        (m.call(), Refused(9, MOST as u64))
    }),
    ("65,536 descriptors, the last padded", |r| {
        let mut m = many_globals(r, MOST);
        last_descriptor(&mut m, LAST, &[0x81, 0x80, 0]);
        (m.call(), Refused(16, LAST as u64))
    }),
    ("65,536 descriptors, the last cut", |r| {
        let mut m = many_globals(r, MOST);
        last_descriptor(&mut m, LAST, &[0x80]);
        (m.call(), Refused(8, LAST as u64))
    }),
    ("65,536 descriptors, the last choice as before", |r| {
        let mut m = many_globals(r, MOST);
        m.choices[LAST] = m.choices[LAST - 1];
        (m.call(), Refused(14, LAST as u64))
    }),
    ("65,536 descriptors and a choice too few", |r| {
        let mut m = many_globals(r, MOST);
        m.choices.pop();
        (m.call(), Refused(14, MOST as u64))
    }),
    ("everything at its limit", |r| {
        let mut m = Module::shaped(
            r,
            &Shape {
                loads: Some(1),
                headers: Some(16),
                entries: Some(256),
                null_last: true,
                globals: Some(MOST),
                short_globals: true,
                relocations: Some(MOST),
                packed: None,
                packed_words: None,
                spare: Some(false),
                bss: Some(900_000),
                level: false,
                file_length: Some(LARGEST as usize),
            },
        );
        let load = m.loads()[0];
        m.headers[load].memory_size = LARGEST - m.headers[load].address;
        (m.memory, m.plane) = (LARGEST, LARGEST / 16);
        let taken = if m.bias + m.memory <= 1 << 48 { Taken } else { Refused(12, 0) };
        (m.call(), taken)
    }),
];
