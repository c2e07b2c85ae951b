//! Packed tables of random words beside RELA entries, against the rules one by one, on exact numbers and
//! bit by bit.

use loader::answers::{packed, Call, Loader, RIGHT};
use loader::random::Random;
use loader::{examine, load_untagged, Facts, Refusal};

const LENGTH: usize = 0x5400;
/// Bytes of the first PT_LOAD that are in the file, and where those of the last one begin.
const FILE: usize = 0x1804;
const LAST: usize = 0x1808;
/// PT_LOADs, as flags, offset, address, bytes in the file and in memory: writable, with zeros from 0x1804
/// on; read-only; writable, of zeros alone; read-only, for the packed table.
const LOADS: [(u64, usize, u64, u64, u64); 4] = [
    (6, 0, 0, FILE as u64, 0x2000),
    (4, 0, 0x2000, 0x100, 0x800),
    (6, 0, 0x2800, 0, 0x800),
    (4, LAST, PACKED, 0x2400, 0x2400),
];
const RELA: usize = 0x300;
const PACKED: u64 = 0x3000;
/// Most RELA entries and packed places together.
const MOST: u64 = 65_536;
/// The globals of the bench sheet and their tags: (start, end, tag).
const TABLE: [u8; 5] = [0x82, 0x10, 0x10, 0x07, 0x01];
const GLOBALS: [(u64, u64, u8); 3] =
    [(0x1000, 0x1020, 3), (0x1040, 0x10c0, 9), (0x10c0, 0x10d0, 5)];

fn put(file: &mut [u8], at: usize, words: &[u64]) {
    for (i, word) in words.iter().enumerate() {
        file[at + 8 * i..][..8].copy_from_slice(&word.to_le_bytes());
    }
}

/// Words loaded at places, RELATIVE and skipped entries (place, kind, addend), and packed words.
struct Parts {
    loaded: Vec<(u64, u64)>,
    entries: Vec<(u64, u64, u64)>,
    words: Vec<u64>,
}

fn file(parts: &Parts) -> Vec<u8> {
    let mut file = vec![0; LAST + 0x2400];
    file[..7].copy_from_slice(&[0x7f, 0x45, 0x4c, 0x46, 2, 1, 1]);
    put(&mut file, 16, &[3 | 183 << 16 | 1 << 32, 0, 64]);
    put(&mut file, 48, &[56 << 48, 5]);
    for (i, (flags, offset, address, file_size, memory_size)) in LOADS.into_iter().enumerate() {
        let header = [1 | flags << 32, offset as u64, address, 0, file_size, memory_size, 1];
        put(&mut file, 64 + 56 * i, &header);
    }
    put(&mut file, 64 + 56 * 4, &[2 | 6 << 32, 0, 0x180, 0, 144, 144, 8]);
    let sizes = [24 * parts.entries.len() as u64, 8 * parts.words.len() as u64];
    put(&mut file, 0x180, &[7, RELA as u64, 8, sizes[0], 9, 24]);
    put(&mut file, 0x1b0, &[36, PACKED, 35, sizes[1], 37, 8]);
    put(&mut file, 0x1e0, &[0x7000_000d, 0x280, 0x7000_000f, TABLE.len() as u64, 0, 0]);
    file[0x280..][..TABLE.len()].copy_from_slice(&TABLE);
    for (i, &(place, kind, addend)) in parts.entries.iter().enumerate() {
        put(&mut file, RELA + 24 * i, &[place, kind, addend]);
    }
    put(&mut file, LAST, &parts.words);
    for &(place, word) in &parts.loaded {
        let size = FILE.saturating_sub(place as usize).min(8);
        file[place as usize..][..size].copy_from_slice(&word.to_le_bytes()[..size]);
    }
    file
}

/// The address space before relocation.
fn loaded(file: &[u8]) -> Vec<u8> {
    let mut memory = vec![0; LENGTH];
    for (_, offset, address, file_size, _) in LOADS {
        let size = file_size as usize;
        memory[address as usize..][..size].copy_from_slice(&file[offset..][..size]);
    }
    memory
}

fn tag(address: u128, bias: u64) -> u64 {
    let of =
        |g: &(u64, u64, u8)| (u128::from(bias + g.0)..u128::from(bias + g.1)).contains(&address);
    GLOBALS.iter().find(|g| of(g)).map_or(0, |g| u64::from(g.2))
}

/// Words written: (place, address, tag).
type Written = Vec<(u64, u64, u64)>;

/// The words written, or number and position.
fn by_words(parts: &Parts, bias: u64) -> Result<Written, (u8, u64)> {
    let entries = parts.entries.len() as u64;
    // 15, and the places.
    let (mut run, mut total, mut places) = (None, entries, Vec::new());
    for (i, &word) in parts.words.iter().enumerate() {
        let position = i as u64;
        if word % 2 == 0 {
            places.push((position, u128::from(word)));
            run = Some(u128::from(word) + 8);
            total += 1;
        } else {
            let start = run.ok_or((15, position))?;
            for bit in 1..64 {
                if word & 1 << bit != 0 {
                    places.push((position, start + 8 * (bit - 1)));
                    total += 1;
                }
            }
            run = Some(start + 504);
        }
        if total > MOST {
            return Err((15, position));
        }
    }
    // 11 over both tables, then 13.
    let memory = loaded(&file(parts));
    let mut all = Vec::new();
    for (i, &(place, kind, addend)) in parts.entries.iter().enumerate() {
        if kind != 0 {
            all.push((i as u64, u128::from(place), Some(addend)));
        }
    }
    all.extend(places.into_iter().map(|(i, place)| (entries + i, place, None)));
    for (i, &(position, place, _)) in all.iter().enumerate() {
        let inside = LOADS.iter().any(|&(flags, _, address, _, size)| {
            flags & 2 != 0
                && u128::from(address) <= place
                && place + 8 <= u128::from(address + size)
        });
        if place % 8 != 0 || !inside || all[..i].iter().any(|before| before.1 == place) {
            return Err((11, position));
        }
    }
    let mut out = Vec::new();
    for &(position, place, addend) in &all {
        let place = place as usize;
        let word = u64::from_le_bytes(memory[place..place + 8].try_into().unwrap());
        let address = i128::from(bias) + addend.map_or(word.into(), |a| i128::from(a as i64));
        if !(0..1 << 48).contains(&address) {
            return Err((13, position));
        }
        let source = match addend {
            Some(addend) => bias.wrapping_add(addend).wrapping_add(word).into(),
            None => address as u128,
        };
        out.push((place as u64, address as u64, tag(source, bias)));
    }
    Ok(out)
}

fn parts(r: &mut Random) -> Parts {
    let slot = |r: &mut Random| match r.below(12) {
        0 => r.pick(&[0x1800, 0x1ff8, 0x2800, 0x2ff8, 0x1808]),
        1 => r.pick(&[0x2000, 0x27f8, 0x3000, 0x5400, 0x1ffc, 0x1802, 4, 0u64.wrapping_sub(8)]),
        _ => 0x800 + 8 * r.below(0x200),
    };
    let target = |r: &mut Random| match r.below(8) {
        0 => {
            r.pick(&[0xfff, 0x1000, 0x101f, 0x1020, 0x103f, 0x1040, 0x10bf, 0x10c0, 0x10cf, 0x10d0])
        }
        1 if r.once_in(12) => r.edge(),
        _ => r.below(LENGTH as u64),
    };
    let most = r.pick(&[0, 1, 3, 8, 25]);
    let mut words: Vec<u64> = (0..r.below(most + 1))
        .map(|_| match r.below(8) {
            0..=3 => slot(r),
            4 => 1,
            5 => r.word() & r.word() & r.word() & r.word() & r.word() | 1,
            6 if r.once_in(4) => u64::MAX,
            _ => 1 | 2 << r.below(63),
        })
        .collect();
    if let Some(first) = words.first_mut() {
        if *first % 2 == 1 && !r.once_in(9) {
            *first = slot(r);
        }
    }
    let entries: Vec<(u64, u64, u64)> = (0..r.below(6))
        .map(|_| match r.below(4) {
            0 => (slot(r), 0, r.word()),
            _ => (slot(r), 1027, target(r)),
        })
        .collect();
    if r.once_in(40) {
        // As many places as there may be, a few more or a few fewer, and words after them.
        words = [vec![slot(r)], vec![u64::MAX; MOST as usize / 63 - 1]].concat();
        let left = MOST as usize - entries.len() - 1 - 63 * (words.len() - 1);
        let bits = left + 2 - r.index(5);
        words.extend([u64::MAX >> (63 - bits.min(63)), u64::MAX >> (63 - (bits - bits.min(63)))]);
        words.extend(vec![1; r.index(3)]);
    }
    // The first writable PT_LOAD's places all hold a word whose address is in range, as a rule.
    let places = (0..0x200).map(|i| 0x800 + 8 * i).chain([0x1800]);
    let mut loaded: Vec<(u64, u64)> = places.map(|place| (place, target(r))).collect();
    if r.once_in(8) {
        let at = r.index(loaded.len());
        loaded[at].1 = r.edge();
    }
    Parts { loaded, entries, words }
}

#[test]
fn random_words() {
    let mut r = Random::new(36);
    let mut seen = [0; 16];
    let mut places = 0;
    for i in 0..40_000 {
        let parts = parts(&mut r);
        let bias = r.pick(&[0, 0x4000_0000, 4096, (1 << 48) - 0x6000]);
        let call = Call {
            file: file(&parts),
            bias,
            memory_length: LENGTH,
            plane_length: LENGTH / 16,
            choices: GLOBALS.iter().map(|g| g.2).collect(),
        };
        let outcome = RIGHT.outcome(&call);
        let bare = load_untagged(&call.file, bias, LENGTH as u64);
        match by_words(&parts, bias) {
            Ok(written) => {
                let mut memory = loaded(&call.file);
                for &(place, address, _) in &written {
                    put(&mut memory, place as usize, &[address]);
                }
                assert!(bare.is_ok_and(|bare| bare.memory == memory), "case {i}");
                for &(place, address, tag) in &written {
                    put(&mut memory, place as usize, &[address | tag << 56]);
                }
                assert_eq!(outcome.load, 3 * 256, "case {i}: {:x?}", parts.words);
                assert!(outcome.memory == memory, "case {i}: {:x?}", parts.words);
                assert_eq!(examine(&call.file).map(|facts| facts.words), Ok(written.len() as u64));
                places += written.len();
                seen[0] += 1;
            }
            Err((number, position)) => {
                let refusal = Refusal { number, position };
                let answer = packed(&Err::<Facts, _>(refusal));
                assert_eq!(outcome.load, answer, "case {i}: {:x?}", parts.words);
                assert_eq!(outcome.examine, if number == 13 { 3 * 256 } else { answer });
                assert!(outcome.untouched(), "case {i}");
                assert_eq!(bare.err(), Some(refusal), "case {i}");
                seen[usize::from(number)] += 1;
            }
        }
    }
    println!("{places} places; taken and refused: {seen:?}");
    assert!([0, 11, 13, 15].iter().all(|&number| seen[number] > 400), "{seen:?}");
}
