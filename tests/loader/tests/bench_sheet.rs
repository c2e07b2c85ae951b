//! The bench sheet of document 01 with what requests 2, 5 and 6 say, and its table written.

use loader::answers::{packed_facts, Call};
use loader::{examine, load, load_untagged, step, write_table};
use loader::{Facts, Mode, Refusal, Step, Switch};

const BIAS: u64 = 0x4000_0000;
const TABLE: [u8; 5] = [0x82, 0x10, 0x10, 0x07, 0x01];
const TAGS: [u8; 3] = [3, 9, 5];
const PLACE: u64 = 0x800;
const RELATIVE: u64 = 1027;

fn put(file: &mut [u8], at: usize, words: &[u64]) {
    for (i, word) in words.iter().enumerate() {
        file[at + 8 * i..][..8].copy_from_slice(&word.to_le_bytes());
    }
}

/// One writable PT_LOAD from 0 to 0x2000, a descriptor table and relocations (place, info, addend).
fn module(table: &[u8], relocations: &[(u64, u64, i64)], in_place: u64) -> Vec<u8> {
    let mut file = vec![0; 0x1000];
    file[..7].copy_from_slice(&[0x7f, 0x45, 0x4c, 0x46, 2, 1, 1]);
    put(&mut file, 16, &[3 | 183 << 16 | 1 << 32, 0, 64]);
    put(&mut file, 48, &[56 << 48, 2]);
    put(&mut file, 64, &[1 | 6 << 32, 0, 0, 0, 0x1000, 0x2000, 0x1000]);
    put(&mut file, 120, &[2 | 6 << 32, 0x100, 0x100, 0, 96, 96, 8]);
    let bytes = 24 * relocations.len() as u64;
    put(&mut file, 0x100, &[7, 0x200, 8, bytes, 9, 24]);
    put(&mut file, 0x130, &[0x7000_000d, 0x180, 0x7000_000f, table.len() as u64, 0, 0]);
    file[0x180..][..table.len()].copy_from_slice(table);
    for (i, &(place, info, addend)) in relocations.iter().enumerate() {
        put(&mut file, 0x200 + 24 * i, &[place, info, addend as u64]);
    }
    put(&mut file, PLACE as usize, &[in_place]);
    file
}

fn call(bias: u64, tags: &[u8], addend: i64, in_place: i64) -> Call {
    let file = module(&TABLE, &[(PLACE, RELATIVE, addend)], in_place as u64);
    Call { file, bias, memory_length: 0x2000, plane_length: 0x200, choices: tags.to_vec() }
}

/// The relocated word.
fn word(call: &Call) -> Result<u64, Refusal> {
    let mut memory = vec![0xee; call.memory_length];
    let mut plane = vec![0xee; call.plane_length];
    load(&call.file, call.bias, &mut memory, &mut plane, &call.choices)?;
    Ok(u64::from_le_bytes(memory[PLACE as usize..][..8].try_into().unwrap()))
}

fn refused<T>(number: u8, position: u64) -> Result<T, Refusal> {
    Err(Refusal { number, position })
}

/// Start and granules of all globals.
fn globals(table: &[u8]) -> Result<Vec<(u64, u64)>, Refusal> {
    let (mut at, mut last, mut list) = (0, 0, Vec::new());
    while let Step::Global { start, granules, position, end } =
        step(table, at, last, list.len() as u64)?
    {
        list.push((start, granules));
        (at, last) = (position, end);
    }
    Ok(list)
}

#[test]
fn descriptors() {
    assert_eq!(globals(&TABLE), Ok(vec![(0x1000, 2), (0x1040, 8), (0x10c0, 1)]));
    assert_eq!(globals(&[7]), Ok(vec![(0, 7)]));
    assert_eq!(globals(&[0, 7]), Ok(vec![(0, 8)]));
    assert_eq!(globals(&[0, 0]), refused(16, 0));
    assert_eq!(globals(&[0]), refused(8, 0));
    assert_eq!(globals(&[0x81, 0]), refused(16, 0));
    assert_eq!(globals(&[1]), Ok(vec![(0, 1)]));
    let number = |tenth| [&[0xff; 9][..], &[tenth]].concat();
    assert_eq!(globals(&number(2)), refused(8, 0));
    // 2^64 - 1 is read, and lies far outside.
    assert_eq!(globals(&number(1)), refused(9, 0));
    assert_eq!(examine(&module(&number(2), &[], 0)), refused(8, 0));
    assert_eq!(examine(&module(&number(1), &[], 0)), refused(9, 0));
    // In a module that has the range.
    assert_eq!(examine(&module(&[0x81, 0], &[], 0)), refused(16, 0));
    assert_eq!(examine(&module(&[0, 0], &[], 0)), refused(16, 0));
    assert_eq!(examine(&module(&[1], &[], 0)).map(|facts| facts.globals), Ok(1));
}

/// The table of a list of (address, bytes), in a buffer of so many bytes.
fn written(list: &[(u64, u64)], room: usize) -> Result<Vec<u8>, Refusal> {
    let (addresses, sizes): (Vec<u64>, Vec<u64>) = list.iter().copied().unzip();
    let mut buffer = vec![0xee; room];
    let length = write_table(&addresses, &sizes, &mut buffer)?;
    assert!(buffer[length..].iter().all(|&b| b == 0xee));
    buffer.truncate(length);
    Ok(buffer)
}

#[test]
fn tables() {
    let list = [(0x1000, 0x20), (0x1040, 0x80), (0x10c0, 0x10)];
    assert_eq!(written(&list, 40), Ok(TABLE.to_vec()));
    assert_eq!(written(&list, 5), Ok(TABLE.to_vec()));
    assert_eq!(written(&list, 4), refused(6, 0));
    // The example of the Memtag ABI.
    assert_eq!(written(&[(0x100, 0x20), (0x120, 0x20)], 28), Ok(vec![0x82, 1, 2]));
    assert_eq!(written(&[], 0), Ok(Vec::new()));
    assert_eq!(written(&[(0, 0x70)], 1), Ok(vec![7]));
    assert_eq!(written(&[(0, 0x80)], 2), Ok(vec![0, 7]));
    assert_eq!(written(&[(0, 0)], 14), refused(2, 0));
    assert_eq!(written(&[(0, 0x10), (0x18, 0x10)], 14), refused(3, 1));
    assert_eq!(written(&[(0, 0x20), (0x10, 0x10)], 14), refused(4, 1));
    assert_eq!(written(&[(0, 1 << 48)], 14).map(|table| table.len()), Ok(8));
    assert_eq!(written(&[(0x10, 1 << 48)], 14), refused(5, 0));
    assert_eq!(written(&[(0u64.wrapping_sub(16), 0x10)], 14), refused(5, 0));
    // Fourteen bytes are the most of a global.
    assert_eq!(written(&[(1 << 43, (1 << 46) + 16)], 14).map(|table| table.len()), Ok(14));
}

#[test]
fn facts() {
    let Facts { globals, words, .. } = examine(&call(BIAS, &TAGS, 0, 0).file).unwrap();
    assert_eq!((globals, words), (3, 1));
}

/// The layout that the C header gives.
#[test]
fn facts_as_a_number() {
    let most = (1 << 17) - 1;
    let bare = Facts {
        mode: Mode::Absent,
        heap: Switch::Absent,
        stack: Switch::Absent,
        globals: 0,
        words: 0,
    };
    let number = |facts| packed_facts(&Ok(facts));
    assert_eq!(packed_facts(&refused(10, 3)), 0);
    assert_eq!(number(bare), 1);
    assert_eq!(number(Facts { mode: Mode::Synchronous, ..bare }), 1 | 1 << 2);
    assert_eq!(number(Facts { mode: Mode::Asynchronous, ..bare }), 1 | 2 << 2);
    assert_eq!(number(Facts { heap: Switch::On, ..bare }), 1 | 2 << 4);
    assert_eq!(number(Facts { stack: Switch::Off, ..bare }), 1 | 1 << 6);
    assert_eq!(number(Facts { globals: most, ..bare }), 1 | most << 8);
    assert_eq!(number(Facts { words: most, ..bare }), 1 | most << 25);
}

#[test]
fn words() {
    assert_eq!(word(&call(BIAS, &TAGS, 0x10c0, -128)), Ok(0x0900_0000_4000_10c0));
    assert_eq!(word(&call(BIAS, &TAGS, 0x10c0, 0)), Ok(0x0500_0000_4000_10c0));
    assert_eq!(word(&call(BIAS, &TAGS, 0x10c0, -1)), Ok(0x0900_0000_4000_10c0));
    assert_eq!(word(&call(BIAS, &TAGS, 0x1020, 0)), Ok(0x0000_0000_4000_1020));
    assert_eq!(word(&call(0, &TAGS, -1, 0)), refused(13, 0));
    assert_eq!(word(&call(4096, &TAGS, -4096, 0)), Ok(0));
    let top = (1 << 48) - 1;
    assert_eq!(word(&call(BIAS, &TAGS, top - BIAS as i64, 0)), Ok(top as u64));
    assert_eq!(word(&call(BIAS, &TAGS, top - BIAS as i64 + 1, 0)), refused(13, 0));
}

/// The call with another align of the PT_LOAD: offset and address are 0, so any power of two is good.
fn aligned(align: u64, bias: u64) -> Call {
    let mut call = call(bias, &TAGS, 0x10c0, 0);
    put(&mut call.file, 64 + 48, &[align]);
    call
}

#[test]
fn aligns() {
    assert_eq!(word(&aligned(16_384, 4_096)), refused(12, 0));
    assert_eq!(word(&aligned(16_384, 16_384)), Ok(0x0500_0000_0000_50c0));
    let powers = (0..64).map(|i| 1u64 << i);
    for align in std::iter::once(0).chain(powers) {
        for bias in std::iter::once(0).chain((0..47).flat_map(|i| [1 << i, 3 << i])) {
            let call = aligned(align, bias);
            let fits = bias % 4_096 == 0 && bias % align.max(1) == 0;
            let expected = if fits { Ok(bias + 0x10c0 + (5 << 56)) } else { refused(12, 0) };
            assert_eq!(word(&call), expected, "align {align:#x}, bias {bias:#x}");
            let untagged = load_untagged(&call.file, bias, call.memory_length as u64);
            let bare = untagged.map(|u| u.memory[PLACE as usize..][..8].to_vec());
            let expected = expected.map(|word| (word << 8 >> 8).to_le_bytes().to_vec());
            assert_eq!(bare, expected, "untagged: align {align:#x}, bias {bias:#x}");
        }
    }
}

#[test]
fn arguments() {
    assert_eq!(word(&call(BIAS, &[3, 9, 9], 0, 0)), refused(14, 2));
    assert!(word(&call(BIAS, &[3, 3, 5], 0, 0)).is_ok());
    assert_eq!(word(&call(0x4000_0800, &TAGS, 0, 0)), refused(12, 0));
}

/// The module with so many relocations, in a file and a memory long enough for them.
fn long(relocations: usize) -> Call {
    let places = 0x200 + 24 * relocations;
    let size = (places + 8 * relocations).next_multiple_of(0x1000);
    let mut file = module(&TABLE, &[], 0);
    file.resize(size, 0);
    put(&mut file, 64 + 32, &[size as u64, size as u64]);
    put(&mut file, 0x118, &[24 * relocations as u64]);
    for i in 0..relocations {
        put(&mut file, 0x200 + 24 * i, &[(places + 8 * i) as u64, RELATIVE, 0x1040]);
    }
    Call { file, bias: BIAS, memory_length: size, plane_length: size / 16, choices: TAGS.to_vec() }
}

/// What the load and the untagged loader answer.
fn answers(call: &Call) -> [Result<u64, Refusal>; 2] {
    let mut memory = vec![0xee; call.memory_length];
    let mut plane = vec![0xee; call.plane_length];
    let facts = load(&call.file, call.bias, &mut memory, &mut plane, &call.choices);
    let untagged = load_untagged(&call.file, call.bias, call.memory_length as u64);
    [facts.map(|facts| facts.words), untagged.map(|untagged| untagged.places.len() as u64)]
}

#[test]
fn limits() {
    assert_eq!(answers(&long(1_025)), [Ok(1_025); 2]);
    let longest = long(65_536);
    assert_eq!(answers(&longest), [Ok(65_536); 2]);
    let mut memory = vec![0; longest.memory_length];
    let mut plane = vec![0; longest.plane_length];
    load(&longest.file, BIAS, &mut memory, &mut plane, &TAGS).unwrap();
    let places = memory[0x200 + 24 * 65_536..].chunks_exact(8).take(65_536);
    assert!(places.into_iter().all(|word| word == 0x0900_0000_4000_1040u64.to_le_bytes()));
    assert_eq!(answers(&long(65_537)), [refused(7, 0); 2]);

    // Memory, and the addresses of the PT_LOAD: 16,777,216.
    let mut call = call(BIAS, &TAGS, 0x10c0, 0);
    (call.memory_length, call.plane_length) = (1 << 24, 1 << 20);
    assert_eq!(answers(&call), [Ok(1); 2]);
    put(&mut call.file, 64 + 40, &[1 << 24]);
    assert_eq!(answers(&call), [Ok(1); 2]);
    put(&mut call.file, 64 + 40, &[(1 << 24) + 1]);
    assert_eq!(answers(&call), [refused(4, 0); 2]);
    put(&mut call.file, 64 + 40, &[0x2000]);
    (call.memory_length, call.plane_length) = ((1 << 24) + 16, (1 << 20) + 1);
    assert_eq!(answers(&call), [refused(12, 0); 2]);
    // The file.
    (call.memory_length, call.plane_length) = (0x2000, 0x200);
    call.file.resize(1 << 24, 0);
    assert_eq!(answers(&call), [Ok(1); 2]);
    call.file.push(0);
    assert_eq!(answers(&call), [refused(1, 0); 2]);

    // Globals of a granule each, one after the other.
    let globals = |count: usize| {
        let mut call = long(65_536);
        put(&mut call.file, 0x138, &[0x1000, 0x7000_000f, count as u64]);
        put(&mut call.file, 0x118, &[0]);
        call.file[0x1000..][..count].fill(1);
        call.choices = (0..count).map(|i| (i % 2 + 1) as u8).collect();
        let mut memory = vec![0; call.memory_length];
        let mut plane = vec![0; call.plane_length];
        load(&call.file, BIAS, &mut memory, &mut plane, &call.choices).map(|facts| facts.globals)
    };
    assert_eq!(globals(1_025), Ok(1_025));
    assert_eq!(globals(65_536), Ok(65_536));
    assert_eq!(globals(65_537), refused(9, 65_536));
}
