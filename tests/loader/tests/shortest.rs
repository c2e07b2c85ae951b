//! Descriptor tables in shortest form and in others: the Rust reader, and the archive where this was built
//! with it, against the words of the documents.

use loader::answers::{Listing, Loader, RIGHT};
use loader::by_words::{self, forms, uleb};
use loader::ffi::proved;
use loader::generate::list::write_case;
use loader::generate::module::{longer, LONGS};
use loader::generate::{count, step_case, SEED};
use loader::random::Random;
use loader::{Refusal, Step};
use std::collections::HashMap;

fn loaders() -> impl Iterator<Item = &'static dyn Loader> {
    std::iter::once(&RIGHT as &dyn Loader).chain(proved())
}

/// Addresses and sizes.
type Globals = (Vec<u64>, Vec<u64>);

/// The globals of a table that steps read to its end.
fn listed(
    table: &[u8],
    step: impl Fn(&[u8], u64, u64, u64) -> Result<Step, Refusal>,
) -> Result<Globals, Refusal> {
    let (mut at, mut last_end) = (0, 0);
    let (mut addresses, mut sizes) = (Vec::new(), Vec::new());
    while let Step::Global { start, granules, position, end } =
        step(table, at, last_end, sizes.len() as u64)?
    {
        addresses.push(start);
        sizes.push(16 * granules);
        (at, last_end) = (position, end);
    }
    Ok((addresses, sizes))
}

fn listed_by(loader: &dyn Loader, table: &[u8]) -> Result<Globals, Refusal> {
    listed(table, |table, at, end, index| {
        loader.step(table, at, end, index).expect("a loader with steps")
    })
}

/// The globals of a table whatever its form, where all descriptors read and end at most at 2^48.
fn meant(table: &[u8]) -> Option<Globals> {
    let (mut last_end, mut addresses, mut sizes) = (0, Vec::new(), Vec::new());
    for form in forms(table)? {
        let start = last_end + 16 * form.distance();
        last_end = start + 16 * form.granules();
        if last_end > 1 << 48 {
            return None;
        }
        addresses.push(start as u64);
        sizes.push(16 * form.granules() as u64);
    }
    Some((addresses, sizes))
}

/// A list with room for any table of it.
fn wide((addresses, sizes): &Globals) -> Listing {
    let buffer_length = 14 * addresses.len();
    Listing { addresses: addresses.clone(), sizes: sizes.clone(), buffer_length }
}

/// The table that a loader writes of globals.
fn written(loader: &dyn Loader, globals: &Globals) -> Vec<u8> {
    loader.written(&wide(globals)).table().expect("a list that is taken").to_vec()
}

/// What the documents say of a table, and each loader too. Where they take it, it is written again in the
/// same bytes; where 16 alone stands against it, in fewer.
fn check(table: &[u8]) -> Result<Globals, Refusal> {
    let expected = listed(table, by_words::step);
    for loader in loaders() {
        assert_eq!(listed_by(loader, table), expected, "{table:02x?}");
        if let Ok(globals) = &expected {
            assert_eq!(written(loader, globals), table);
        } else if let Some(globals) = meant(table) {
            assert_eq!(expected.as_ref().map_err(|r| r.number), Err(16), "{table:02x?}");
            assert!(written(loader, &globals).len() < table.len(), "{table:02x?}");
        }
    }
    expected
}

/// All tables of one and two bytes, and those of three and four from some bytes. No two that are taken list
/// the same globals.
#[test]
fn every_small_table() {
    let some = [0, 1, 6, 7, 8, 9, 0x0f, 0x10, 0x3f, 0x7f, 0x80, 0x81, 0x86, 0x87, 0x88, 0xf8, 0xff];
    let all: Vec<u8> = (0..=255).collect();
    let mut met = HashMap::new();
    let mut seen = [0u64; 17];
    let mut each = |table: Vec<u8>| match check(&table) {
        Ok(globals) => {
            seen[0] += 1;
            let before = met.insert(globals, table.clone());
            assert!(before.is_none_or(|other| other == table), "{table:02x?}");
        }
        Err(r) => seen[usize::from(r.number)] += 1,
    };
    each(Vec::new());
    for &a in &all {
        each(vec![a]);
        all.iter().for_each(|&b| each(vec![a, b]));
    }
    for &a in &some {
        for &b in &some {
            for &c in &some {
                each(vec![a, b, c]);
                some.iter().for_each(|&d| each(vec![a, b, c, d]));
            }
        }
    }
    println!("taken {}, 8: {}, 16: {}", seen[0], seen[8], seen[16]);
    assert!(seen[0] > 50_000 && seen[8] > 50_000 && seen[16] > 10_000, "{seen:?}");
    assert_eq!(seen[0] + seen[8] + seen[16], seen.iter().sum());
}

/// A number in so many bytes, or none where it needs more.
fn in_bytes(value: u128, bytes: usize) -> Option<Vec<u8>> {
    let mut out = uleb(value);
    let more = bytes.checked_sub(out.len())?;
    if more > 0 {
        *out.last_mut()? |= 128;
        out.extend(vec![128; more - 1]);
        out.push(0);
    }
    Some(out)
}

/// Numbers where they grow by a byte and at the ends of what is read, in every length, as a first number
/// alone, as a second one and as both; 11 bytes are never read.
#[test]
fn every_length() {
    let grows = (1..10).flat_map(|i| [(1 << (7 * i)) - 1, 1 << (7 * i)]);
    let ends = (0..10).chain([1 << 44, 1 << 48, (1 << 63) - 1, 1 << 63, (1 << 64) - 1, 1 << 64]);
    let values: Vec<u128> = grows.chain(ends).collect();
    let mut lengths = [[0u64; 12]; 2];
    for &value in &values {
        for bytes in 1..=11 {
            let Some(number) = in_bytes(value, bytes) else { continue };
            let mut tables = vec![[&number[..], &[1]].concat(), [&[0], &number[..], &[1]].concat()];
            for other in 1..=11 {
                let first = in_bytes(value / 8 * 8, other);
                tables.extend(first.map(|first| [first, number.clone()].concat()));
            }
            for table in tables {
                let refused = check(&table).is_err_and(|r| r.number == 16 && r.position == 0);
                lengths[usize::from(table[0] % 8 == 0)][bytes] += u64::from(refused);
            }
        }
    }
    println!("16 by bytes of the number: {lengths:?}");
    for by_bytes in lengths {
        assert!(by_bytes[2..=10].iter().all(|&n| n > 0) && by_bytes[11] == 0);
    }
}

/// A table that was written, with one descriptor in each longer form: the same globals, refused by 16 at
/// that index.
#[test]
fn written_tables_in_longer_forms() {
    let mut seen = [0u64; LONGS.len()];
    for i in 0..count(4_000) {
        let Listing { addresses, sizes, .. } = write_case(SEED, i).list;
        let globals = (addresses, sizes);
        if globals.0.is_empty() || RIGHT.written(&wide(&globals)).number() != 0 {
            continue;
        }
        let mut r = Random::new(i);
        let table = written(&RIGHT, &globals);
        let forms = forms(&table).unwrap();
        let any = r.index(forms.len());
        let k = r.pick(&[0, forms.len() / 2, forms.len() - 1, any]);
        let at = forms[..k].iter().map(|form| form.bytes()).sum();
        let (distance, granules) = (forms[k].distance() as u64, forms[k].granules() as u64);
        for (how, seen) in LONGS.into_iter().zip(&mut seen) {
            let Some(other) = longer(&mut r, distance, granules, how) else { continue };
            let table = [&table[..at], &other, &table[at + forms[k].bytes()..]].concat();
            assert_eq!(meant(&table).as_ref(), Some(&globals), "list {i}, {how:?}");
            let refused = Err(Refusal { number: 16, position: k as u64 });
            assert_eq!(check(&table), refused, "list {i}, {how:?}");
            *seen += 1;
        }
    }
    println!("{seen:?}");
    assert!(seen.iter().all(|&n| n > 100), "{seen:?}");
}

/// Generated tables and steps, by the words.
#[test]
fn generated_tables() {
    let (mut taken, mut long) = (0, 0);
    for i in 0..count(20_000) {
        let c = step_case(SEED, i);
        match check(&c.table) {
            Ok((addresses, _)) => taken += u64::from(!addresses.is_empty()),
            Err(r) => long += u64::from(r.number == 16),
        }
        let expected = by_words::step(&c.table, c.position, c.last_end, c.index);
        for loader in loaders() {
            let step = loader.step(&c.table, c.position, c.last_end, c.index);
            assert_eq!(step, Some(expected), "step {i}");
        }
    }
    println!("{taken} tables taken and written again, {long} refused by 16");
    assert!(taken > 1_000 && long > 1_000);
}
