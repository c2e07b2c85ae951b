//! Long tables with places in any order, against a search of all pairs or a set of all places.

use loader::bench::{entries, ORDERS};
use loader::ffi::proved;
use loader::random::Random;
use loader::{examine, Refusal, MOST};
use std::collections::{BTreeSet, HashSet};

/// Where the RELA table stands in a file, by its dynamic entries behind two program headers.
fn table_at(file: &[u8]) -> usize {
    let word = |at: usize| u64::from_le_bytes(file[at..at + 8].try_into().unwrap());
    let at = (64 + 2 * 56..).step_by(16).find(|&at| word(at) == 7).unwrap();
    word(at + 8) as usize
}

/// The answer of examine for RELATIVE entries at some places, of which some are skipped. Where this was
/// built with the archive, the archive gives the same.
fn answer(size: usize, places: &[u64], skipped: &[usize]) -> Result<u64, Refusal> {
    let mut file = entries(size, places, false).file;
    let at = table_at(&file);
    for i in skipped {
        file[at + 24 * i + 8..][..8].fill(0);
    }
    let answer = examine(&file).map(|facts| facts.words);
    if let Some(archive) = proved() {
        let number = answer.as_ref().map_or_else(|r| r.position << 8 | u64::from(r.number), |_| 0);
        assert_eq!(archive.examine(&file), number);
    }
    answer
}

fn by_pairs(places: &[u64], skipped: &[usize]) -> Result<u64, Refusal> {
    let live: Vec<usize> = (0..places.len()).filter(|i| !skipped.contains(i)).collect();
    let repeats = |&k: &usize| live[..k].iter().any(|&i| places[i] == places[live[k]]);
    match (0..live.len()).find(repeats) {
        Some(k) => Err(Refusal { number: 11, position: live[k] as u64 }),
        None => Ok(live.len() as u64),
    }
}

fn by_set(places: &[u64], skipped: &[usize]) -> Result<u64, Refusal> {
    let mut met = HashSet::new();
    let live = (0..places.len()).filter(|i| !skipped.contains(i));
    match live.into_iter().find(|&i| !met.insert(places[i])) {
        Some(i) => Err(Refusal { number: 11, position: i as u64 }),
        None => Ok(met.len() as u64),
    }
}

#[test]
fn as_by_pairs() {
    let mut r = Random::new(11);
    let (mut taken, mut refused) = (0, 0);
    for i in 0..1_200 {
        let size = r.pick(&[32 << 10, 64 << 10, 100 << 10, 512 << 10, 1 << 20]);
        let count = r.pick(&[1, 2, 65, 300, 1_000, 1_024]);
        // The others need the largest memory.
        let orders = if size < 1 << 20 { &ORDERS[..4] } else { &ORDERS };
        let (_, order) = r.pick(orders);
        let mut places = order(size as u64, count);
        // A few places as another's, or near it, or far from it.
        for _ in 0..r.below(4) {
            let (from, to) = (r.index(places.len()), r.index(places.len()));
            let off = r.pick(&[0, 0, 8, 16, 64, 256, 512, 4_096, 32 << 10, 64 << 10, 256 << 10]);
            places[to] = (places[from] + off) % size as u64;
        }
        let skipped: Vec<usize> = (0..r.below(4)).map(|_| r.index(places.len())).collect();
        let expected = by_pairs(&places, &skipped);
        assert_eq!(by_set(&places, &skipped), expected, "case {i}");
        assert_eq!(answer(size, &places, &skipped), expected, "case {i}");
        match expected {
            Ok(_) => taken += 1,
            Err(_) => refused += 1,
        }
    }
    println!("{taken} taken, {refused} refused");
    assert!(taken > 300 && refused > 300, "{taken} taken, {refused} refused");
}

/// So many distinct places from the lowest one on: most of them near a multiple of 1 MiB or of 4 MiB from
/// it, on either side.
fn clustered(r: &mut Random, size: u64, lowest: u64, count: usize) -> Vec<u64> {
    let near = r.pick(&[3, 20, 700]);
    let mut places = BTreeSet::from([lowest]);
    while places.len() < count {
        let step = r.pick(&[1 << 20, 1 << 20, 4 << 20]);
        let place = match r.below(5) {
            0 => lowest + 8 * r.below((size - lowest) / 8),
            // A cluster is full after some time.
            _ if places.len() > 40 * near as usize => 8 * r.below(size / 8),
            _ => {
                let middle = lowest + step * r.below(size / step + 1);
                (middle + 8 * r.below(near)).wrapping_sub(8 * r.below(near))
            }
        };
        if (lowest..=size - 8).contains(&place) {
            places.insert(place);
        }
    }
    places.into_iter().collect()
}

/// Memories of several MiB.
#[test]
fn as_by_set() {
    let mut r = Random::new(24);
    let (mut taken, mut refused) = (0, 0);
    for i in 0..600 {
        let size =
            r.pick(&[2 << 20, 4 << 20, 5 << 20, 8 << 20, 11 << 20, (16 << 20) - 8, 16 << 20]);
        let lowest =
            r.pick(&[0, 8, 504, 4_088, (1 << 20) - 8, 1 << 20]) + 8 * r.below(2) * r.below(9_999);
        let (size, count) = match i % 60 {
            0 => (16 << 20, MOST),
            _ => (size, r.pick(&[2, 65, 300, 1_024, 4_096])),
        };
        let mut places = clustered(&mut r, size, lowest, count);
        match r.below(4) {
            0 => {}
            1 => places.reverse(),
            _ => r.shuffle(&mut places),
        }
        // A few places as another's, or beside it, or some MiB from it.
        for _ in 0..r.below(4) {
            let (from, to) = (r.index(count), r.index(count));
            let off = r.pick(&[0, 0, 0, 8, 512, 1 << 17, 1 << 20, 4 << 20, (4 << 20) + 8]);
            places[to] = (places[from] + off) % size;
        }
        if r.once_in(4) {
            places[count - 1] = places[r.index(count)];
        }
        let skipped: Vec<usize> = (0..r.below(4)).map(|_| r.index(count)).collect();
        let expected = by_set(&places, &skipped);
        assert_eq!(answer(size as usize, &places, &skipped), expected, "case {i}");
        match expected {
            Ok(_) => taken += 1,
            Err(_) => refused += 1,
        }
    }
    println!("{taken} taken, {refused} refused");
    assert!(taken > 150 && refused > 150, "{taken} taken, {refused} refused");
}

/// On both sides of each MiB from the lowest place: the last entry repeats each of these places once, and
/// is beside each once.
#[test]
fn sides_of_each_mib() {
    let size = 16 << 20;
    for lowest in [0, 0x1238, 0x9_fff8] {
        let mut r = Random::new(lowest);
        let middles = (0..=16).map(|i| lowest + (i << 20));
        let sides = middles.flat_map(|middle| [middle.wrapping_sub(16), middle, middle + 16]);
        let mut places: Vec<u64> = sides.filter(|p| (lowest..size).contains(p)).collect();
        r.shuffle(&mut places);
        let count = places.len() as u64;
        places.push(0);
        for i in 0..places.len() - 1 {
            let refusal = Refusal { number: 11, position: count };
            *places.last_mut().unwrap() = places[i];
            assert_eq!(answer(size as usize, &places, &[]), Err(refusal), "{:#x}", places[i]);
            for beside in [places[i].wrapping_sub(8), places[i] + 8] {
                if (lowest..size).contains(&beside) {
                    *places.last_mut().unwrap() = beside;
                    assert_eq!(answer(size as usize, &places, &[]), Ok(count + 1), "{beside:#x}");
                }
            }
        }
    }
}

/// The orders have no repeat, and a repeat at either end is found.
#[test]
fn orders() {
    let sizes = [(1 << 20, 2), (1 << 20, 256), (1 << 20, 1_000), (1 << 20, 1_024)];
    let large = [(16 << 20, 1_024), (16 << 20, MOST as u64)];
    for (name, order) in ORDERS {
        for (size, count) in sizes.into_iter().chain(large) {
            let mut places = order(size as u64, count);
            assert_eq!(places.len() as u64, count, "{name}");
            assert_eq!(answer(size, &places, &[]), Ok(count), "{name}");
            let last = places.len() - 1;
            places[last] = places[0];
            let refusal = Refusal { number: 11, position: count - 1 };
            assert_eq!(answer(size, &places, &[]), Err(refusal), "{name}");
            assert_eq!(answer(size, &places, &[0]), Ok(count - 1), "{name}");
        }
    }
}
