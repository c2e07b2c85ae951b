//! Lists of globals for the writer: valid ones, and changes at one rule of it, on the side that is
//! refused or just inside the limit, whose answer is known.

use super::damage::Expected::{self, Refused, Taken, Unknown};
use super::module::uleb;
use crate::answers::Listing;
use crate::random::Random;
use crate::writer::ENOUGH;
use crate::ADDRESS_END;
use std::ops::RangeInclusive;

/// Granules below 2^48.
pub(super) const GRANULES: u64 = ADDRESS_END / 16;

pub(super) struct List {
    pub(super) addresses: Vec<u64>,
    pub(super) sizes: Vec<u64>,
    buffer: usize,
}

impl List {
    pub(super) fn new() -> List {
        List { addresses: Vec::new(), sizes: Vec::new(), buffer: 0 }
    }

    pub(super) fn push(&mut self, address: u64, size: u64) {
        self.addresses.push(address);
        self.sizes.push(size);
    }

    pub(super) fn len(&self) -> usize {
        self.addresses.len()
    }

    /// Keeps the first globals only.
    fn cut(&mut self, count: usize) {
        self.addresses.truncate(count);
        self.sizes.truncate(count);
    }

    /// The end of the global before, or 0.
    pub(super) fn last_end(&self, at: usize) -> u64 {
        if at == 0 {
            0
        } else {
            self.addresses[at - 1] + self.sizes[at - 1]
        }
    }

    /// The table of a list that is taken, one number after the other.
    fn table(&self) -> Vec<u8> {
        let mut table = Vec::new();
        for (i, (address, size)) in self.addresses.iter().zip(&self.sizes).enumerate() {
            let (distance, granules) = ((address - self.last_end(i)) / 16, size / 16);
            if granules < 8 {
                table.extend(uleb(8 * distance + granules, 1));
            } else {
                table.extend(uleb(8 * distance, 1));
                table.extend(uleb(granules - 1, 1));
            }
        }
        table
    }

    /// A buffer that takes the table.
    fn fit(&mut self, r: &mut Random) {
        let length = self.table().len();
        self.buffer = match r.below(6) {
            0 | 1 => length,
            2 => length + 1,
            3 => length + r.index(40),
            4 => ENOUGH * self.len(),
            _ => ENOUGH * self.len() + r.index(40),
        };
    }

    fn listing(self) -> Listing {
        Listing { addresses: self.addresses, sizes: self.sizes, buffer_length: self.buffer }
    }

    fn random(r: &mut Random) -> List {
        let count = match r.below(64) {
            0 | 1 => 0,
            2..=15 => 1,
            16..=35 => r.from(2, 6),
            36..=59 => r.from(7, 40),
            _ => r.from(41, 200),
        };
        let count = if r.once_in(400) { r.from(1_000, 5_000) } else { count };
        List::of(r, count)
    }

    fn of(r: &mut Random, count: u64) -> List {
        let mut list = List::new();
        let mut at = 0;
        // A list of far or large globals alone would soon be at 2^48.
        let bits = r.pick(&[7, 14, 28, ALL]);
        for i in 0..count {
            // A granule is left for each global that follows.
            let left = GRANULES - at - (count - 1 - i);
            let start = at + distance(r, bits).min(left - 1);
            let granules = granules(r, bits).clamp(1, at + left - start);
            list.push(16 * start, 16 * granules);
            at = start + granules;
        }
        list.fit(r);
        list
    }
}

/// Bits of a number of granules, however large.
const ALL: u64 = 44;

/// A number at which ULEB128 grows by a byte.
fn turn(r: &mut Random, bits: u64) -> u64 {
    1 << (7 * r.from(1, bits / 7))
}

/// Granules before a global; often the first number is about to grow, or has just grown.
fn distance(r: &mut Random, bits: u64) -> u64 {
    match r.below(8) {
        0..=2 => 0,
        3 => r.below(3),
        4 => r.below(40),
        5 | 6 => turn(r, bits) / 8 + r.below(3) - 1,
        _ => 1 << r.below(bits),
    }
}

/// Granules of a global; often a second number is about to come or to grow.
fn granules(r: &mut Random, bits: u64) -> u64 {
    match r.below(8) {
        0..=2 => r.from(1, 6),
        3 | 4 => r.from(6, 9),
        5 => turn(r, bits) + r.below(3),
        6 => r.from(1, 300),
        _ => 1 << r.below(bits),
    }
}

/// Changes the global at an index, and at times the one behind it, or the list and the buffer as a
/// whole. None where that cannot be done to the list.
type Apply = fn(&mut List, usize, &mut Random) -> Option<Expected>;

pub struct Change {
    /// The refusal it is about; 0 for the encoding.
    pub row: u8,
    pub name: &'static str,
    pub(super) apply: Apply,
}

const fn change(row: u8, name: &'static str, apply: Apply) -> Change {
    Change { row, name, apply }
}

fn refused(number: u8, at: usize) -> Option<Expected> {
    Some(Refused(number, at as u64))
}

fn given(condition: bool) -> Option<()> {
    condition.then_some(())
}

/// A multiple of 16 below a number that is one, and not 0.
fn below(r: &mut Random, limit: u64) -> u64 {
    16 * r.below(limit / 16)
}

/// A global at an index, the last one of a list that is taken.
fn last_taken(
    l: &mut List,
    r: &mut Random,
    at: usize,
    address: u64,
    size: u64,
) -> Option<Expected> {
    given(address + size <= ADDRESS_END)?;
    l.cut(at);
    l.push(address, size);
    l.fit(r);
    Some(Taken)
}

/// A global at an index that is refused there.
fn global(l: &mut List, at: usize, address: u64, size: u64, number: u8) -> Option<Expected> {
    given(at < l.len())?;
    (l.addresses[at], l.sizes[at]) = (address, size);
    refused(number, at)
}

/// The last one's end, where there is one.
fn end_before(l: &List, at: usize) -> Option<u64> {
    given(0 < at && at < l.len())?;
    Some(l.last_end(at))
}

/// The global at an index.
fn at(l: &List, at: usize) -> Option<(u64, u64)> {
    given(at < l.len())?;
    Some((l.addresses[at], l.sizes[at]))
}

/// Bytes off a multiple of 16.
fn off(r: &mut Random) -> u64 {
    if r.once_in(3) {
        r.from(1, 15)
    } else {
        r.pick(&[1, 8, 15])
    }
}

/// Sizes that are too large whatever the address.
fn huge(r: &mut Random) -> u64 {
    let sizes = [ADDRESS_END + 16, 1 << 49, 1 << 52, 1 << 63, 0u64.wrapping_sub(ADDRESS_END)];
    if r.once_in(2) {
        r.pick(&sizes)
    } else {
        0u64.wrapping_sub(16 * r.from(1, 3))
    }
}

/// Addresses of 2^48 and above.
fn high(r: &mut Random) -> u64 {
    let addresses = [ADDRESS_END, ADDRESS_END + 16, 1 << 49, 1 << 60, 1 << 63];
    if r.once_in(2) {
        r.pick(&addresses)
    } else {
        0u64.wrapping_sub(16 * r.from(1, 3))
    }
}

/// Both sides of every limit. What is refused here is so whatever the globals after it.
pub const CHANGES: &[Change] = &[
    // Encoding.
    change(0, "nothing listed", |l, _, r| {
        l.cut(0);
        l.buffer = r.pick(&[0, 1, 30]);
        Some(Taken)
    }),
    change(0, "one granule at 0", |l, _, r| last_taken(l, r, 0, 0, 16)),
    change(0, "one granule at 16", |l, _, r| last_taken(l, r, 0, 16, 16)),
    change(0, "6 to 9 granules", |l, i, r| {
        let (address, _) = at(l, i)?;
        let size = 16 * r.from(6, 9);
        last_taken(l, r, i, address, size)
    }),
    change(0, "the first number grows by a byte", |l, i, r| {
        given(i <= l.len())?;
        // Numbers from 8 below to 15 above, with the size in it or not.
        let address = l.last_end(i) + 16 * (turn(r, ALL) / 8 + r.below(3) - 1);
        let size = 16 * r.from(1, 9);
        last_taken(l, r, i, address, size)
    }),
    change(0, "the second number grows by a byte", |l, i, r| {
        given(i <= l.len())?;
        let address = l.last_end(i) + 16 * r.below(20);
        let size = 16 * (turn(r, ALL) + r.below(3));
        last_taken(l, r, i, address, size)
    }),
    change(0, "fourteen bytes", |l, _, r| {
        let address = 16 * ((1 << 39) + r.below(2));
        let size = 16 * ((1 << 42) + r.from(1, 2));
        last_taken(l, r, 0, address, size)
    }),
    change(0, "abutting granules", |l, _, r| {
        l.cut(0);
        for i in 0..r.from(2, 150) {
            l.push(16 * i, 16);
        }
        l.fit(r);
        Some(Taken)
    }),
    // 1.
    change(1, "an address too many", |l, _, r| {
        l.addresses.push(below(r, ADDRESS_END));
        refused(1, 0)
    }),
    change(1, "a size too many", |l, _, r| {
        l.sizes.push(16 * r.below(9));
        refused(1, 0)
    }),
    change(1, "an address too few", |l, _, _| {
        l.addresses.pop()?;
        refused(1, 0)
    }),
    change(1, "a size too few", |l, _, _| {
        l.sizes.pop()?;
        refused(1, 0)
    }),
    change(1, "many addresses too many", |l, _, r| {
        l.addresses.extend((0..r.from(2, 300)).map(|i| 16 * i));
        refused(1, 0)
    }),
    change(1, "many sizes too many", |l, _, r| {
        l.sizes.extend((0..r.from(2, 300)).map(|i| 16 * i));
        refused(1, 0)
    }),
    change(1, "no addresses", |l, _, _| {
        given(!l.addresses.is_empty())?;
        l.addresses.clear();
        refused(1, 0)
    }),
    change(1, "no sizes", |l, _, _| {
        given(!l.addresses.is_empty())?;
        l.sizes.clear();
        refused(1, 0)
    }),
    // 2.
    change(2, "size 0", |l, i, _| {
        let (address, _) = at(l, i)?;
        global(l, i, address, 0, 2)
    }),
    change(2, "size 0, address off a multiple", |l, i, r| {
        let (address, _) = at(l, i)?;
        global(l, i, address + off(r), 0, 2)
    }),
    change(2, "size 0, start too low", |l, i, r| {
        let end = end_before(l, i)?;
        let address = below(r, end);
        global(l, i, address, 0, 2)
    }),
    change(2, "size 0, start too low and off a multiple", |l, i, r| {
        let end = end_before(l, i)?;
        global(l, i, end - off(r), 0, 2)
    }),
    change(2, "size 0, start too high", |l, i, r| global(l, i, high(r), 0, 2)),
    // 3.
    change(3, "size off a multiple", |l, i, r| {
        let (address, size) = at(l, i)?;
        let size = if r.once_in(2) { size + off(r) } else { size - off(r) };
        global(l, i, address, size, 3)
    }),
    change(3, "size below a granule", |l, i, r| {
        let (address, _) = at(l, i)?;
        global(l, i, address, off(r), 3)
    }),
    change(3, "address off a multiple", |l, i, r| {
        let (address, size) = at(l, i)?;
        global(l, i, address + off(r), size, 3)
    }),
    change(3, "both off a multiple", |l, i, r| {
        let (address, size) = at(l, i)?;
        let by = off(r);
        let rest = if r.once_in(2) { 16 - by } else { off(r) };
        global(l, i, address + by, size + rest, 3)
    }),
    change(3, "address off a multiple, start too low", |l, i, r| {
        let end = end_before(l, i)?;
        let (_, size) = at(l, i)?;
        global(l, i, end - off(r), size, 3)
    }),
    change(3, "size off a multiple, start too low", |l, i, r| {
        let end = end_before(l, i)?;
        let (_, size) = at(l, i)?;
        let address = below(r, end);
        global(l, i, address, size + off(r), 3)
    }),
    change(3, "size off a multiple, end too high", |l, i, r| {
        let (address, _) = at(l, i)?;
        let size = huge(r) | off(r);
        global(l, i, address, size, 3)
    }),
    change(3, "address off a multiple, end too high", |l, i, r| {
        let (_, size) = at(l, i)?;
        let address = high(r) | off(r);
        global(l, i, address, size, 3)
    }),
    // 4.
    change(4, "start a granule before the last end", |l, i, _| {
        let end = end_before(l, i)?;
        let (_, size) = at(l, i)?;
        global(l, i, end - 16, size, 4)
    }),
    change(4, "start at the last start", |l, i, _| {
        end_before(l, i)?;
        let (_, size) = at(l, i)?;
        global(l, i, l.addresses[i - 1], size, 4)
    }),
    change(4, "start at 0", |l, i, _| {
        end_before(l, i)?;
        let (_, size) = at(l, i)?;
        global(l, i, 0, size, 4)
    }),
    change(4, "start anywhere before", |l, i, r| {
        let end = end_before(l, i)?;
        let address = below(r, end);
        // Around the last one's whole range as well.
        let size = if r.once_in(2) { 16 } else { end - address + 16 };
        global(l, i, address, size, 4)
    }),
    change(4, "start too low, end too high", |l, i, r| {
        let end = end_before(l, i)?;
        let address = if r.once_in(2) { end - 16 } else { below(r, end) };
        let size = if r.once_in(2) { huge(r) } else { ADDRESS_END - address + 16 };
        global(l, i, address, size, 4)
    }),
    change(4, "start before an end of 2^48", |l, i, r| {
        let (address, _) = at(l, i)?;
        last_taken(l, r, i, address, ADDRESS_END - address)?;
        l.push(ADDRESS_END - 16, r.pick(&[16, 32, 0u64.wrapping_sub(16)]));
        refused(4, i + 1)
    }),
    change(4, "start at the last end", |l, i, r| {
        let end = end_before(l, i)?;
        let size = 16 * r.from(1, 12);
        last_taken(l, r, i, end, size)
    }),
    change(4, "start a granule after the last end", |l, i, r| {
        let end = end_before(l, i)?;
        let size = 16 * r.from(1, 12);
        last_taken(l, r, i, end + 16, size)
    }),
    // 5.
    change(5, "end a granule above 2^48", |l, i, _| {
        let (address, _) = at(l, i)?;
        global(l, i, address, ADDRESS_END - address + 16, 5)
    }),
    change(5, "start at 2^48 or above", |l, i, r| global(l, i, high(r), 16, 5)),
    change(5, "start behind an end of 2^48", |l, i, r| {
        let (address, _) = at(l, i)?;
        last_taken(l, r, i, address, ADDRESS_END - address)?;
        l.push(ADDRESS_END + 16 * r.below(2), 16);
        refused(5, i + 1)
    }),
    change(5, "size too large by itself", |l, i, r| {
        let (address, _) = at(l, i)?;
        let size = huge(r);
        global(l, i, address, size, 5)
    }),
    change(5, "end at 2^64", |l, i, r| {
        let (address, _) = at(l, i)?;
        let last = 16 * r.from(1, 9);
        let (address, size) = if r.once_in(2) || address == 0 {
            (0u64.wrapping_sub(last), last)
        } else {
            (address, 0u64.wrapping_sub(address))
        };
        global(l, i, address, size, 5)
    }),
    change(5, "end past 2^64", |l, i, r| {
        let (address, _) = at(l, i)?;
        let end = l.last_end(i) + 16 * r.from(1, 9);
        let address = if r.once_in(2) { 0u64.wrapping_sub(16 * r.from(1, 9)) } else { address };
        let size = end.wrapping_sub(address);
        given(u128::from(address) + u128::from(size) > 1 << 64)?;
        global(l, i, address, size, 5)
    }),
    change(5, "address and size near 2^64", |l, i, r| {
        let (address, size) = (16 * r.from(1, 2), 16 * r.from(1, 2));
        global(l, i, 0u64.wrapping_sub(address), 0u64.wrapping_sub(size), 5)
    }),
    change(5, "end at 2^48", |l, i, r| {
        let (address, _) = at(l, i)?;
        last_taken(l, r, i, address, ADDRESS_END - address)
    }),
    change(5, "end a granule below 2^48", |l, i, r| {
        let (address, _) = at(l, i)?;
        given(address + 16 < ADDRESS_END)?;
        last_taken(l, r, i, address, ADDRESS_END - address - 16)
    }),
    change(5, "the last granule", |l, i, r| {
        given(i <= l.len() && l.last_end(i) < ADDRESS_END)?;
        last_taken(l, r, i, ADDRESS_END - 16, 16)
    }),
    change(5, "all of 2^48", |l, _, r| last_taken(l, r, 0, 0, ADDRESS_END)),
    change(5, "all of 2^48 and a granule", |l, _, r| {
        last_taken(l, r, 0, 0, ADDRESS_END)?;
        l.sizes[0] += 16;
        refused(5, 0)
    }),
    // 6.
    change(6, "a buffer of the table's length", |l, _, _| {
        l.buffer = l.table().len();
        Some(Taken)
    }),
    change(6, "a buffer one byte longer", |l, _, _| {
        l.buffer = l.table().len() + 1;
        Some(Taken)
    }),
    change(6, "a long buffer", |l, _, r| {
        l.buffer = l.table().len() + r.index(3_000);
        Some(Taken)
    }),
    change(6, "a buffer one byte too short", |l, _, _| {
        l.buffer = l.table().len().checked_sub(1)?;
        refused(6, 0)
    }),
    change(6, "a short buffer", |l, _, r| {
        given(l.len() > 0)?;
        l.buffer = r.index(l.table().len());
        refused(6, 0)
    }),
    change(6, "a buffer of a byte a global", |l, _, _| {
        given(l.table().len() > l.len())?;
        l.buffer = l.len();
        refused(6, 0)
    }),
    change(6, "no buffer", |l, _, _| {
        given(l.len() > 0)?;
        l.buffer = 0;
        refused(6, 0)
    }),
];

pub struct WriteCase {
    pub name: String,
    pub list: Listing,
    pub expected: Expected,
}

/// The first, the middle, the last or any index.
pub(super) fn place(r: &mut Random, count: usize) -> usize {
    match r.below(4) {
        _ if count == 0 => 0,
        0 => 0,
        1 => count / 2,
        2 => count - 1,
        _ => r.index(count),
    }
}

pub(super) fn label(change: &Change) -> String {
    format!("{}: {}", change.row, change.name)
}

fn refuses(expected: Expected) -> bool {
    matches!(expected, Refused(..))
}

/// A change of the first random list that it fits.
fn single(r: &mut Random, change: &Change) -> WriteCase {
    for _ in 0..1_000 {
        let mut list = List::random(r);
        let at = place(r, list.len());
        if let Some(expected) = (change.apply)(&mut list, at, r) {
            return WriteCase { name: label(change), list: list.listing(), expected };
        }
    }
    panic!("no list for {}", label(change));
}

/// Two faults of some rows in one list: the one that is answered is put in last.
pub(super) fn double(r: &mut Random, rows: RangeInclusive<u8>) -> WriteCase {
    loop {
        let mut list = List::random(r);
        let (i, j) = (place(r, list.len()), place(r, list.len()));
        let [early, late] = [(); 2].map(|()| &CHANGES[r.index(CHANGES.len())]);
        let walked = |change: &Change| (2..=5).contains(&change.row);
        let ordered = match (walked(early), walked(late)) {
            // The lower index, whatever the rule.
            (true, true) => i < j,
            _ => early.row < late.row && early.row > 0,
        };
        if !ordered || ![early, late].iter().all(|change| rows.contains(&change.row)) {
            continue;
        }
        let mut spoil =
            |change: &Change, at| (change.apply)(&mut list, at, r).filter(|&e| refuses(e));
        if spoil(late, j).is_none() {
            continue;
        }
        let Some(expected) = spoil(early, i) else { continue };
        let name = format!("{} + {}", label(early), label(late));
        return WriteCase { name, list: list.listing(), expected };
    }
}

/// Changes without a plan.
pub(super) fn blind(r: &mut Random) -> WriteCase {
    let mut list = List::random(r);
    for _ in 0..r.from(1, 3) {
        let numbers = if r.once_in(2) { &mut list.addresses } else { &mut list.sizes };
        if numbers.is_empty() {
            continue;
        }
        let at = r.index(numbers.len());
        numbers[at] = match r.below(5) {
            0 => r.edge(),
            1 => r.edge() & !15,
            2 => numbers[at].wrapping_add(16 * r.below(5)).wrapping_sub(32),
            3 => numbers[r.index(numbers.len())],
            _ => numbers[at] ^ 1 << r.below(64),
        };
    }
    if r.once_in(4) {
        list.buffer = r.index(list.buffer + 3);
    }
    WriteCase { name: "blind".to_owned(), list: list.listing(), expected: Unknown }
}

/// A list depends on the seed and its number alone; each change comes once at the beginning.
pub fn write_case(seed: u64, number: u64) -> WriteCase {
    let mut r = Random::new(seed.swap_bytes() ^ number.wrapping_mul(0xd134_2543_de82_ef95));
    if let Some(change) = CHANGES.get(number as usize) {
        return single(&mut r, change);
    }
    let (round, kind) = (number / 10, number % 10);
    match kind {
        0 | 1 => {
            let list = List::random(&mut r).listing();
            WriteCase { name: "valid".to_owned(), list, expected: Taken }
        }
        2..=6 => single(&mut r, &CHANGES[(round * 5 + kind - 2) as usize % CHANGES.len()]),
        7 | 8 => double(&mut r, 1..=6),
        _ => blind(&mut r),
    }
}
