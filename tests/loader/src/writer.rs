//! The writer of descriptor tables: a list is checked whole before its first byte is written.

use crate::rules::Rules;
use crate::{refusal, Refusal, GRANULE};

/// Bytes that are enough for a global: both its numbers are below 2^49.
pub const ENOUGH: usize = 14;

/// Bytes of a number in ULEB128.
#[inline]
fn bytes_of(number: u64) -> usize {
    let bits = 64 - (number | 1).leading_zeros() as usize;
    // A seventh, rounded up.
    (9 * bits + 64) / 64
}

/// Puts a number into a table; the position after it.
#[inline]
fn put(table: &mut [u8], mut at: usize, mut number: u64) -> usize {
    while number >= 0x80 {
        table[at] = number as u8 | 0x80;
        at += 1;
        number >>= 7;
    }
    table[at] = number as u8;
    at + 1
}

/// The first number of a global's descriptor, and the second where there is one.
#[inline]
fn numbers<R: Rules>(distance: u64, size: u64) -> (u64, Option<u64>) {
    let (distance, granules) = (distance / GRANULE, size / GRANULE);
    if granules < R::SHORT_SIZES {
        (distance * 8 + granules, None)
    } else {
        (distance * 8, Some(R::second_number(granules)))
    }
}

/// Checks 1 to 5. The length of the table where it is asked for, else 0.
#[inline]
fn check<R: Rules, const LENGTH: bool>(addresses: &[u64], sizes: &[u64]) -> Result<usize, Refusal> {
    let unequal = R::unequal(addresses.len(), sizes.len());
    if unequal && !R::LENGTHS_LAST {
        return Err(refusal(1, R::unequal_at(addresses.len(), sizes.len())));
    }
    match check_globals::<R, LENGTH>(addresses, sizes) {
        Ok(_) if unequal => Err(refusal(1, 0)),
        checked => checked,
    }
}

/// Checks 2 to 5, of each global. The length of the table where it is asked for, else 0.
#[inline]
pub(crate) fn check_globals<R: Rules, const LENGTH: bool>(
    addresses: &[u64],
    sizes: &[u64],
) -> Result<usize, Refusal> {
    let (mut last_end, mut length) = (0, 0);
    let mut worst: Option<Refusal> = None;
    for (i, (&address, &size)) in addresses.iter().zip(sizes).enumerate() {
        // One branch a global; which rule is broken is found out afterwards.
        let keeps = R::has_size(size)
            & R::in_granules(address, size)
            & R::starts_behind(address, last_end)
            & R::ends_inside(address, size);
        if !keeps {
            let broken = refusal(R::first_broken(address, size, last_end), i as u64);
            if !R::RULE_BY_RULE {
                return Err(broken);
            }
            worst = worst.filter(|w| w.number <= broken.number).or(Some(broken));
        }
        if LENGTH {
            let (first, second) = numbers::<R>(R::distance_from(address, last_end), size);
            length += bytes_of(first) + second.map_or(0, bytes_of);
        }
        last_end = R::next_end(address, size);
    }
    worst.map_or(Ok(length), Err)
}

/// Writes a list that has passed its checks; the length of the table.
#[inline]
fn fill<R: Rules>(addresses: &[u64], sizes: &[u64], table: &mut [u8]) -> usize {
    let (mut last_end, mut at) = (0, 0);
    for (&address, &size) in addresses.iter().zip(sizes) {
        let (first, second) = numbers::<R>(R::distance_from(address, last_end), size);
        at = put(table, at, first);
        if let Some(second) = second {
            at = put(table, at, second);
        }
        last_end = R::next_end(address, size);
    }
    at
}

/// As much of a table as a buffer takes.
fn spill<R: Rules>(addresses: &[u64], sizes: &[u64], buffer: &mut [u8]) {
    let mut table = vec![0; ENOUGH * addresses.len()];
    let length = fill::<R>(addresses, sizes, &mut table).min(buffer.len());
    buffer[..length].copy_from_slice(&table[..length]);
}

pub fn write_table_by<R: Rules>(
    addresses: &[u64],
    sizes: &[u64],
    buffer: &mut [u8],
) -> Result<usize, Refusal> {
    if R::ROOM_FIRST && buffer.len() < addresses.len() {
        return Err(refusal(6, 0));
    }
    // An ample buffer takes the table whatever its length, which need not be known before.
    let ample = buffer.len() / ENOUGH >= addresses.len();
    let checked = if ample {
        check::<R, false>(addresses, sizes)
    } else {
        check::<R, true>(addresses, sizes)
    };
    let length = match checked {
        Ok(length) => length,
        Err(broken) => {
            if R::WRITES_AS_IT_CHECKS && broken.number > 1 {
                let good = broken.position as usize;
                spill::<R>(&addresses[..good], &sizes[..good], buffer);
            }
            return Err(broken);
        }
    };
    if !ample && !R::room(length, buffer.len()) {
        if R::WRITES_WHAT_FITS {
            spill::<R>(addresses, sizes, buffer);
        }
        return Err(refusal(6, R::no_room_at(addresses.len())));
    }
    let length = fill::<R>(addresses, sizes, buffer);
    if R::CLEARS_REST {
        buffer[length..].fill(0);
    }
    Ok(length)
}
