//! Checks 8, 16 and 9: the descriptors of globals.

use crate::headers::Segments;
use crate::rules::{After, Rules};
use crate::{refusal, Refusal, ADDRESS_END, GRANULE};

/// The answer of one step: the global read, and position and last end moved on.
#[derive(Clone, Copy, Debug, PartialEq, Eq)]
pub enum Step {
    Finished,
    Global { start: u64, granules: u64, position: u64, end: u64 },
}

/// A ULEB128 number, whether its last bytes carry nothing, and the position after it.
struct Number {
    value: u64,
    padded: bool,
    next: usize,
}

fn number<R: Rules>(table: &[u8], at: usize) -> Option<Number> {
    let mut value = 0;
    for (i, &byte) in table[at..].iter().take(10).enumerate() {
        if i == 9 && !R::tenth(byte) {
            return None;
        }
        value |= u64::from(byte & 0x7f) << (7 * i);
        if byte < 0x80 {
            return Some(Number { value, padded: R::padded(i + 1, byte), next: at + i + 1 });
        }
    }
    None
}

/// A descriptor: granules from the last end and of the global, whether a shorter one says the same, and
/// the position after it.
struct Descriptor {
    distance: u64,
    size: u64,
    long: bool,
    next: usize,
}

/// A first number of one or two bytes that is not padded, and the position after it.
#[inline(always)]
fn short<R: Rules>(table: &[u8], at: usize) -> Option<(u64, usize)> {
    match *table.get(at..)? {
        [byte @ ..0x80, ..] if !R::padded(1, byte) => Some((byte.into(), at + 1)),
        [low, high @ ..0x80, ..] if low >= 0x80 && !R::padded(2, high) => {
            Some((u64::from(low & 0x7f) | u64::from(high) << 7, at + 2))
        }
        _ => None,
    }
}

/// Reads the descriptor at a position; the number of a refusal.
#[inline(always)]
fn read<R: Rules>(table: &[u8], at: usize) -> Result<Descriptor, u8> {
    let Some((value, next)) = short::<R>(table, at) else {
        return whole::<R>(table, number::<R>(table, at).ok_or(8)?);
    };
    let (distance, size) = (R::distance(value >> 3), value & 7);
    if size == 0 {
        return whole::<R>(table, Number { value, padded: false, next });
    }
    Ok(Descriptor { distance, size, long: false, next })
}

/// The descriptor that begins with a number.
fn whole<R: Rules>(table: &[u8], first: Number) -> Result<Descriptor, u8> {
    let Number { value, padded, mut next } = first;
    let (mut size, mut long) = (value & 7, R::long_first(padded));
    if R::LONG_EARLY && long {
        return Err(R::LONG);
    }
    if size == 0 {
        let second = number::<R>(table, next).ok_or(8)?;
        long |= R::long_second(second.padded, second.value);
        (size, next) = (R::second_size(second.value), second.next);
    }
    Ok(Descriptor { distance: R::distance(value >> 3), size, long, next })
}

/// The same, kept out of the loops that read a table again: few descriptors are not short.
#[inline(never)]
fn read_apart<R: Rules>(table: &[u8], at: usize) -> Result<Descriptor, u8> {
    read::<R>(table, at)
}

/// Start and end of a descriptor's global; none where it ends above 2^48.
#[inline(always)]
fn range(descriptor: &Descriptor, last_end: u64) -> Option<(u64, u64)> {
    // In granules: a distance has 61 bits, and an end from 2^64 on stays above 2^44.
    let start = last_end / GRANULE + descriptor.distance;
    let end = start.saturating_add(descriptor.size);
    (end <= ADDRESS_END / GRANULE).then(|| (start * GRANULE, end * GRANULE))
}

pub fn step_by<R: Rules>(
    table: &[u8],
    position: u64,
    last_end: u64,
    index: u64,
) -> Result<Step, Refusal> {
    let length = table.len() as u64;
    if position > length {
        return Err(refusal(8, index));
    }
    let read = |at| read::<R>(table, at).map_err(|number| refusal(number, index));
    let long = Err(refusal(R::LONG, R::alone_at(R::long_at(index))));
    if R::ALONE_LONG_FIRST && position < length && read(position as usize)?.long {
        return long;
    }
    if !last_end.is_multiple_of(GRANULE) || last_end > ADDRESS_END {
        return Err(refusal(9, index));
    }
    if position == length {
        return Ok(Step::Finished);
    }
    let descriptor = read(position as usize)?;
    let refused = descriptor.long && R::ALONE_LONG;
    if refused && R::LONG_AFTER == After::Reading {
        return long;
    }
    let (start, end) = range(&descriptor, last_end).ok_or(refusal(9, index))?;
    if refused {
        return long;
    }
    let (granules, position) = ((end - start) / GRANULE, descriptor.next as u64);
    Ok(Step::Global { start, granules, position, end })
}

/// The globals of a table that has passed its checks, as (start, end).
pub fn globals<R: Rules>(table: &[u8]) -> impl Iterator<Item = (u64, u64)> + '_ {
    let (mut at, mut last_end) = (0, 0);
    std::iter::from_fn(move || {
        let descriptor = match short::<R>(table, at) {
            Some((value, next)) if value & 7 != 0 => {
                Descriptor { distance: R::distance(value >> 3), size: value & 7, long: false, next }
            }
            _ => read_apart::<R>(table, at).ok()?,
        };
        let (start, end) = range(&descriptor, last_end)?;
        (at, last_end) = (descriptor.next, end);
        Some((start, end))
    })
}

/// Checks 8, 16 and 9; the number of globals.
pub fn count<R: Rules>(table: &[u8], segments: &Segments) -> Result<u64, Refusal> {
    let mut parts = segments.lookup();
    let (mut at, mut last_end, mut index) = (0, 0, 0);
    let mut later = None;
    while at < table.len() {
        let left = index == R::MOST_DESCRIPTORS as u64;
        if left && !R::READS_LEFT {
            return Err(refusal(9, R::left_at(index)));
        }
        let descriptor = read::<R>(table, at).map_err(|number| refusal(number, index))?;
        let long = || refusal(R::LONG, R::long_at(index));
        let refused = descriptor.long && R::WALK_LONG;
        if refused && R::LONG_AFTER == After::Reading {
            return Err(long());
        }
        if left {
            return Err(refusal(9, R::left_at(index)));
        }
        let (start, end) = range(&descriptor, last_end).ok_or(refusal(9, index))?;
        if refused && R::LONG_AFTER == After::End {
            return Err(long());
        }
        if !R::holds(&mut parts, start, end) {
            if !R::RANGES_LAST {
                return Err(refusal(9, index));
            }
            later = later.or(Some(refusal(9, index)));
        }
        if refused && R::LONG_AFTER == After::Loads {
            return Err(long());
        }
        if refused {
            later = later.or(Some(long()));
        }
        (at, last_end, index) = (descriptor.next, end, index + 1);
    }
    later.map_or(Ok(index), Err)
}
