//! Checks 5 to 7: PT_DYNAMIC, its entries, and the tables they name.

use crate::bytes::u64_at;
use crate::headers::{headers, Header, Segments, PT_DYNAMIC};
use crate::rules::Rules;
use crate::{packed, refusal, Mode, Refusal, Switch};

const ENTRY: usize = 16;
const RELA_BYTES: u64 = 24;

/// A known tag, its partner group and the values it may have.
struct Known {
    tag: u64,
    group: u8,
    allowed: fn(u64) -> bool,
}

const fn known(tag: u64, group: u8, allowed: fn(u64) -> bool) -> Known {
    Known { tag, group, allowed }
}

const SYMTAB: usize = 0;
const RELA: usize = 2;
const RELASZ: usize = 3;
const RELR: usize = 5;
const RELRSZ: usize = 6;
const MODE: usize = 8;
const HEAP: usize = 9;
const STACK: usize = 10;
const GLOBALS: usize = 11;
const GLOBALSSZ: usize = 12;

/// The memtag tags are the last five.
const KNOWN: [Known; 13] = [
    known(6, 0, |_| true),
    known(11, 0, |v| v == 24),
    known(7, 1, |_| true),
    known(8, 1, |v| v % 24 == 0),
    known(9, 1, |v| v == 24),
    known(36, 2, |_| true),
    known(35, 2, |v| v % 8 == 0),
    known(37, 2, |v| v == 8),
    known(0x7000_0009, 3, |v| v <= 1),
    known(0x7000_000b, 4, |v| v <= 1),
    known(0x7000_000c, 5, |v| v <= 1),
    known(0x7000_000d, 6, |_| true),
    known(0x7000_000f, 6, |_| true),
];

/// REL and JMPREL.
const REFUSED: [u64; 2] = [17, 23];

type Values = [Option<u64>; KNOWN.len()];

/// What the known entries say.
pub struct Dynamic<'a> {
    pub mode: Mode,
    pub heap: Switch,
    pub stack: Switch,
    pub symbols: Option<u64>,
    pub relocations: &'a [u8],
    /// The packed table, none where it is not backed, and its address.
    pub packed: Option<&'a [u8]>,
    pub packed_at: u64,
    pub descriptors: &'a [u8],
}

fn good<'a, R: Rules>(header: &Header, file: &'a [u8], segments: &Segments) -> Option<&'a [u8]> {
    let size = header.file_size;
    if !size.is_multiple_of(16) || !(R::DYNAMIC_LEAST..=R::DYNAMIC_BYTES).contains(&size) {
        return None;
    }
    let mut entries = segments.backed::<R>(file, header.address, size)?;
    if R::DYNAMIC_AT_OFFSET {
        entries = file.get(header.offset as usize..)?.get(..size as usize)?;
    }
    entries.chunks_exact(ENTRY).any(|e| u64_at(e, 0) == 0).then_some(entries)
}

/// Check 5; the dynamic entries.
fn section<'a, R: Rules>(
    file: &'a [u8],
    table: &[u8],
    segments: &Segments,
) -> Result<&'a [u8], Refusal> {
    let mut found = headers(table).filter(|(_, h)| h.kind == PT_DYNAMIC);
    let Some((index, header)) = found.next() else {
        return Err(refusal(5, headers(table).count() as u64));
    };
    if let Some((second, _)) = found.next() {
        return Err(refusal(5, R::second_dynamic(index, second)));
    }
    good::<R>(&header, file, segments).ok_or(refusal(5, index))
}

/// Check 6, where the first N tags are known.
fn values<R: Rules, const N: usize>(entries: &[u8]) -> Result<Values, Refusal> {
    let mut values = Values::default();
    let mut null = None;
    for (index, entry) in (0..).zip(entries.chunks_exact(ENTRY)) {
        let (tag, value) = (u64_at(entry, 0) & (u64::MAX >> (64 - R::TAG_BITS)), u64_at(entry, 8));
        if tag == 0 {
            null.get_or_insert(index);
            if R::READS_PAST_NULL {
                continue;
            }
            break;
        }
        if REFUSED.contains(&tag) || R::refused_tag(tag) {
            return Err(refusal(6, index));
        }
        if let Some(k) = KNOWN[..N].iter().position(|known| known.tag == tag) {
            let again = values[k].is_some_and(|before| R::refused_again(before, value));
            if again || !R::allowed(tag, (KNOWN[k].allowed)(value)) {
                return Err(refusal(6, index));
            }
            values[k] = Some(value);
        } else if R::UNKNOWN_ONCE {
            let before = &entries[..index as usize * ENTRY];
            if before.chunks_exact(ENTRY).any(|e| u64_at(e, 0) == tag) {
                return Err(refusal(6, index));
            }
        }
    }
    let lone = |k: usize| {
        let partner = |j: usize| KNOWN[j].group == KNOWN[k].group && values[j].is_none();
        values[k].is_some() && R::needs_partners(KNOWN[k].tag) && (0..N).any(partner)
    };
    match null {
        Some(index) if R::PARTNERS && (0..N).any(lone) => Err(refusal(6, index)),
        _ => Ok(values),
    }
}

/// A table's bytes; none where it is absent or has 0 bytes.
fn table<'a, R: Rules>(
    file: &'a [u8],
    segments: &Segments,
    address: Option<u64>,
    size: Option<u64>,
    empty_anywhere: bool,
) -> Option<&'a [u8]> {
    match (address, size) {
        (Some(_), Some(0)) if empty_anywhere => Some(&[]),
        (Some(address), Some(size)) => segments.backed::<R>(file, address, size),
        _ => Some(&[]),
    }
}

fn switch(value: Option<u64>) -> Switch {
    match value {
        None => Switch::Absent,
        Some(0) => Switch::Off,
        Some(_) => Switch::On,
    }
}

/// Check 7 of the relocation table.
fn relocations<'a, R: Rules>(
    file: &'a [u8],
    segments: &Segments,
    values: &Values,
) -> Result<&'a [u8], Refusal> {
    table::<R>(file, segments, values[RELA], values[RELASZ], R::EMPTY_ANYWHERE)
        .filter(|table| table.len() as u64 / RELA_BYTES <= R::MOST_RELOCATIONS as u64)
        .ok_or(refusal(7, 0))
}

/// The packed table, none where it is not backed.
fn packed<'a, R: Rules>(file: &'a [u8], segments: &Segments, values: &Values) -> Option<&'a [u8]> {
    table::<R>(file, segments, values[RELR], values[RELRSZ], R::EMPTY_PACKED_ANYWHERE)
}

/// What the known entries say where the memtag tags are unknown.
pub struct Untagged<'a> {
    pub symbols: Option<u64>,
    pub relocations: &'a [u8],
    pub packed: Option<&'a [u8]>,
}

/// Checks 5 to 7 where the memtag tags are unknown.
pub fn untagged<'a, R: Rules>(
    file: &'a [u8],
    headers: &[u8],
    segments: &Segments,
) -> Result<Untagged<'a>, Refusal> {
    let entries = section::<R>(file, headers, segments)?;
    let values = if R::UNTAGGED_KNOWS_PACKED {
        values::<R, MODE>(entries)?
    } else {
        values::<R, RELR>(entries)?
    };
    Ok(Untagged {
        symbols: values[SYMTAB],
        relocations: relocations::<R>(file, segments, &values)?,
        packed: packed::<R>(file, segments, &values),
    })
}

/// Checks 5 to 7.
pub fn dynamic<'a, R: Rules>(
    file: &'a [u8],
    headers: &[u8],
    segments: &Segments,
) -> Result<Dynamic<'a>, Refusal> {
    let entries = section::<R>(file, headers, segments)?;
    let values = values::<R, { KNOWN.len() }>(entries)?;
    let relocations = relocations::<R>(file, segments, &values)?;
    let packed = packed::<R>(file, segments, &values);
    if R::PACKED_EARLY {
        packed::check::<R>(packed, relocations)?;
    }
    let globals = (values[GLOBALS], values[GLOBALSSZ]);
    let descriptors =
        table::<R>(file, segments, globals.0, globals.1, R::EMPTY_ANYWHERE).ok_or(refusal(7, 1))?;
    Ok(Dynamic {
        mode: R::mode(values[MODE]),
        heap: switch(values[HEAP]),
        stack: switch(values[STACK]),
        symbols: values[SYMTAB],
        relocations,
        packed,
        packed_at: values[RELR].unwrap_or(0),
        descriptors,
    })
}
