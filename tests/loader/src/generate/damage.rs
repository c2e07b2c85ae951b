//! Damages: each changes a valid module at one clause of one row of document 01, or of refusal 15 or 16, on
//! the side that is refused or just inside the limit, and knows the answer.

use super::module::*;
use crate::random::Random;
use crate::{ADDRESS_END, LARGEST, MOST, PAGE};

#[derive(Clone, Copy, Debug, PartialEq, Eq)]
pub enum Expected {
    Taken,
    Refused(u8, u64),
    Unknown,
}

use Expected::{Taken, Unknown};

/// None where the module has nothing to damage in this way.
type Apply = fn(&mut Module, &mut Random) -> Option<Expected>;

pub struct Damage {
    pub row: u8,
    pub name: &'static str,
    pub apply: Apply,
}

const fn damage(row: u8, name: &'static str, apply: Apply) -> Damage {
    Damage { row, name, apply }
}

fn refused(number: u8, position: usize) -> Option<Expected> {
    Some(Expected::Refused(number, position as u64))
}

fn one(r: &mut Random, list: &[usize]) -> Option<usize> {
    (!list.is_empty()).then(|| r.pick(list))
}

/// Where one of a list stands that has another before it.
fn later(r: &mut Random, list: &[usize]) -> Option<usize> {
    given(list.len() > 1)?;
    Some(r.from(1, list.len() as u64 - 1) as usize)
}

fn given(condition: bool) -> Option<()> {
    condition.then_some(())
}

// Row 4.

/// A load, and the change of its header.
fn load(m: &mut Module, r: &mut Random, change: fn(&mut Header, u64)) -> Option<Expected> {
    let i = one(r, &m.loads())?;
    let length = m.filler.len() as u64;
    change(&mut m.headers[i], length);
    refused(4, i)
}

/// The spare load's header, changed to another good one.
fn spare(m: &mut Module, change: fn(&mut Header, u64, u64)) -> Option<Expected> {
    let i = m.spare?;
    let length = m.filler.len() as u64;
    let used = m.used_loads();
    let end_before = m.headers[*used.last()?].end();
    change(&mut m.headers[i], length, end_before);
    given(m.last_end() <= LARGEST)?;
    m.memory = m.memory.max(m.last_end().div_ceil(16) * 16);
    m.plane = m.memory / 16;
    given(m.bias.saturating_add(m.memory) <= ADDRESS_END)?;
    Some(Taken)
}

/// The spare load, changed to a bad one.
fn bad_spare(m: &mut Module, change: fn(&mut Header, u64, u64)) -> Option<Expected> {
    let i = m.spare?;
    let length = m.filler.len() as u64;
    let used = m.used_loads();
    let end_before = m.headers[*used.last()?].end();
    change(&mut m.headers[i], length, end_before);
    refused(4, i)
}

/// The largest align that a header's offset and address agree by.
fn agreed(header: &Header) -> u64 {
    1 << header.offset.wrapping_sub(header.address).trailing_zeros().min(63)
}

// Row 5.

fn dynamic(m: &mut Module, change: fn(&mut Header)) -> Option<Expected> {
    let i = m.dynamic_header()?;
    change(&mut m.headers[i]);
    refused(5, i)
}

// Row 6.

fn value(m: &mut Module, r: &mut Random, tag: u64, bad: &[u64]) -> Option<Expected> {
    let at = m.set(tag, r.pick(bad))?;
    refused(6, at)
}

fn lost(m: &mut Module, r: &mut Random, group: &[u64]) -> Option<Expected> {
    let at = m.entry(r.pick(group))?;
    m.dynamic[at].0 = if r.once_in(2) { m.dynamic[at].0 + (1 << 32) } else { 0x6000_000f };
    refused(6, m.null())
}

// Rows 7 and 15.

#[derive(Clone, Copy)]
enum Table {
    Relocations,
    Descriptors,
    Packed,
}

use Table::{Descriptors, Packed, Relocations};

/// A table's address and size tags moved by hand.
fn table(m: &mut Module, which: Table, change: fn(&Header, u64) -> (u64, u64)) -> Option<Expected> {
    let (room, tags, (number, position)) = match which {
        Relocations => (m.relocation_room, (RELA, RELASZ), (7, 0)),
        Descriptors => (m.descriptor_room, (GLOBALS, GLOBALSSZ), (7, 1)),
        Packed => (m.packed_room, (RELR, RELRSZ), (15, 0)),
    };
    let size = m.dynamic[m.entry(tags.1)?].1;
    given(size > 0)?;
    let (address, size) = change(&m.headers[room.load], size);
    let backs = |h: &Header| {
        let end = u128::from(address) + u128::from(size);
        h.address <= address && end <= h.file_end().into()
    };
    given(!m.loads().into_iter().any(|i| backs(&m.headers[i])))?;
    m.set(tags.0, address);
    m.set(tags.1, size);
    refused(number, position)
}

fn last_byte_out(load: &Header, size: u64) -> (u64, u64) {
    ((load.file_end() + 1).wrapping_sub(size), size)
}

fn first_byte_out(load: &Header, size: u64) -> (u64, u64) {
    (load.address.wrapping_sub(1), size)
}

fn past_file_part(load: &Header, size: u64) -> (u64, u64) {
    (load.file_end(), size)
}

fn at_end_of_words(_: &Header, size: u64) -> (u64, u64) {
    (0u64.wrapping_sub(size), size)
}

/// Other packed words, and the one at which they are too many beside the RELA entries.
fn too_many(m: &mut Module, words: Vec<u64>) -> Option<Expected> {
    let passed = passing(m.relocations.len(), &words)?;
    given(m.put_packed(words))?;
    refused(15, passed)
}

/// A place and bitmaps of so many bits each, until they are too many, at times with more after.
fn bitmaps(m: &mut Module, r: &mut Random, place: u64, bits: u32) -> Option<Expected> {
    let most = (m.packed_room.size / 8) as usize;
    let (mut words, mut total) = (vec![place], m.relocations.len() + 1);
    given(total + bits as usize * most > MOST)?;
    while words.len() < most && total <= MOST {
        let mut word = u64::MAX;
        while word.count_ones() > bits + 1 {
            word &= !(2 << r.below(63));
        }
        words.push(word);
        total += named(word);
    }
    words.extend(vec![u64::MAX; r.index(3).min(most.saturating_sub(words.len()))]);
    too_many(m, words)
}

/// Packed words before the others; where the first is even, these keep their places.
fn before(m: &mut Module, words: &[u64]) -> Option<()> {
    let words = [words, &m.packed[..]].concat();
    given(m.put_packed(words))
}

/// Packed words after the others; the index of the first.
fn after(m: &mut Module, words: &[u64]) -> Option<usize> {
    let index = m.packed.len();
    let words = [&m.packed[..], words].concat();
    given(m.put_packed(words))?;
    Some(index)
}

// Rows 8, 16 and 9.

/// A prefix of the globals, then other bytes; the index of what follows the prefix.
fn tail(m: &mut Module, r: &mut Random, bytes: &[u8]) -> Option<usize> {
    let k = r.index(m.globals.len() + 1);
    given(m.put_descriptors([&m.encoded()[..k].concat(), bytes].concat()))?;
    Some(k)
}

fn bad_number(m: &mut Module, r: &mut Random, bytes: &[u8]) -> Option<Expected> {
    let k = tail(m, r, bytes)?;
    refused(8, k)
}

fn far(m: &mut Module, r: &mut Random, bytes: &[u8]) -> Option<Expected> {
    let k = tail(m, r, bytes)?;
    refused(9, k)
}

/// The first, the middle, the last or any index.
fn place(r: &mut Random, count: usize) -> Option<usize> {
    given(count > 0)?;
    let any = r.index(count);
    Some(r.pick(&[0, count / 2, count - 1, any]))
}

/// The table with other bytes for some descriptors.
fn replace(m: &mut Module, others: &[(usize, Vec<u8>)]) -> Option<()> {
    let mut each = m.encoded();
    for (k, bytes) in others {
        each[*k].clone_from(bytes);
    }
    given(m.put_descriptors(each.concat()))
}

/// The descriptor of a global, longer in such a way.
fn long_form(m: &Module, r: &mut Random, k: usize, how: Long) -> Option<Vec<u8>> {
    let g = m.globals[k];
    longer(r, (g.start - m.end_before(k)) / 16, g.granules, how)
}

/// A table of the same globals, one of them in a longer form.
fn long(m: &mut Module, r: &mut Random, how: Long) -> Option<Expected> {
    let k = place(r, m.globals.len())?;
    let bytes = long_form(m, r, k, how)?;
    replace(m, &[(k, bytes)])?;
    refused(16, k)
}

/// Other bytes in a longer form for one of the descriptors; what stands behind them is not reached.
fn long_bytes(m: &mut Module, r: &mut Random, bytes: Vec<u8>) -> Option<Expected> {
    let k = place(r, m.globals.len())?;
    replace(m, &[(k, bytes)])?;
    refused(16, k)
}

/// Two descriptors, the first before the second.
fn two_places(m: &Module, r: &mut Random) -> Option<(usize, usize)> {
    let j = place(r, m.globals.len())?;
    given(j > 0)?;
    Some((r.index(j), j))
}

/// A global behind the largest memory.
fn behind(r: &mut Random) -> Vec<u8> {
    descriptor(1 << r.from(20, 40), r.from(1, 9))
}

/// A global outside every PT_LOAD, in a longer form: behind them all, or over the end of the last.
fn long_outside(m: &mut Module, r: &mut Random, how: Long) -> Option<Expected> {
    let k = place(r, m.globals.len())?;
    let (end, granules) = (m.last_end().div_ceil(16), r.from(1, 12));
    let over = end.saturating_sub(r.below(granules)).max(m.end_before(k) / 16);
    let start = if r.once_in(2) { over } else { end + r.below(300) };
    given(start + granules > m.last_end() / 16)?;
    let bytes = longer(r, start - m.end_before(k) / 16, granules, how)?;
    replace(m, &[(k, bytes)])?;
    refused(16, k)
}

/// Distances that are too large whatever the size, in granules.
fn far_distance(r: &mut Random) -> u64 {
    let from = r.pick(&[1 << 44, 1 << 45, 1 << 52, 1 << 60, (1 << 61) - 4]);
    from + r.below(4)
}

/// A global that ends above 2^48, in a longer form.
fn long_far(m: &mut Module, r: &mut Random, how: Long) -> Option<Expected> {
    let (mut distance, mut granules) = (far_distance(r), r.from(1, 12));
    if r.once_in(2) {
        (distance, granules) = (r.below(40), r.pick(&[1 << 45, 1 << 60, u64::MAX]) - r.below(3));
    }
    let bytes = longer(r, distance, granules, how)?;
    long_bytes(m, r, bytes)
}

/// A second number that is missing, cut or too long.
pub(super) fn bad_second(r: &mut Random) -> Vec<u8> {
    let long = |nine: [u8; 9], tenth| [&nine[..], &[tenth, 0]].concat();
    match r.below(6) {
        0 => vec![],
        1 => vec![0x80],
        2 => vec![0xff; 9],
        3 => long([0x80; 9], r.pick(&[2, 0x7f, 0x80])),
        4 => long([0xff; 9], r.pick(&[2, 3, 0x81])),
        _ => vec![r.pick(&[0x81, 0xff]); r.from(1, 9) as usize],
    }
}

/// Another size of a global, from this size on; those behind it keep their places.
fn resize(m: &mut Module, r: &mut Random, from: u64, to: u64) -> Option<Expected> {
    let all: Vec<usize> = (0..m.globals.len()).filter(|&i| m.globals[i].granules >= from).collect();
    let k = one(r, &all)?;
    m.globals[k].granules = to;
    given(m.put_descriptors(m.encoded().concat()))?;
    m.make_choices(r);
    Some(Taken)
}

/// The globals that end at or before a start, then one more with that start.
fn one_global(m: &mut Module, r: &mut Random, start: u64, granules: u64) -> Option<usize> {
    let k = m.globals.iter().take_while(|g| g.end() <= start).count();
    m.globals.truncate(k);
    m.globals.push(Global { start, granules });
    given(m.put_descriptors(m.encoded().concat()))?;
    m.make_choices(r);
    Some(k)
}

/// A global that no load holds, by the module's own headers.
fn outside(m: &mut Module, r: &mut Random, start: u64, granules: u64) -> Option<Expected> {
    let end = start + 16 * granules;
    let held = |i: usize| m.headers[i].address <= start && end <= m.headers[i].end();
    given(start.is_multiple_of(16) && !m.loads().into_iter().any(held))?;
    let k = one_global(m, r, start, granules)?;
    refused(9, k)
}

// Rows 10 and 11.

fn entry(m: &mut Module, r: &mut Random, change: fn(&mut Rela, &mut Random)) -> Option<Expected> {
    let i = one(r, &m.live())?;
    change(&mut m.relocations[i], r);
    refused(10, i)
}

/// A used symbol changed; the first entry that uses it.
fn symbol(m: &mut Module, r: &mut Random, change: fn(&mut Symbol, &mut Random)) -> Option<usize> {
    let i = one(r, &m.with_symbol())?;
    let s = m.symbol_of(i);
    change(&mut m.symbols[s], r);
    m.with_symbol().into_iter().find(|&j| m.symbol_of(j) == s)
}

fn bad_symbol(
    m: &mut Module,
    r: &mut Random,
    change: fn(&mut Symbol, &mut Random),
) -> Option<Expected> {
    let i = symbol(m, r, change)?;
    refused(10, i)
}

/// The symbol table moved so that the first entry that uses it reads elsewhere.
fn symbols_at(m: &mut Module, address: fn(&Module, u64) -> u64) -> Option<Expected> {
    let i = m.with_symbol().first().copied()?;
    let to = address(m, u64::from(m.relocations[i].symbol));
    m.set(SYMTAB, to)?;
    refused(10, i)
}

fn holds_place(m: &Module, place: u64) -> bool {
    m.loads()
        .into_iter()
        .map(|i| &m.headers[i])
        .any(|h| h.writable() && h.address <= place && u128::from(place) + 8 <= h.end().into())
}

fn place_at(m: &mut Module, r: &mut Random, place: u64) -> Option<Expected> {
    given(!place.is_multiple_of(8) || !holds_place(m, place))?;
    let i = one(r, &m.live())?;
    m.relocations[i].place = place;
    refused(11, i)
}

fn used(m: &Module, place: u64) -> bool {
    let packed = unpack(&m.packed).iter().any(|p| p.1 == place.into());
    packed || m.relocations.iter().any(|e| e.kind != NONE && e.place == place)
}

/// A packed word at the front or the back that is no place.
fn bad_packed(m: &mut Module, r: &mut Random, place: u64) -> Option<Expected> {
    given(place.is_multiple_of(2))?;
    given(!place.is_multiple_of(8) || !holds_place(m, place))?;
    if r.once_in(2) {
        before(m, &[place])?;
        return refused(11, m.relocations.len());
    }
    let i = after(m, &[place])?;
    refused(11, m.relocations.len() + i)
}

/// A packed word more, with what is loaded at its place.
fn free_packed(m: &mut Module, r: &mut Random, place: u64, loaded: u64) -> Option<usize> {
    given(!used(m, place) && place.is_multiple_of(8) && holds_place(m, place))?;
    m.words.push((place, loaded));
    if r.once_in(2) {
        before(m, &[place])?;
        return Some(m.relocations.len());
    }
    Some(m.relocations.len() + after(m, &[place])?)
}

fn taken_packed(m: &mut Module, r: &mut Random, place: u64) -> Option<Expected> {
    let loaded = r.below(m.memory.max(1)).min(m.highest());
    free_packed(m, r, place, loaded)?;
    Some(Taken)
}

/// A place that lies over the end of a file part, and how many of its bytes are before that.
fn seam(m: &Module, r: &mut Random) -> Option<(u64, u64)> {
    let load = any_load(m, r)?;
    let place = load.file_end() / 8 * 8;
    given(load.address <= place && place < load.file_end())?;
    Some((place, load.file_end() - place))
}

fn free_place(m: &mut Module, r: &mut Random, place: u64) -> Option<Expected> {
    given(!used(m, place) && holds_place(m, place))?;
    let i = one(r, &m.live())?;
    m.relocations[i].place = place;
    Some(Taken)
}

fn any_load(m: &Module, r: &mut Random) -> Option<Header> {
    Some(m.headers[one(r, &m.loads())?].clone())
}

// Row 12.

/// A multiple of a power of two and of no larger one, with room for the memory below 2^48.
fn multiple(m: &Module, r: &mut Random, power: u64) -> Option<u64> {
    let most = (ADDRESS_END - m.memory) / power;
    given(most > 0)?;
    let odd = 1 + 2 * r.below(most.div_ceil(2));
    Some(power * if r.once_in(2) { odd } else { odd.min(1 + 2 * r.below(3)) })
}

/// A bias that is a multiple of 4,096 and of an align, but not of the largest.
fn misfit(m: &mut Module, r: &mut Random, align: u64) -> Option<Expected> {
    let power = align.max(PAGE);
    given(power < m.largest_align())?;
    m.bias = multiple(m, r, power)?;
    Some(FIT)
}

/// A bias that is a multiple of what it must be and of no larger power.
fn fit(m: &mut Module, r: &mut Random) -> Option<Expected> {
    let bias = multiple(m, r, m.bias_unit())?;
    m.rebias(bias)?;
    Some(Taken)
}

/// An align for a load whose offset and address agree by any.
fn raise(m: &mut Module, r: &mut Random, align: u64) -> Option<()> {
    let level = |i: &usize| m.headers[*i].offset == m.headers[*i].address;
    let all: Vec<usize> = m.loads().into_iter().filter(level).collect();
    m.headers[one(r, &all)?].align = align;
    Some(())
}

fn highest_bias(m: &Module) -> u64 {
    (ADDRESS_END - m.memory) / m.bias_unit() * m.bias_unit()
}

/// The length of a memory, below 1 MiB, whose bias fits where it ends at 2^48.
fn high_memory(m: &Module, r: &mut Random) -> Option<u64> {
    let unit = m.bias_unit();
    given(unit <= 1 << 20)?;
    let memory = (m.last_end().div_ceil(unit) + r.below(3)) * unit;
    given(memory < 1 << 20)?;
    Some(memory)
}

// Row 13.

/// An entry's addend such that its address is the one wanted.
fn aim(m: &mut Module, r: &mut Random, wanted: i128) -> Option<usize> {
    let i = one(r, &m.live())?;
    let base = if m.relocations[i].kind == RELATIVE {
        i128::from(m.bias)
    } else {
        let s = &m.symbols[m.symbol_of(i)];
        if s.section == 0 {
            0
        } else {
            i128::from(m.bias) + i128::from(s.value)
        }
    };
    m.relocations[i].addend = i64::try_from(wanted - base).ok()?;
    Some(i)
}

fn missed(m: &mut Module, r: &mut Random, wanted: i128) -> Option<Expected> {
    let i = aim(m, r, wanted)?;
    refused(13, i)
}

fn met(m: &mut Module, r: &mut Random, wanted: i128) -> Option<Expected> {
    aim(m, r, wanted)?;
    Some(Taken)
}

/// What is loaded at a packed place; the position of its word.
fn aim_packed(m: &mut Module, r: &mut Random, loaded: u64) -> Option<usize> {
    let places = unpack(&m.packed);
    given(!places.is_empty())?;
    let (index, place) = r.pick(&places);
    load_word(m, place as u64, loaded)?;
    Some(m.relocations.len() + index)
}

/// What is loaded at a place.
fn load_word(m: &mut Module, place: u64, loaded: u64) -> Option<()> {
    m.words.retain(|word| word.0 != place);
    m.words.push((place, loaded));
    given(m.loaded(&m.call().file, place) == loaded)
}

fn missed_packed(m: &mut Module, r: &mut Random, loaded: u64) -> Option<Expected> {
    given(loaded > m.highest())?;
    let at = aim_packed(m, r, loaded)?;
    refused(13, at)
}

fn met_packed(m: &mut Module, r: &mut Random, loaded: u64) -> Option<Expected> {
    given(loaded <= m.highest())?;
    aim_packed(m, r, loaded)?;
    Some(Taken)
}

fn choice(m: &mut Module, r: &mut Random, bad: &[u8]) -> Option<Expected> {
    given(!m.choices.is_empty())?;
    let k = r.index(m.choices.len());
    m.choices[k] = r.pick(bad);
    refused(14, k)
}

fn sized(m: &mut Module, memory: u64, expected: Expected) -> Option<Expected> {
    m.memory = memory;
    m.plane = memory / 16;
    given(expected != Taken || m.bias.saturating_add(memory) <= ADDRESS_END)?;
    Some(expected)
}

const FIT: Expected = Expected::Refused(12, 0);
const TOP: i128 = 1 << 48;
const NINE: [u8; 9] = [0xff; 9];

pub const DAMAGES: &[Damage] = &[
    damage(1, "cut below 64", |m, r| {
        m.resize = Some(r.pick(&[0, 1, 7, 16, 62, 63]));
        refused(1, 0)
    }),
    damage(2, "one byte", |m, r| {
        let i = r.index(7);
        m.identification[i] ^= r.from(1, 255) as u8;
        refused(2, i)
    }),
    damage(2, "two bytes", |m, r| {
        let (i, j) = (r.index(7), r.index(7));
        given(i != j)?;
        m.identification[i] ^= r.from(1, 255) as u8;
        m.identification[j] ^= r.from(1, 255) as u8;
        refused(2, i.min(j))
    }),
    damage(2, "bytes 7 to 15 are free", |m, r| {
        m.identification[7..].copy_from_slice(&r.bytes(9));
        Some(Taken)
    }),
    damage(3, "type", |m, r| {
        m.kind = r.pick(&[0, 1, 2, 4, 0x103, 0x300, 0xffff]);
        refused(3, 0)
    }),
    damage(3, "machine", |m, r| {
        m.machine = r.pick(&[0, 62, 182, 184, 183 + 256, 40]);
        refused(3, 0)
    }),
    damage(3, "version", |m, r| {
        m.version = r.pick(&[0, 2, 0x101, 0x1_0001, 1 << 31 | 1]);
        refused(3, 0)
    }),
    damage(3, "header size", |m, r| {
        m.header_size = r.pick(&[0, 55, 57, 56 + 256, 32, 64]);
        refused(3, 0)
    }),
    damage(3, "count 0", |m, _| {
        m.header_count = 0;
        refused(3, 0)
    }),
    damage(3, "count over 16", |m, r| {
        m.header_count = r.pick(&[17, 18, 0x101, 0xffff]);
        m.headers_at = 0;
        m.filler.resize(m.filler.len().max(2000), 0);
        refused(3, 0)
    }),
    damage(3, "table ends at the end", |m, _| {
        let at = m.filler.len();
        m.filler.resize(at + 56 * m.headers.len(), 0);
        (m.headers_at, m.headers_offset) = (at as u64, at);
        Some(Taken)
    }),
    damage(3, "table ends one past", |m, _| {
        m.headers_at = (m.filler.len() - 56 * m.headers.len() + 1) as u64;
        refused(3, 0)
    }),
    damage(3, "table far", |m, r| {
        let bytes = 56 * m.headers.len() as u64;
        m.headers_at = r.pick(&[
            u64::MAX,
            0u64.wrapping_sub(bytes),
            64u64.wrapping_sub(bytes),
            1 << 63,
            m.filler.len() as u64,
            (1 << 32) + 64,
        ]);
        refused(3, 0)
    }),
    damage(4, "memory size 0", |m, r| load(m, r, |h, _| (h.file_size, h.memory_size) = (0, 0))),
    damage(4, "memory one below file", |m, r| {
        let i = one(r, &m.loads())?;
        given(m.headers[i].file_size > 1)?;
        m.headers[i].memory_size = m.headers[i].file_size - 1;
        refused(4, i)
    }),
    damage(4, "memory equals file", |m, _| {
        spare(m, |h, _, _| {
            h.file_size = h.file_size.max(1);
            h.memory_size = h.file_size;
        })
    }),
    damage(4, "offset one past", |m, r| {
        load(m, r, |h, length| {
            (h.offset, h.align) = (length.wrapping_sub(h.file_size).wrapping_add(1), 0);
        })
    }),
    damage(4, "offset at the end", |m, _| {
        spare(m, |h, length, _| {
            h.offset = length.wrapping_sub(h.file_size);
        })
    }),
    damage(4, "offset wraps", |m, r| {
        load(m, r, |h, _| {
            (h.offset, h.align) = (0u64.wrapping_sub(h.file_size.max(1)), 1);
        })
    }),
    damage(4, "file size far", |m, r| {
        load(m, r, |h, _| {
            h.file_size = 0u64.wrapping_sub(h.offset.max(1));
        })
    }),
    damage(4, "empty at the end", |m, _| {
        spare(m, |h, length, _| {
            (h.offset, h.file_size) = (length, 0);
        })
    }),
    damage(4, "empty past the end", |m, _| {
        bad_spare(m, |h, length, _| {
            (h.offset, h.file_size) = (length + 1, 0);
        })
    }),
    damage(4, "ends past the limit", |m, _| {
        bad_spare(m, |h, _, _| {
            h.address = LARGEST.wrapping_sub(h.memory_size).wrapping_add(1);
        })
    }),
    damage(4, "grows past the limit", |m, r| {
        load(m, r, |h, _| {
            h.memory_size = LARGEST.wrapping_sub(h.address).wrapping_add(1);
        })
    }),
    damage(4, "memory size wraps", |m, r| {
        load(m, r, |h, _| {
            h.memory_size = 0u64.wrapping_sub(h.address.max(1));
        })
    }),
    damage(4, "memory size far", |m, r| {
        load(m, r, |h, _| {
            h.memory_size = u64::MAX;
        })
    }),
    damage(4, "address wraps", |m, r| {
        load(m, r, |h, _| {
            (h.address, h.align) = (0u64.wrapping_sub(h.memory_size), 1);
        })
    }),
    damage(4, "starts at the end before", |m, _| spare(m, |h, _, end| h.address = end)),
    damage(4, "starts one before it", |m, _| {
        bad_spare(m, |h, _, end| h.address = end.wrapping_sub(1))
    }),
    damage(4, "the one before grows", |m, r| {
        let loads = m.loads();
        let k = later(r, &loads)?;
        let before = loads[k - 1];
        m.headers[before].memory_size =
            (m.headers[loads[k]].address + 1).wrapping_sub(m.headers[before].address);
        refused(4, loads[k])
    }),
    damage(4, "order swapped", |m, r| {
        let loads = m.loads();
        let k = later(r, &loads)?;
        m.headers.swap(loads[k - 1], loads[k]);
        refused(4, loads[k])
    }),
    damage(4, "align not a power", |m, r| {
        let i = one(r, &m.loads())?;
        m.headers[i].align = r.pick(&[3, 6, 12, 4095, 4097, (1 << 63) + 1, u64::MAX]);
        refused(4, i)
    }),
    damage(4, "align agrees", |m, r| {
        let i = one(r, &m.loads())?;
        let h = &mut m.headers[i];
        h.align = agreed(h);
        given(m.bias_fits())?;
        Some(Taken)
    }),
    damage(4, "align one bit too far", |m, r| {
        let i = one(r, &m.loads())?;
        let h = &mut m.headers[i];
        given(h.offset != h.address)?;
        h.align = 2u64 << h.offset.wrapping_sub(h.address).trailing_zeros();
        given(h.align != 0)?;
        refused(4, i)
    }),
    damage(4, "align 2^63", |m, r| {
        let i = one(r, &m.loads())?;
        let h = &mut m.headers[i];
        h.align = 1 << 63;
        if h.offset == h.address {
            given(m.bias_fits())?;
            Some(Taken)
        } else {
            refused(4, i)
        }
    }),
    damage(4, "two bad", |m, r| {
        let loads = m.loads();
        let k = later(r, &loads)?;
        let first = loads[r.index(k)];
        m.headers[first].align = 3;
        m.headers[loads[k]].memory_size = 0;
        refused(4, first)
    }),
    damage(5, "none", |m, r| {
        let i = m.dynamic_header()?;
        m.headers[i].kind = r.pick(&[0, 3, 6, 0x102, 1 << 31 | 2]);
        refused(5, m.headers.len())
    }),
    damage(5, "two", |m, r| {
        let first = m.dynamic_header()?;
        let others: Vec<usize> = (0..m.headers.len())
            .filter(|&i| ![LOAD, DYNAMIC].contains(&m.headers[i].kind))
            .collect();
        let i = one(r, &others)?;
        m.headers[i].kind = DYNAMIC;
        if r.once_in(3) {
            m.headers[first].file_size = 8;
        }
        refused(5, i.max(first))
    }),
    damage(5, "last byte out", |m, _| {
        let (i, room) = (m.dynamic_header()?, m.dynamic_room);
        let h = &mut m.headers[room.load];
        h.file_size = room.address + room.size - h.address - 1;
        refused(5, i)
    }),
    damage(5, "last byte in", |m, _| {
        let (room, h) = (m.dynamic_room, &mut m.headers[m.dynamic_room.load]);
        h.file_size = room.address + room.size - h.address;
        Some(Unknown)
    }),
    damage(5, "first byte out", |m, _| {
        let (i, load) = (m.dynamic_header()?, m.dynamic_room.load);
        m.headers[i].address = m.headers[load].address.wrapping_sub(1);
        refused(5, i)
    }),
    damage(5, "past the file part", |m, _| {
        let (i, load) = (m.dynamic_header()?, m.dynamic_room.load);
        let h = &m.headers[load];
        given(h.memory_size >= h.file_size + 16)?;
        m.headers[i].address = h.file_end();
        m.headers[i].file_size = 16;
        refused(5, i)
    }),
    damage(5, "address wraps", |m, _| dynamic(m, |h| h.address = 0u64.wrapping_sub(h.file_size))),
    damage(5, "address far", |m, _| dynamic(m, |h| h.address |= 1 << 63)),
    damage(5, "size 0", |m, _| dynamic(m, |h| h.file_size = 0)),
    damage(5, "size not a multiple", |m, _| {
        dynamic(m, |h| h.file_size = h.file_size.wrapping_sub(1))
    }),
    damage(5, "size 8 off", |m, _| dynamic(m, |h| h.file_size = h.file_size.wrapping_sub(8))),
    damage(5, "size far", |m, _| dynamic(m, |h| h.file_size = 0u64.wrapping_sub(16))),
    damage(5, "no entry 0", |m, _| {
        let i = m.dynamic_header()?;
        m.dynamic.iter_mut().filter(|e| e.0 == 0).for_each(|e| e.0 = 1 << 32);
        refused(5, i)
    }),
    damage(5, "offset is not used", |m, r| {
        let i = m.dynamic_header()?;
        m.headers[i].offset = r.below(m.filler.len() as u64);
        Some(Taken)
    }),
    damage(6, "SYMENT", |m, r| value(m, r, SYMENT, &[0, 23, 25, 48, 24 + (1 << 32)])),
    damage(6, "RELASZ", |m, r| {
        value(m, r, RELASZ, &[1, 8, 23, 25, 24 * MOST as u64 + 1, u64::MAX])
    }),
    damage(6, "RELAENT", |m, r| value(m, r, RELAENT, &[0, 16, 23, 25, 24 + (1 << 32)])),
    damage(6, "MODE", |m, r| value(m, r, MODE, &[2, 3, 1 << 32, u64::MAX])),
    damage(6, "HEAP", |m, r| value(m, r, HEAP, &[2, 3, 1 << 32, u64::MAX])),
    damage(6, "STACK", |m, r| value(m, r, STACK, &[2, 3, 1 << 32, u64::MAX])),
    damage(6, "switches both ways", |m, r| {
        for tag in [MODE, HEAP, STACK] {
            m.set(tag, r.below(2));
        }
        Some(Taken)
    }),
    damage(6, "refused tag", |m, r| {
        let at = m.free_entry(r)?;
        m.dynamic[at] = (r.pick(&[17, 23]), r.edge());
        refused(6, at)
    }),
    damage(6, "tags beside the refused", |m, r| {
        let at = m.free_entry(r)?;
        let beside = [16, 18, 22, 24, 34, 38, 17 + (1 << 32), 23 + (1 << 63), 36 + (1 << 40)];
        m.dynamic[at] = (r.pick(&beside), r.edge());
        Some(Taken)
    }),
    damage(6, "passed over again", |m, r| {
        let (at, other) = (m.free_entry(r)?, m.free_entry(r)?);
        m.dynamic[at] = m.dynamic[other];
        Some(Taken)
    }),
    damage(6, "repeated", |m, r| {
        let at = m.free_entry(r)?;
        let known: Vec<usize> =
            (0..m.null()).filter(|&i| KNOWN.contains(&m.dynamic[i].0)).collect();
        let first = one(r, &known)?;
        m.dynamic[at] = m.dynamic[first];
        refused(6, at.max(first))
    }),
    damage(6, "symbol partner", |m, r| lost(m, r, &[SYMTAB, SYMENT])),
    damage(6, "RELA partner", |m, r| lost(m, r, &[RELA, RELASZ, RELAENT])),
    damage(6, "two RELA partners", |m, r| {
        let group = [RELA, RELASZ, RELAENT];
        let kept = r.pick(&group);
        for tag in group {
            let at = m.entry(tag)?;
            if tag != kept {
                m.dynamic[at].0 = 0x6000_000f;
            }
        }
        refused(6, m.null())
    }),
    damage(6, "globals partner", |m, r| lost(m, r, &[GLOBALS, GLOBALSSZ])),
    damage(6, "RELRSZ", |m, r| {
        value(m, r, RELRSZ, &[1, 4, 7, 9, 12, 8 * MOST as u64 + 4, u64::MAX])
    }),
    damage(6, "RELRENT", |m, r| value(m, r, RELRENT, &[0, 4, 7, 9, 16, 24, 8 + (1 << 32)])),
    damage(6, "RELR partner", |m, r| lost(m, r, &[RELR, RELRSZ, RELRENT])),
    damage(6, "two RELR partners", |m, r| {
        let group = [RELR, RELRSZ, RELRENT];
        let kept = r.pick(&group);
        for tag in group {
            let at = m.entry(tag)?;
            if tag != kept {
                m.dynamic[at].0 = 0x6fff_e000;
            }
        }
        refused(6, m.null())
    }),
    damage(6, "no RELR", |m, _| {
        for tag in [RELR, RELRSZ, RELRENT] {
            let at = m.entry(tag)?;
            m.dynamic[at].0 += 0x6fff_e000;
        }
        m.packed.clear();
        Some(Taken)
    }),
    damage(6, "known after the end", |m, r| {
        let null = m.null();
        given(null + 1 < m.dynamic.len())?;
        m.dynamic[null + 1] = (r.pick(&[17, 23, RELR, RELRSZ, SYMTAB, RELA, GLOBALS]), r.word());
        Some(Taken)
    }),
    damage(6, "ends early", |m, r| {
        let at = m.entry(r.pick(&[SYMTAB, RELA, RELASZ, GLOBALS, GLOBALSSZ]))?;
        m.dynamic[at].0 = 0;
        let has = |tag| m.entry(tag).is_some();
        let lone = has(SYMTAB) != has(SYMENT)
            || has(GLOBALS) != has(GLOBALSSZ)
            || has(RELA) != has(RELASZ)
            || has(RELA) != has(RELAENT)
            || has(RELR) != has(RELRSZ)
            || has(RELR) != has(RELRENT);
        if lone {
            refused(6, at)
        } else {
            Some(Unknown)
        }
    }),
    damage(6, "two bad", |m, r| {
        let (a, b) = (m.free_entry(r)?, m.free_entry(r)?);
        m.dynamic[a].0 = 17;
        m.dynamic[b].0 = 23;
        refused(6, a.min(b))
    }),
    damage(6, "bad and no partner", |m, r| {
        lost(m, r, &[SYMTAB, RELA, GLOBALS])?;
        let at = m.free_entry(r)?;
        m.dynamic[at].0 = 23;
        refused(6, at)
    }),
    damage(7, "RELA last byte out", |m, _| table(m, Relocations, last_byte_out)),
    damage(7, "RELA first byte out", |m, _| table(m, Relocations, first_byte_out)),
    damage(7, "RELA past the file part", |m, _| table(m, Relocations, past_file_part)),
    damage(7, "RELA address wraps", |m, _| table(m, Relocations, at_end_of_words)),
    damage(7, "RELA size wraps", |m, _| {
        table(m, Relocations, |h, _| (h.address.max(16), u64::MAX - 15))
    }),
    damage(7, "RELA empty anywhere", |m, r| {
        m.set(RELA, r.edge())?;
        m.set(RELASZ, 0);
        m.relocations.clear();
        Some(Taken)
    }),
    damage(7, "globals last byte out", |m, _| table(m, Descriptors, last_byte_out)),
    damage(7, "globals first byte out", |m, _| {
        given(m.descriptors.len() > 1)?;
        table(m, Descriptors, first_byte_out)
    }),
    damage(7, "globals past the file part", |m, _| table(m, Descriptors, past_file_part)),
    damage(7, "globals address wraps", |m, _| table(m, Descriptors, at_end_of_words)),
    damage(7, "globals size wraps", |m, _| {
        table(m, Descriptors, |h, _| (h.address.max(1), 0u64.wrapping_sub(h.address.max(1))))
    }),
    damage(7, "globals size far", |m, _| table(m, Descriptors, |h, _| (h.address, u64::MAX))),
    damage(7, "globals empty anywhere", |m, r| {
        m.set(GLOBALS, r.edge())?;
        m.set(GLOBALSSZ, 0);
        m.globals.clear();
        m.choices.clear();
        m.descriptors.clear();
        Some(Taken)
    }),
    damage(7, "both", |m, _| {
        table(m, Descriptors, last_byte_out)?;
        table(m, Relocations, last_byte_out)
    }),
    damage(7, "globals, and a bitmap first", |m, _| {
        before(m, &[3])?;
        table(m, Descriptors, last_byte_out)
    }),
    damage(15, "packed last byte out", |m, _| table(m, Packed, last_byte_out)),
    damage(15, "packed first byte out", |m, _| table(m, Packed, first_byte_out)),
    damage(15, "packed past the file part", |m, _| table(m, Packed, past_file_part)),
    damage(15, "packed address wraps", |m, _| table(m, Packed, at_end_of_words)),
    damage(15, "packed size wraps", |m, _| {
        table(m, Packed, |h, _| (h.address.max(16), u64::MAX - 15))
    }),
    damage(15, "packed empty anywhere", |m, r| {
        m.set(RELR, r.edge())?;
        given(m.put_packed(Vec::new()))?;
        Some(Taken)
    }),
    damage(15, "a bitmap first", |m, r| {
        let bitmap = r.pick(&[1, 3, u64::MAX, 1 << 63 | 1, 0x1001]);
        before(m, &[bitmap])?;
        refused(15, 0)
    }),
    damage(15, "the first place made odd", |m, _| {
        *m.packed.first_mut()? |= 1;
        refused(15, 0)
    }),
    damage(15, "a bitmap alone", |m, r| {
        let bitmap = r.pick(&[1, 3]);
        given(m.put_packed(vec![bitmap]))?;
        refused(15, 0)
    }),
    damage(15, "bitmaps of 63 bits, too many", |m, r| {
        let place = *m.packed.first()?;
        bitmaps(m, r, place, 63)
    }),
    damage(15, "bitmaps of many bits, too many", |m, r| {
        let (place, bits) = (*m.packed.first()?, r.from(40, 62) as u32);
        bitmaps(m, r, place, bits)
    }),
    damage(15, "too many, no place good", |m, r| {
        let place = r.pick(&[2, 0x1004, 1 << 48, 1 << 63, 0u64.wrapping_sub(8)]);
        bitmaps(m, r, place, 63)
    }),
    damage(15, "too many by one", |m, r| {
        // The last bitmap has the bit that goes past.
        given(m.packed_room.size >= 8 * (MOST as u64 / 63 + 9))?;
        let free = (MOST - 1).checked_sub(m.relocations.len())?;
        let mut words = vec![*m.packed.first()?];
        words.extend(vec![u64::MAX; free / 63]);
        let last = free % 63;
        words.extend([u64::MAX >> (63 - last), 1, 1, 3]);
        let extra = r.index(3);
        words.extend(vec![1; extra]);
        given(words.len() <= (m.packed_room.size / 8) as usize)?;
        let passed = words.iter().rposition(|&word| word == 3)?;
        given(passing(m.relocations.len(), &words) == Some(passed))?;
        too_many(m, words)
    }),
    damage(15, "a bitmap first, and too many", |m, r| {
        let count = MOST / 63 + 1 + r.index(50);
        given(m.put_packed(vec![u64::MAX; count]))?;
        refused(15, 0)
    }),
    damage(15, "and a descriptor cut", |m, r| {
        bad_number(m, r, &[0x80])?;
        before(m, &[1])?;
        refused(15, 0)
    }),
    damage(8, "first cut", |m, r| {
        let cut: &[u8] = r.pick(&[&[0x80], &[0x81], &[0xff, 0xff], &NINE, &[0x80; 9]]);
        bad_number(m, r, cut)
    }),
    damage(8, "second missing", |m, r| {
        let cut: &[u8] = r.pick(&[&[0], &[0x80, 0], &[0x88, 0x80, 0x00]]);
        bad_number(m, r, cut)
    }),
    damage(8, "second cut", |m, r| {
        let cut: &[u8] = r.pick(&[&[0, 0x80], &[0, 0x81], &[0x80, 0, 0xff, 0x80]]);
        bad_number(m, r, cut)
    }),
    damage(8, "tenth byte", |m, r| {
        let tenth = r.pick(&[2, 3, 0x7f, 0x80, 0x81, 0xff]);
        let mut bytes = if r.once_in(2) { vec![0] } else { Vec::new() };
        bytes.extend(r.pick(&[NINE, [0x80; 9], [0x81; 9]]));
        bytes.extend([tenth, 0, 0, 0]);
        bad_number(m, r, &bytes)
    }),
    damage(8, "last descriptor cut", |m, r| {
        let k = m.globals.len().checked_sub(1)?;
        let how = r.pick(&LONGS);
        let whole = long_form(m, r, k, how);
        let mut last = whole.filter(|_| r.once_in(2)).unwrap_or_else(|| m.encoded()[k].clone());
        given(last.len() > 1)?;
        last.pop();
        replace(m, &[(k, last)])?;
        refused(8, k)
    }),
    damage(8, "first padded, second bad", |m, r| {
        let first = r.below(20) << 3;
        let bytes = [padded(r, first)?, bad_second(r)].concat();
        bad_number(m, r, &bytes)
    }),
    damage(8, "first padded and far, second bad", |m, r| {
        let first = far_distance(r) << 3;
        let bytes = [padded(r, first)?, bad_second(r)].concat();
        bad_number(m, r, &bytes)
    }),
    damage(16, "first number padded", |m, r| long(m, r, Long::First)),
    damage(16, "second number padded", |m, r| long(m, r, Long::Second)),
    damage(16, "both numbers padded", |m, r| long(m, r, Long::Both)),
    damage(16, "second number below 7", |m, r| long(m, r, Long::Small)),
    damage(16, "second number below 7, first padded", |m, r| long(m, r, Long::SmallFirst)),
    damage(16, "second number below 7 and padded", |m, r| long(m, r, Long::SmallSecond)),
    damage(16, "second number below 7, both padded", |m, r| long(m, r, Long::SmallBoth)),
    damage(16, "padded to ten", |m, r| {
        let k = place(r, m.globals.len())?;
        let (distance, size) = ((m.globals[k].start - m.end_before(k)) / 16, m.globals[k].granules);
        let number = |value| uleb(value, 10);
        let bytes = match size {
            1..=7 => number(distance << 3 | size),
            _ => [number(distance << 3), number(size - 1)].concat(),
        };
        replace(m, &[(k, bytes)])?;
        refused(16, k)
    }),
    damage(16, "second number of 7", |m, r| resize(m, r, 8, 8)),
    damage(16, "size of 7", |m, r| resize(m, r, 7, 7)),
    damage(16, "any size, all in shortest form", |m, r| {
        let size = r.from(1, 12);
        resize(m, r, size, size)
    }),
    damage(16, "and outside", |m, r| {
        let how = r.pick(&LONGS);
        long_outside(m, r, how)
    }),
    damage(16, "second number below 7 and outside", |m, r| long_outside(m, r, Long::Small)),
    damage(16, "and above 2^48", |m, r| {
        let how = r.pick(&LONGS);
        long_far(m, r, how)
    }),
    damage(16, "second number below 7 and above 2^48", |m, r| long_far(m, r, Long::Small)),
    damage(16, "the longest numbers, padded", |m, r| {
        // 2^63 - 1 and numbers beside it, in ten bytes.
        let nine = [&[r.pick(&[0x80, 0xf8, 0xff])], &NINE[1..], &[0]].concat();
        let bytes = match r.below(3) {
            _ if nine[0] & 7 != 0 => nine,
            0 => [nine, uleb(r.from(7, 20), 1)].concat(),
            1 => [&nine[..], &NINE, &[1]].concat(),
            _ => [&nine[..], &NINE, &[0]].concat(),
        };
        long_bytes(m, r, bytes)
    }),
    damage(16, "second number the longest, padded", |m, r| {
        let bytes = [&[8 * r.below(3) as u8], &NINE[..], &[0]].concat();
        long_bytes(m, r, bytes)
    }),
    damage(16, "two", |m, r| {
        let (i, j) = (place(r, m.globals.len())?, place(r, m.globals.len())?);
        let (a, b) = (r.pick(&LONGS), r.pick(&LONGS));
        let others = [(i, long_form(m, r, i, a)?), (j, long_form(m, r, j, b)?)];
        replace(m, &others)?;
        refused(16, i.min(j))
    }),
    damage(16, "then outside", |m, r| {
        let (i, j) = two_places(m, r)?;
        let how = r.pick(&LONGS);
        let others = [(i, long_form(m, r, i, how)?), (j, behind(r))];
        replace(m, &others)?;
        refused(16, i)
    }),
    damage(16, "then cut", |m, r| {
        let last = m.globals.len().checked_sub(1)?;
        let (i, _) = two_places(m, r)?;
        let how = r.pick(&LONGS);
        let others = [(i, long_form(m, r, i, how)?), (last, vec![r.pick(&[0, 0x80])])];
        replace(m, &others)?;
        refused(16, i)
    }),
    damage(16, "after outside", |m, r| {
        let (i, j) = two_places(m, r)?;
        let how = r.pick(&LONGS);
        let others = [(i, behind(r)), (j, long_form(m, r, j, how)?)];
        replace(m, &others)?;
        refused(9, i)
    }),
    damage(16, "after a number too long", |m, r| {
        let (i, j) = two_places(m, r)?;
        let how = r.pick(&LONGS);
        let others = [(i, [&NINE[..], &[2]].concat()), (j, long_form(m, r, j, how)?)];
        replace(m, &others)?;
        refused(8, i)
    }),
    damage(8, "bad after outside", |m, r| {
        let k = tail(m, r, &[0xf9, 0xff, 0xff, 0xff, 0x0f, 0x80])?;
        refused(9, k)
    }),
    damage(9, "first number 2^64-1", |m, r| {
        far(m, r, &[0xff, 0xff, 0xff, 0xff, 0xff, 0xff, 0xff, 0xff, 0xff, 1])
    }),
    damage(9, "second number 2^64-1", |m, r| {
        far(m, r, &[0, 0xff, 0xff, 0xff, 0xff, 0xff, 0xff, 0xff, 0xff, 0xff, 1])
    }),
    damage(9, "distance wraps", |m, r| {
        let mut back = uleb(((1 << 61) - 1 - r.below(4)) << 3 | r.from(1, 7), 1);
        if r.once_in(2) {
            back = uleb(((1 << 60) + r.below(6)) << 3 | r.from(1, 7), 1);
        }
        far(m, r, &back)
    }),
    damage(9, "size wraps", |m, r| {
        let mut bytes = vec![(r.below(3) << 3) as u8];
        bytes.extend(uleb((r.from(1, 15) << 60) - 1 + r.below(3), 1));
        far(m, r, &bytes)
    }),
    damage(9, "start at 2^48", |m, r| {
        let bytes = uleb(((1 << 44) - r.below(3)) << 3 | 1, 1);
        far(m, r, &bytes)
    }),
    damage(9, "below the first load", |m, r| outside(m, r, 0, 1)),
    damage(9, "ends at the load's end", |m, r| {
        let load = any_load(m, r)?;
        let end = load.end() / 16 * 16;
        let free = m.globals.iter().map(Global::end).filter(|&e| e < end).max().unwrap_or(0);
        let least = free.max(load.address.div_ceil(16) * 16);
        given(least < end)?;
        let granules = r.from(1, (end - least) / 16);
        one_global(m, r, end - 16 * granules, granules)?;
        Some(Taken)
    }),
    damage(9, "ends past the load's end", |m, r| {
        let load = any_load(m, r)?;
        let end = load.end() / 16 * 16 + 16;
        let granules = r.from(1, 3);
        outside(m, r, end.checked_sub(16 * granules)?, granules)
    }),
    damage(9, "starts before the load", |m, r| {
        let load = any_load(m, r)?;
        let start = load.address.div_ceil(16).checked_sub(1)? * 16;
        let granules = r.from(1, 3);
        outside(m, r, start, granules)
    }),
    damage(9, "over two loads", |m, r| {
        let loads = m.loads();
        let abut: Vec<usize> = (1..loads.len())
            .filter(|&k| {
                let (a, b) = (&m.headers[loads[k - 1]], &m.headers[loads[k]]);
                a.end() == b.address && b.memory_size >= 32
            })
            .collect();
        let k = one(r, &abut)?;
        let seam = m.headers[loads[k]].address;
        outside(m, r, seam.div_ceil(16).checked_sub(1)? * 16, 2)
    }),
    damage(9, "in a gap", |m, r| {
        let loads = m.loads();
        let k = r.from(0, loads.len() as u64 - 1) as usize;
        outside(m, r, m.headers[loads[k]].end().div_ceil(16) * 16, 1)
    }),
    damage(10, "kind", |m, r| {
        entry(m, r, |e, r| {
            e.kind = r.pick(&[
                1,
                256,
                258,
                1024,
                1026,
                1028,
                1032,
                0x1_0101,
                1 << 31 | 1027,
                0x401_0000,
            ]);
        })
    }),
    damage(10, "kind with a bit above 16", |m, r| {
        entry(m, r, |e, r| e.kind |= 1 << r.from(16, 31))
    }),
    damage(10, "kind 0 with a bit above 16", |m, r| {
        entry(m, r, |e, r| e.kind = 1 << r.from(16, 31))
    }),
    damage(10, "RELATIVE with symbol", |m, r| {
        entry(m, r, |e, r| {
            (e.kind, e.symbol) = (RELATIVE, r.pick(&[1, 2, 1 << 31, u32::MAX]));
        })
    }),
    damage(10, "symbol 0", |m, r| {
        entry(m, r, |e, r| {
            (e.kind, e.symbol) = (r.pick(&[ABS64, GLOB_DAT]), 0);
        })
    }),
    damage(10, "symbol far", |m, r| {
        entry(m, r, |e, r| {
            (e.kind, e.symbol) =
                (r.pick(&[ABS64, GLOB_DAT]), r.pick(&[u32::MAX, 1 << 31, 1 << 20]));
        })
    }),
    damage(10, "no symbol table", |m, _| {
        let i = m.with_symbol().first().copied()?;
        for tag in [SYMTAB, SYMENT] {
            let at = m.entry(tag)?;
            m.dynamic[at].0 = 0x6000_000f;
        }
        refused(10, i)
    }),
    damage(10, "symbol last byte out", |m, _| {
        symbols_at(m, |m, symbol| {
            let load = &m.headers[m.symbol_room.load];
            (load.file_end() + 1).wrapping_sub(24 * (symbol + 1))
        })
    }),
    damage(10, "symbol first byte out", |m, _| {
        symbols_at(m, |m, symbol| {
            let load = &m.headers[m.symbol_room.load];
            load.address.wrapping_sub(1 + 24 * symbol)
        })
    }),
    damage(10, "symbol address wraps", |m, _| {
        given(
            m.symbol_room.address < 24 * u64::from(m.relocations[*m.with_symbol().first()?].symbol),
        )?;
        symbols_at(m, |m, symbol| m.symbol_room.address.wrapping_sub(24 * symbol))
    }),
    damage(10, "symbol table at 2^64", |m, _| {
        symbols_at(m, |_, symbol| 0u64.wrapping_sub(24 * symbol))
    }),
    damage(10, "type", |m, r| bad_symbol(m, r, |s, r| s.info = s.info & 0xf0 | r.pick(&[6, 10]))),
    damage(10, "types beside", |m, r| {
        symbol(m, r, |s, r| s.info = s.info & 0xf0 | r.pick(&[5, 7, 9, 11, 2, 14]))?;
        Some(Taken)
    }),
    damage(10, "section", |m, r| {
        bad_symbol(m, r, |s, r| {
            s.section = r.pick(&[0xff00, 0xff01, 0xff1f, 0xff20, 0xfff1, 0xffff])
        })
    }),
    damage(10, "weak section", |m, r| {
        bad_symbol(m, r, |s, r| {
            (s.info, s.section) = (0x21, r.pick(&[0xff00, 0xfff1, 0xffff]));
        })
    }),
    damage(10, "section beside", |m, r| {
        let i = one(r, &m.with_symbol())?;
        let s = m.symbol_of(i);
        given(m.symbols[s].section != 0)?;
        m.symbols[s].section = r.pick(&[0xfeff, 1, 0xfe00]);
        Some(Taken)
    }),
    damage(10, "undefined", |m, r| {
        bad_symbol(m, r, |s, r| {
            (s.info, s.section) = (r.pick(&[0, 1, 3, 10, 15, 6, 12]) << 4 | s.info & 15, 0);
        })
    }),
    damage(10, "weak undefined of a bad type", |m, r| {
        bad_symbol(m, r, |s, r| {
            (s.info, s.section) = (0x20 | r.pick(&[6, 10]), 0);
        })
    }),
    damage(10, "skipped unread", |m, r| {
        let i = one(r, &m.live())?;
        let (place, symbol, addend) = (r.edge(), r.word() as u32, r.edge() as i64);
        m.relocations[i] = Rela { place, kind: NONE, symbol, addend };
        Some(Taken)
    }),
    damage(10, "kind and place", |m, r| {
        let i = one(r, &m.live())?;
        (m.relocations[i].kind, m.relocations[i].place) = (1026, 4);
        refused(10, i)
    }),
    damage(10, "place, later kind", |m, r| {
        let live = m.live();
        let k = later(r, &live)?;
        let first = live[r.index(k)];
        m.relocations[live[k]].kind = 1026;
        m.relocations[first].place = 4;
        refused(11, first)
    }),
    damage(11, "not a multiple of 8", |m, r| {
        let i = one(r, &m.live())?;
        let place = m.relocations[i].place + r.from(1, 7);
        m.relocations[i].place = place;
        refused(11, i)
    }),
    damage(11, "after the last load", |m, r| {
        let place = m.last_end().div_ceil(8) * 8;
        place_at(m, r, place)
    }),
    damage(11, "one past a load", |m, r| {
        let load = any_load(m, r)?;
        place_at(m, r, load.end().saturating_sub(7).div_ceil(8) * 8)
    }),
    damage(11, "last in a load", |m, r| {
        let load = any_load(m, r)?;
        free_place(m, r, load.end().checked_sub(8)? / 8 * 8)
    }),
    damage(11, "first in a load", |m, r| {
        let load = any_load(m, r)?;
        free_place(m, r, load.address.div_ceil(8) * 8)
    }),
    damage(11, "one before a load", |m, r| {
        let load = any_load(m, r)?;
        place_at(m, r, load.address.div_ceil(8).checked_sub(1)? * 8)
    }),
    damage(11, "past the file part", |m, r| {
        let load = any_load(m, r)?;
        free_place(m, r, load.file_end() / 8 * 8)
    }),
    damage(11, "near 2^64", |m, r| {
        let place = r.pick(&[u64::MAX - 7, 1 << 63, u64::MAX - 15, 1 << 48]);
        place_at(m, r, place)
    }),
    damage(11, "read-only load", |m, r| {
        let load = any_load(m, r)?;
        let first = load.address.div_ceil(8) * 8;
        given(first + 8 <= load.end())?;
        let place = first + r.below((load.end() - first) / 8) * 8;
        place_at(m, r, place)
    }),
    damage(11, "load made read-only", |m, r| {
        let i = one(r, &m.live())?;
        let place = m.relocations[i].place;
        let within =
            |h: &Header, p: u64| h.kind == LOAD && h.address <= p && p.saturating_add(8) <= h.end();
        let at = m.headers.iter().position(|h| within(h, place))?;
        m.headers[at].flags = r.pick(&[0, 1, 4, 5, 12, !2]);
        let home = m.headers[at].clone();
        let first = m.live().into_iter().find(|&j| within(&home, m.relocations[j].place))?;
        refused(11, first)
    }),
    damage(11, "writable loads by other flags", |m, r| {
        given(!m.live().is_empty())?;
        for i in m.loads() {
            if m.headers[i].writable() {
                m.headers[i].flags = r.pick(&[2, 3, 6, 10, 1 << 31 | 2, u32::MAX]);
            }
        }
        Some(Taken)
    }),
    damage(11, "repeated", |m, r| {
        let live = m.live();
        let k = later(r, &live)?;
        m.relocations[live[k]].place = m.relocations[live[r.index(k)]].place;
        refused(11, live[k])
    }),
    damage(11, "as a skipped one", |m, r| {
        let skipped: Vec<usize> =
            (0..m.relocations.len()).filter(|&i| m.relocations[i].kind == NONE).collect();
        let (i, j) = (one(r, &skipped)?, one(r, &m.live())?);
        given(i < j)?;
        m.relocations[i].place = m.relocations[j].place;
        Some(Taken)
    }),
    damage(11, "packed, not a multiple of 8", |m, r| {
        let even: Vec<usize> = (0..m.packed.len()).filter(|&i| m.packed[i] % 2 == 0).collect();
        let i = one(r, &even)?;
        m.packed[i] += r.pick(&[2, 4, 6]);
        refused(11, m.relocations.len() + i)
    }),
    damage(11, "packed, after the last load", |m, r| {
        let place = m.last_end().div_ceil(8) * 8;
        bad_packed(m, r, place)
    }),
    damage(11, "packed, one past a load", |m, r| {
        let load = any_load(m, r)?;
        bad_packed(m, r, load.end().saturating_sub(7).div_ceil(8) * 8)
    }),
    damage(11, "packed, last in a load", |m, r| {
        let load = any_load(m, r)?;
        taken_packed(m, r, load.end().checked_sub(8)? / 8 * 8)
    }),
    damage(11, "packed, first in a load", |m, r| {
        let load = any_load(m, r)?;
        taken_packed(m, r, load.address.div_ceil(8) * 8)
    }),
    damage(11, "packed, one before a load", |m, r| {
        let load = any_load(m, r)?;
        bad_packed(m, r, load.address.div_ceil(8).checked_sub(1)? * 8)
    }),
    damage(11, "packed, past the file part", |m, r| {
        let load = any_load(m, r)?;
        taken_packed(m, r, load.file_end().div_ceil(8) * 8)
    }),
    damage(11, "packed, over the file part's end", |m, r| {
        let (place, bytes) = seam(m, r)?;
        let loaded = r.word() & u64::MAX >> (64 - 8 * bytes);
        let loaded = if r.once_in(2) { loaded } else { loaded % m.memory.max(1) };
        given(loaded <= m.highest())?;
        free_packed(m, r, place, loaded)?;
        Some(Taken)
    }),
    damage(11, "packed, near 2^64 with bitmaps", |m, r| {
        let place = r.pick(&[u64::MAX - 7, u64::MAX - 15, 1 << 63, u64::MAX - 503]);
        let i = after(m, &[place, r.word() | 1])?;
        refused(11, m.relocations.len() + i)
    }),
    damage(11, "packed, read-only load", |m, r| {
        let load = any_load(m, r)?;
        let first = load.address.div_ceil(8) * 8;
        given(first + 8 <= load.end())?;
        let place = first + r.below((load.end() - first) / 8) * 8;
        bad_packed(m, r, place)
    }),
    damage(11, "packed, a bit past a load", |m, r| {
        let load = any_load(m, r)?;
        let last = load.end().checked_sub(8)? / 8 * 8;
        let first = last.checked_sub(r.below(62) * 8)?;
        let beyond = (last - first) / 8;
        given(first >= load.address && !used(m, first) && holds_place(m, first))?;
        given(!holds_place(m, last + 8))?;
        let i = after(m, &[first, 1 | 2 << beyond])?;
        refused(11, m.relocations.len() + i + 1)
    }),
    damage(11, "packed, as a RELA entry's", |m, r| {
        let place = m.relocations[one(r, &m.live())?].place;
        let i = after(m, &[place])?;
        refused(11, m.relocations.len() + i)
    }),
    damage(11, "packed, a bit as a RELA entry's", |m, r| {
        let place = m.relocations[one(r, &m.live())?].place;
        let (bit, run) = (r.below(63), r.below(2));
        let first = place.checked_sub(8 * (bit + 1) + 504 * run)?;
        given(!used(m, first) && holds_place(m, first))?;
        let mut words = vec![first];
        words.extend(vec![1; run as usize]);
        words.push(1 | 2 << bit);
        let i = after(m, &words)?;
        refused(11, m.relocations.len() + i + words.len() - 1)
    }),
    damage(11, "packed, repeated", |m, r| {
        let places = unpack(&m.packed);
        given(!places.is_empty())?;
        let place = r.pick(&places).1 as u64;
        let i = after(m, &[place])?;
        refused(11, m.relocations.len() + i)
    }),
    damage(11, "packed, a bit repeated", |m, r| {
        let places = unpack(&m.packed);
        given(!places.is_empty())?;
        let place = r.pick(&places).1 as u64;
        let first = place.checked_sub(8)?;
        given(!used(m, first) && holds_place(m, first))?;
        let i = after(m, &[first, 3])?;
        refused(11, m.relocations.len() + i + 1)
    }),
    damage(11, "packed, as a skipped entry's", |m, r| {
        let skipped: Vec<usize> =
            (0..m.relocations.len()).filter(|&i| m.relocations[i].kind == NONE).collect();
        let places = unpack(&m.packed);
        given(!places.is_empty())?;
        m.relocations[one(r, &skipped)?].place = r.pick(&places).1 as u64;
        Some(Taken)
    }),
    damage(11, "packed and RELA", |m, r| {
        bad_packed(m, r, 4)?;
        let i = one(r, &m.live())?;
        m.relocations[i].place = 12;
        refused(11, i)
    }),
    damage(11, "two packed", |m, r| {
        let i = after(m, &[LARGEST, LARGEST])?;
        *m.packed.last_mut()? = r.pick(&[2, 4, 1 << 63]);
        refused(11, m.relocations.len() + i)
    }),
    damage(12, "memory below the end", |m, _| {
        let memory = (m.last_end() - 1) / 16 * 16;
        sized(m, memory, FIT)
    }),
    damage(12, "memory just enough", |m, _| {
        let memory = m.last_end().div_ceil(16) * 16;
        sized(m, memory, Taken)
    }),
    damage(12, "memory not a multiple", |m, r| {
        let memory = m.memory + r.from(1, 15);
        sized(m, memory, FIT)
    }),
    damage(12, "no memory", |m, _| sized(m, 0, FIT)),
    damage(12, "plane", |m, r| {
        m.plane = r.pick(&[m.plane.saturating_sub(1), m.plane + 1, 0, m.plane * 2, m.memory]);
        Some(FIT)
    }),
    damage(12, "bias not a multiple", |m, r| {
        m.bias += r.pick(&[1, 8, 16, 256, 2048, 4095]);
        Some(FIT)
    }),
    damage(12, "bias ends past 2^48", |m, r| {
        let memory = high_memory(m, r)?;
        m.bias = ADDRESS_END - memory;
        sized(m, memory + 16, FIT)
    }),
    damage(12, "bias ends at 2^48", |m, r| {
        let memory = high_memory(m, r)?;
        m.bias = ADDRESS_END - memory;
        for e in &mut m.relocations {
            if e.kind == RELATIVE {
                e.addend = e.addend.rem_euclid(memory as i64);
            }
        }
        sized(m, memory, Unknown)
    }),
    damage(12, "bias wraps", |m, r| {
        let pages = m.memory.div_ceil(4096);
        m.bias =
            r.pick(&[0u64.wrapping_sub(4096), 0u64.wrapping_sub(pages * 4096), 1 << 63, 1 << 48]);
        Some(FIT)
    }),
    damage(12, "bias by the largest align", |m, r| {
        given(m.largest_align() > PAGE)?;
        fit(m, r)
    }),
    damage(12, "bias by half the largest align", |m, r| misfit(m, r, m.largest_align() / 2)),
    damage(12, "bias by 4,096 alone", |m, r| misfit(m, r, PAGE)),
    damage(12, "bias by the first align", |m, r| {
        let first = *m.loads().first()?;
        misfit(m, r, m.headers[first].align)
    }),
    damage(12, "bias by the last align", |m, r| {
        let last = *m.loads().last()?;
        misfit(m, r, m.headers[last].align)
    }),
    damage(12, "bias by another align", |m, r| {
        let i = one(r, &m.loads())?;
        given(m.headers[i].align > PAGE)?;
        misfit(m, r, m.headers[i].align)
    }),
    damage(12, "bias by an align below 4,096", |m, r| {
        given(m.largest_align() < PAGE)?;
        m.bias = multiple(m, r, m.largest_align())?;
        Some(FIT)
    }),
    damage(12, "the highest bias that fits", |m, _| {
        m.rebias(highest_bias(m))?;
        Some(Taken)
    }),
    damage(12, "the next after the highest", |m, _| {
        m.bias = highest_bias(m).checked_add(m.bias_unit())?;
        Some(FIT)
    }),
    damage(12, "an align raised past the bias", |m, r| {
        let i = one(r, &m.loads())?;
        m.headers[i].align = agreed(&m.headers[i]);
        given(!m.bias_fits())?;
        Some(FIT)
    }),
    damage(12, "an align above 2^48 and bias 0", |m, r| {
        let align = 1 << r.from(49, 63);
        raise(m, r, align)?;
        m.rebias(0)?;
        Some(Taken)
    }),
    damage(12, "an align above 2^48 and another bias", |m, r| {
        let align = 1 << r.from(49, 63);
        raise(m, r, align)?;
        m.bias = 1 << r.from(12, 47);
        Some(FIT)
    }),
    damage(12, "a larger align of another header", |m, r| {
        let others: Vec<usize> =
            (0..m.headers.len()).filter(|&i| m.headers[i].kind != LOAD).collect();
        let i = one(r, &others)?;
        m.headers[i].align = m.bias_unit().checked_mul(1 << r.from(1, 15))?;
        fit(m, r)
    }),
    damage(12, "aligns of 0", |m, r| {
        for i in m.loads() {
            m.headers[i].align = 0;
        }
        fit(m, r)
    }),
    damage(13, "address -1", |m, r| missed(m, r, -1)),
    damage(13, "address 0", |m, r| met(m, r, 0)),
    damage(13, "address 2^48", |m, r| missed(m, r, TOP)),
    damage(13, "address 2^48 - 1", |m, r| met(m, r, TOP - 1)),
    damage(13, "address past 2^64", |m, r| {
        let over = i128::from(r.below(9));
        missed(m, r, (1 << 64) + over)
    }),
    damage(13, "address far below", |m, r| missed(m, r, -(1 << 62))),
    damage(13, "addend at its ends", |m, r| {
        let i = one(r, &m.live())?;
        given(m.relocations[i].kind == RELATIVE)?;
        m.relocations[i].addend = r.pick(&[i64::MIN, i64::MAX]);
        refused(13, i)
    }),
    damage(13, "value 2^64-1", |m, r| {
        let i = symbol(m, r, |s, _| s.value = u64::MAX)?;
        let s = m.symbol_of(i);
        given(m.symbols[s].section != 0)?;
        for j in m.with_symbol() {
            if m.symbol_of(j) == s {
                m.relocations[j].addend = 1;
            }
        }
        refused(13, i)
    }),
    damage(13, "weak undefined below 0", |m, r| {
        let weak: Vec<usize> = m
            .with_symbol()
            .into_iter()
            .filter(|&i| m.symbols[m.symbol_of(i)].section == 0)
            .collect();
        let i = one(r, &weak)?;
        m.relocations[i].addend = r.pick(&[-1, -4096, 1 << 48, i64::MIN]);
        refused(13, i)
    }),
    damage(13, "two", |m, r| {
        let i = aim(m, r, -1)?;
        let j = aim(m, r, TOP)?;
        refused(13, i.min(j))
    }),
    damage(13, "packed, address 2^48", |m, r| missed_packed(m, r, m.highest() + 1)),
    damage(13, "packed, address 2^48 - 1", |m, r| met_packed(m, r, m.highest())),
    damage(13, "packed, address past 2^64", |m, r| {
        let loaded = 0u64.wrapping_sub(m.bias).wrapping_add(r.below(9));
        missed_packed(m, r, loaded)
    }),
    damage(13, "packed, loaded -1 and others", |m, r| {
        let loaded = r.pick(&[u64::MAX, 0u64.wrapping_sub(16), 0u64.wrapping_sub(4096), 1 << 63]);
        missed_packed(m, r, loaded)
    }),
    damage(13, "packed, a global's ends", |m, r| {
        given(!m.globals.is_empty())?;
        let g = r.pick(&m.globals);
        let loaded = r.pick(&[g.start, g.end() - 1, g.end(), g.start.saturating_sub(1)]);
        met_packed(m, r, loaded)
    }),
    damage(13, "packed, over the file part's end", |m, r| {
        let (place, bytes) = seam(m, r)?;
        given(bytes == 7)?;
        let loaded = r.from(1, 255) << 48;
        let at = free_packed(m, r, place, loaded)?;
        given(m.loaded(&m.call().file, place) == loaded)?;
        refused(13, at)
    }),
    damage(13, "packed and RELA", |m, r| {
        missed_packed(m, r, ADDRESS_END)?;
        missed(m, r, -1)
    }),
    damage(13, "two packed", |m, r| {
        let a = aim_packed(m, r, ADDRESS_END)?;
        let b = aim_packed(m, r, u64::MAX)?;
        refused(13, a.min(b))
    }),
    damage(13, "weak undefined at granule 0", |m, r| {
        // A global at granule 0 and bias 0: the word must still have tag 0.
        given(m.globals.first()?.start == 0 && m.bias == 0)?;
        let i = symbol(m, r, |s, _| (s.info, s.section, s.value) = (0x20, 0, 0))?;
        let s = m.symbol_of(i);
        for j in m.with_symbol() {
            if m.symbol_of(j) == s {
                m.relocations[j].addend = j as i64;
            }
        }
        Some(Taken)
    }),
    damage(13, "source below 0 beside granule 0", |m, r| {
        // A global at granule 0 and bias 0: the source wraps, and the word must have tag 0.
        given(m.globals.first()?.start == 0 && m.bias == 0)?;
        let relative = |i: &usize| m.relocations[*i].kind == RELATIVE;
        let all: Vec<usize> = m.live().into_iter().filter(relative).collect();
        let i = one(r, &all)?;
        let (place, addend) = (m.relocations[i].place, r.below(m.memory));
        let below = r.pick(&[1, 8, 15, 16, 17, 4096, 1 << 47]);
        m.relocations[i].addend = addend as i64;
        load_word(m, place, 0u64.wrapping_sub(addend + below))?;
        Some(Taken)
    }),
    damage(14, "one too few", |m, _| {
        m.choices.pop()?;
        refused(14, m.globals.len())
    }),
    damage(14, "one too many", |m, r| {
        m.choices.push(r.from(1, 15) as u8);
        refused(14, m.globals.len())
    }),
    damage(14, "none", |m, _| {
        given(!m.choices.is_empty())?;
        m.choices.clear();
        refused(14, m.globals.len())
    }),
    damage(14, "wrong number and bad", |m, _| {
        m.choices.insert(0, 0);
        refused(14, m.globals.len())
    }),
    damage(14, "value", |m, r| choice(m, r, &[0, 16, 17, 0x31, 128, 255])),
    damage(14, "values at the ends", |m, _| {
        given(!m.choices.is_empty())?;
        for (i, c) in m.choices.iter_mut().enumerate() {
            *c = if i % 2 == 0 { 1 } else { 15 };
        }
        Some(Taken)
    }),
    damage(14, "same as abutting", |m, r| {
        let abut: Vec<usize> =
            (1..m.choices.len().min(m.globals.len())).filter(|&i| m.abuts(i)).collect();
        let k = one(r, &abut)?;
        m.choices[k] = m.choices[k - 1];
        refused(14, k)
    }),
    damage(14, "same over a gap", |m, r| {
        let apart: Vec<usize> = (1..m.choices.len().min(m.globals.len()))
            .filter(|&i| !m.abuts(i))
            .filter(|&i| i + 1 == m.choices.len() || m.choices[i + 1] != m.choices[i - 1])
            .collect();
        let k = one(r, &apart)?;
        m.choices[k] = m.choices[k - 1];
        Some(Taken)
    }),
    damage(14, "two", |m, r| {
        let (a, b) = (r.index(m.choices.len().max(1)), r.index(m.choices.len().max(1)));
        *m.choices.get_mut(a)? = 0;
        *m.choices.get_mut(b)? = 16;
        refused(14, a.min(b))
    }),
];

/// Damages that need the largest memory.
pub const LARGE_DAMAGES: &[Damage] = &[
    damage(4, "ends at the limit", |m, _| {
        spare(m, |h, _, _| {
            h.address = LARGEST.wrapping_sub(h.memory_size);
        })
    }),
    damage(4, "grows to the limit", |m, _| {
        spare(m, |h, _, _| {
            h.memory_size = LARGEST.wrapping_sub(h.address);
        })
    }),
    damage(12, "memory the largest", |m, _| sized(m, LARGEST, Taken)),
    damage(12, "memory over the largest", |m, _| {
        // The bias alone would let it pass.
        given(m.bias <= ADDRESS_END - LARGEST - 16)?;
        sized(m, LARGEST + 16, FIT)
    }),
];
