//! Valid modules from random parameters, in a form that damages can edit before it is assembled.

use crate::answers::Call;
pub use crate::headers::Header;
use crate::random::Random;
use crate::{ADDRESS_END, LARGEST, MOST, PAGE};
use std::collections::{BTreeSet, HashSet};

pub const LOAD: u32 = 1;
pub const DYNAMIC: u32 = 2;
pub const SYMTAB: u64 = 6;
pub const RELA: u64 = 7;
pub const RELASZ: u64 = 8;
pub const RELAENT: u64 = 9;
pub const SYMENT: u64 = 11;
pub const RELRSZ: u64 = 35;
pub const RELR: u64 = 36;
pub const RELRENT: u64 = 37;
pub const MODE: u64 = 0x7000_0009;
pub const HEAP: u64 = 0x7000_000b;
pub const STACK: u64 = 0x7000_000c;
pub const GLOBALS: u64 = 0x7000_000d;
pub const GLOBALSSZ: u64 = 0x7000_000f;
pub const NONE: u32 = 0;
pub const ABS64: u32 = 257;
pub const GLOB_DAT: u32 = 1025;
pub const RELATIVE: u32 = 1027;

pub const KNOWN: [u64; 13] = [
    SYMTAB, SYMENT, RELA, RELASZ, RELAENT, RELR, RELRSZ, RELRENT, MODE, HEAP, STACK, GLOBALS,
    GLOBALSSZ,
];

/// Tags that are passed over, Android's own packed tables among them.
pub const PASSED: [u64; 22] = [
    1,
    2,
    5,
    10,
    14,
    18,
    19,
    20,
    24,
    25,
    30,
    34,
    38,
    0x6000_0011,
    0x6fff_e000,
    0x6fff_e001,
    0x6fff_fffb,
    0x7000_000a,
    0x7000_000e,
    (1 << 32) + 7,
    (1 << 32) + 17,
    (1 << 32) + 36,
];

impl Header {
    pub fn end(&self) -> u64 {
        self.address.saturating_add(self.memory_size)
    }

    pub fn file_end(&self) -> u64 {
        self.address.saturating_add(self.file_size)
    }

    pub fn writable(&self) -> bool {
        self.flags & 2 != 0
    }
}

#[derive(Clone)]
pub struct Symbol {
    pub info: u8,
    pub section: u16,
    pub value: u64,
}

#[derive(Clone)]
pub struct Rela {
    pub place: u64,
    pub kind: u32,
    pub symbol: u32,
    pub addend: i64,
}

#[derive(Clone, Copy)]
pub struct Global {
    pub start: u64,
    pub granules: u64,
}

impl Global {
    pub fn end(&self) -> u64 {
        self.start + self.granules * 16
    }
}

/// Dynamic entries, descriptors, symbols, RELA entries and packed words.
const TABLES: usize = 5;

/// A table: its room in the file and in the address space, and the header that backs it.
#[derive(Clone, Copy, Default)]
pub struct Room {
    pub load: usize,
    pub address: u64,
    pub offset: u64,
    pub size: u64,
}

#[derive(Clone)]
pub struct Module {
    pub filler: Vec<u8>,
    pub identification: [u8; 16],
    pub kind: u16,
    pub machine: u16,
    pub version: u32,
    pub header_size: u16,
    pub header_count: u16,
    /// The header table's offset as written, and where it really is.
    pub headers_at: u64,
    pub headers_offset: usize,
    pub headers: Vec<Header>,
    pub dynamic_room: Room,
    pub dynamic: Vec<(u64, u64)>,
    pub descriptor_room: Room,
    pub descriptors: Vec<u8>,
    pub globals: Vec<Global>,
    pub symbol_room: Room,
    /// Entries before the first one written; their bytes need not exist.
    pub symbol_base: u32,
    pub symbols: Vec<Symbol>,
    pub relocation_room: Room,
    pub relocations: Vec<Rela>,
    pub packed_room: Room,
    pub packed: Vec<u64>,
    pub words: Vec<(u64, u64)>,
    pub resize: Option<usize>,
    pub bias: u64,
    pub memory: u64,
    pub plane: u64,
    pub choices: Vec<u8>,
    /// The last PT_LOAD, where it holds no table, place or global.
    pub spare: Option<usize>,
}

/// What a random module should have; None leaves it open.
#[derive(Clone, Default)]
pub struct Shape {
    pub loads: Option<usize>,
    pub headers: Option<usize>,
    pub entries: Option<usize>,
    pub null_last: bool,
    pub globals: Option<usize>,
    pub short_globals: bool,
    pub relocations: Option<usize>,
    /// Packed places.
    pub packed: Option<usize>,
    /// Words that the packed table has room for.
    pub packed_words: Option<usize>,
    pub spare: Option<bool>,
    /// Bytes of memory after each file part.
    pub bss: Option<u64>,
    /// Every load's address is its offset, so that any power of two is a good align.
    pub level: bool,
    pub file_length: Option<usize>,
}

/// A ULEB128 number in exactly so many bytes, or in more where it needs them.
pub fn uleb(mut value: u64, bytes: usize) -> Vec<u8> {
    let mut out = Vec::new();
    loop {
        let low = (value & 0x7f) as u8;
        value >>= 7;
        if value == 0 && out.len() + 1 >= bytes {
            out.push(low);
            return out;
        }
        out.push(low | 0x80);
    }
}

/// A descriptor in its shortest form.
pub fn descriptor(distance: u64, granules: u64) -> Vec<u8> {
    match granules {
        1..=7 => uleb(distance << 3 | granules, 1),
        _ => [uleb(distance << 3, 1), uleb(granules - 1, 1)].concat(),
    }
}

/// How a descriptor can be longer than its shortest form.
#[derive(Clone, Copy, Debug, PartialEq, Eq)]
pub enum Long {
    /// A padded number: the only one or the first of two, the second, both.
    First,
    Second,
    Both,
    /// A second number for a size below 8; then one of the numbers, or both, padded.
    Small,
    SmallFirst,
    SmallSecond,
    SmallBoth,
}

pub const LONGS: [Long; 7] = [
    Long::First,
    Long::Second,
    Long::Both,
    Long::Small,
    Long::SmallFirst,
    Long::SmallSecond,
    Long::SmallBoth,
];

/// A number padded to any length up to ten bytes; none where it needs them all.
pub fn padded(r: &mut Random, value: u64) -> Option<Vec<u8>> {
    let least = uleb(value, 1).len() as u64;
    (least < 10).then(|| uleb(value, r.from(least + 1, 10) as usize))
}

/// A descriptor that is longer in such a way; none where the size leaves no such form.
pub fn longer(r: &mut Random, distance: u64, granules: u64, how: Long) -> Option<Vec<u8>> {
    let small = granules < 8;
    let (first, second) = (distance << 3, granules - 1);
    let (pads_first, pads_second) = match how {
        Long::First if small => return padded(r, first | granules),
        Long::Small if small => (false, false),
        Long::First => (true, false),
        Long::SmallFirst if small => (true, false),
        Long::SmallSecond if small => (false, true),
        Long::SmallBoth if small => (true, true),
        Long::Second if !small => (false, true),
        Long::Both if !small => (true, true),
        _ => return None,
    };
    let mut number = |value, pads| if pads { padded(r, value) } else { Some(uleb(value, 1)) };
    Some([number(first, pads_first)?, number(second, pads_second)?].concat())
}

/// The places that packed words name, each with the index of its word: bit by bit, on exact numbers.
pub fn unpack(words: &[u64]) -> Vec<(usize, u128)> {
    let (mut places, mut run) = (Vec::new(), 0);
    for (i, &word) in words.iter().enumerate() {
        if word % 2 == 0 {
            places.push((i, u128::from(word)));
            run = u128::from(word) + 8;
        } else {
            let named = (1..64).filter(|bit| word >> bit & 1 == 1);
            places.extend(named.map(|bit| (i, run + 8 * (bit - 1))));
            run += 504;
        }
    }
    places
}

/// The packed word at which so many entries and the places named are more than the most.
pub fn passing(entries: usize, words: &[u64]) -> Option<usize> {
    let mut total = entries;
    words.iter().position(|&word| {
        total += named(word);
        total > MOST
    })
}

/// How many places a packed word names.
pub fn named(word: u64) -> usize {
    if word.is_multiple_of(2) {
        1
    } else {
        word.count_ones() as usize - 1
    }
}

/// Words that name rising places: rows of them, not always in order, and empty bitmaps. A row for
/// which there is no room is left out.
fn pack(r: &mut Random, places: &[u64], room: usize) -> Vec<u64> {
    let mut rows: Vec<Vec<u64>> = Vec::new();
    for &place in places {
        match rows.last_mut() {
            Some(row) if !r.once_in(10) => row.push(place),
            _ => rows.push(vec![place]),
        }
    }
    if r.once_in(2) {
        r.shuffle(&mut rows);
    }
    let mut words = Vec::new();
    for row in rows {
        let (mut out, mut run) = (vec![row[0]], row[0] + 8);
        let mut rest = &row[1..];
        while let Some(&next) = rest.first() {
            let window = run..run + 504;
            if next >= run + 4 * 504 || r.once_in(12) {
                out.push(next);
                run = next + 8;
                rest = &rest[1..];
                continue;
            }
            let here = rest.iter().filter(|&place| window.contains(place));
            out.push(here.fold(1, |word, place| word | 2 << ((place - run) / 8)));
            rest = &rest[rest.iter().filter(|&place| window.contains(place)).count()..];
            run = window.end;
        }
        let empty = r.pick(&[0, 0, 0, 0, 1, 2, 9]);
        out.extend(vec![1; empty]);
        if words.len() + out.len() <= room {
            words.extend(out);
        }
    }
    words
}

fn up(value: u64, to: u64) -> u64 {
    value.div_ceil(to) * to
}

/// Random bytes; a long row of them comes again.
fn filler(r: &mut Random, length: usize) -> Vec<u8> {
    let mut bytes = r.bytes(length.min(1 << 16));
    while bytes.len() < length {
        bytes.extend_from_within(..bytes.len().min(length - bytes.len()));
    }
    bytes
}

/// Globals in ascending order, each inside one load.
fn globals(r: &mut Random, loads: &[&Header], count: usize, short: bool) -> Vec<Global> {
    let mut list = Vec::new();
    for (i, load) in loads.iter().enumerate() {
        let mut at = up(load.address, 16);
        let left = count - list.len();
        let here = if i + 1 == loads.len() { left } else { r.from(0, left as u64) as usize };
        for _ in 0..here {
            let gap = if short || r.once_in(2) { 0 } else { r.below(6) * 16 };
            let room = (load.end() / 16 * 16).saturating_sub(at + gap) / 16;
            if room == 0 {
                break;
            }
            let most = if short {
                1
            } else if r.once_in(20) {
                room
            } else {
                room.min(12)
            };
            let granules = r.from(1, most);
            list.push(Global { start: at + gap, granules });
            at += gap + granules * 16;
        }
    }
    list
}

/// The descriptors of globals, in shortest form.
fn encoded(globals: &[Global]) -> Vec<Vec<u8>> {
    let mut last_end = 0;
    let mut each = |g: &Global| {
        let distance = (g.start - last_end) / 16;
        last_end = g.end();
        descriptor(distance, g.granules)
    };
    globals.iter().map(&mut each).collect()
}

impl Module {
    pub fn random(r: &mut Random) -> Module {
        Module::shaped(r, &Shape::default())
    }

    pub fn shaped(r: &mut Random, shape: &Shape) -> Module {
        let loads = shape.loads.unwrap_or_else(|| r.from(1, 5) as usize);
        let spare = shape.spare.unwrap_or_else(|| r.once_in(3));
        let count =
            shape.headers.unwrap_or_else(|| loads + 1 + usize::from(spare) + r.below(4) as usize);
        let wanted_globals = shape.globals.unwrap_or_else(|| r.below(12) as usize);
        let wanted_relocations = shape.relocations.unwrap_or_else(|| r.below(14) as usize);
        let symbols = if shape.relocations.is_none() && r.once_in(6) { 0 } else { r.from(2, 9) };
        let entries = shape.entries.unwrap_or_else(|| 14 + r.below(10) as usize);
        let packed = match (shape.packed_words, shape.packed, shape.relocations) {
            (Some(words), _, _) => words,
            (_, Some(places), _) => 2 * places + 64,
            (_, _, Some(_)) => 0,
            // At times room for more places than the most.
            _ if r.once_in(20) => MOST / 40 + 60,
            _ => r.pick(&[0, 0, 0, 2, 6, 12, 30]),
        };
        let sizes = [
            entries as u64 * 16,
            wanted_globals as u64 * if shape.short_globals { 1 } else { 20 } + 16,
            symbols * 24,
            wanted_relocations as u64 * 24,
            packed as u64 * 8,
        ];
        let mut rooms = [Room::default(); TABLES];
        let writable = r.index(loads);
        let covers_headers = r.once_in(2);
        let front = 64 + 56 * count as u64;
        let headers_first = covers_headers || !r.once_in(4);
        let mut list: Vec<Header> = Vec::new();
        let mut homes: Vec<usize> = (0..TABLES).map(|_| r.index(loads)).collect();
        if r.once_in(3) {
            homes = vec![r.index(loads); TABLES];
        }
        // Offsets grow with addresses; all loads hold tables and data in random order.
        let mut offset = if headers_first { front } else { 64 };
        let mut address = if r.once_in(3) { 0 } else { r.below(20) * r.pick(&[16, 16, 256, 1]) };
        for i in 0..loads {
            // Address and offset the same: they agree by any power of two.
            let level = shape.level || address < 1 << 14 && r.once_in(6);
            let align = if level {
                1 << if r.once_in(3) { r.below(64) } else { r.below(21) }
            } else if address < 1 << 19 && r.once_in(9) {
                r.pick(&[1 << 13, 1 << 14, 1 << 14, 1 << 15, 1 << 16, 1 << 16])
            } else {
                r.pick(&[0, 1, 1, 2, 8, 16, 16, 64, 256, 4096])
            };
            if level {
                offset = if i == 0 && covers_headers { 0 } else { offset.max(address) };
                address = offset;
            } else if i == 0 && covers_headers {
                (offset, address) = (0, up(address, align.max(1)));
            } else if align > 1 {
                offset = up(offset, 8) + r.below(3) * 8;
                let wanted = offset % align;
                let now = address % align;
                address += (wanted + align - now) % align;
            } else if i > 0 {
                offset += r.below(9);
            }
            let mut inner = if i == 0 && covers_headers { front } else { 0 };
            let mut chunks: Vec<usize> =
                (0..TABLES).filter(|&t| homes[t] == i).chain([TABLES, TABLES + 1]).collect();
            r.shuffle(&mut chunks);
            for chunk in chunks {
                if chunk < TABLES {
                    if !r.once_in(4) {
                        inner = up(address + inner, 8) - address;
                    }
                    rooms[chunk] = Room {
                        load: i,
                        address: address + inner,
                        offset: offset + inner,
                        size: sizes[chunk],
                    };
                    inner += sizes[chunk];
                } else {
                    inner += r.below(40) * r.pick(&[8, 8, 8, 1, 0]);
                    if i == writable && chunk == TABLES {
                        inner += wanted_relocations as u64 * 16 + 64;
                        inner += shape.packed.map_or(packed.min(30) as u64 * 16, |n| n as u64 * 12);
                    }
                }
            }
            let bss = if let Some(bss) = shape.bss {
                bss
            } else {
                r.below(2) * r.below(60) * r.pick(&[16, 16, 1])
            };
            let memory_size = (inner + bss).max(1);
            list.push(Header {
                kind: LOAD,
                flags: 4 | if i == writable || r.once_in(2) { 2 } else { 0 } | r.below(2) as u32,
                offset,
                address,
                file_size: inner,
                memory_size,
                align,
            });
            offset += inner;
            address += memory_size;
            if r.once_in(2) {
                address = if r.once_in(2) { up(address, 16) } else { address + r.below(300) };
            }
        }
        let last_used = list.len();
        if spare {
            let file_size = r.below(64).min(offset);
            let from = r.below(offset - file_size + 1);
            list.push(Header {
                kind: LOAD,
                flags: r.below(8) as u32,
                offset: from,
                address: address + r.below(50),
                file_size,
                memory_size: file_size + 1 + r.below(99),
                align: r.below(2),
            });
        }
        let headers_offset = if headers_first { 64 } else { offset as usize };
        let length = offset + if headers_first { r.below(20) } else { 56 * count as u64 };

        // Descriptors end where their room ends.
        let used: Vec<&Header> = list[..last_used].iter().collect();
        let globals = globals(r, &used, wanted_globals, shape.short_globals);
        let descriptors = encoded(&globals).concat();

        // Program headers: loads in order, PT_DYNAMIC and others between them.
        let mut headers = list.clone();
        let mut others = vec![Header {
            kind: DYNAMIC,
            flags: r.below(8) as u32,
            offset: if r.once_in(3) { r.edge() } else { rooms[0].offset },
            address: rooms[0].address,
            file_size: rooms[0].size,
            memory_size: if r.once_in(3) { r.edge() } else { rooms[0].size },
            align: if r.once_in(3) { r.edge() } else { 8 },
        }];
        while list.len() + others.len() < count {
            others.push(Header {
                kind: r.pick(&[0, 3, 4, 6, 7, 0x6474_e551, 0x0100_0001]),
                flags: r.word() as u32,
                offset: r.edge(),
                address: r.edge(),
                file_size: r.edge(),
                memory_size: r.edge(),
                align: r.edge(),
            });
        }
        for other in others {
            headers.insert(r.index(headers.len() + 1), other);
        }
        let load_headers: Vec<usize> =
            (0..headers.len()).filter(|&i| headers[i].kind == LOAD).collect();
        for room in &mut rooms {
            room.load = load_headers[room.load];
        }

        let mut m = Module {
            filler: filler(r, length as usize),
            identification: [0x7f, 0x45, 0x4c, 0x46, 2, 1, 1, 0, 0, 0, 0, 0, 0, 0, 0, 0],
            kind: 3,
            machine: 183,
            version: 1,
            header_size: 56,
            header_count: headers.len() as u16,
            headers_at: headers_offset as u64,
            headers_offset,
            headers,
            dynamic_room: rooms[0],
            dynamic: Vec::new(),
            descriptor_room: rooms[1],
            descriptors,
            globals,
            symbol_room: rooms[2],
            symbol_base: 0,
            symbols: Vec::new(),
            relocation_room: rooms[3],
            relocations: Vec::new(),
            packed_room: rooms[4],
            packed: Vec::new(),
            words: Vec::new(),
            resize: shape.file_length,
            bias: 0,
            memory: 0,
            plane: 0,
            choices: Vec::new(),
            spare: if spare { load_headers.last().copied() } else { None },
        };
        m.identification[7..].copy_from_slice(&r.bytes(9));
        if r.once_in(3) {
            let before = m.symbol_room.address / 24;
            m.symbol_base = r.below(before.min(500) + 1) as u32;
        }
        m.choose_run(r);
        m.make_symbols(r, symbols as usize);
        m.make_dynamic(r, entries, shape.null_last);
        m.make_relocations(r, wanted_relocations, shape.relocations.is_some());
        m.make_packed(r, shape.packed);
        m.make_choices(r);
        m
    }

    fn choose_run(&mut self, r: &mut Random) {
        let (least, unit) = (up(self.last_end(), 16), self.bias_unit());
        self.memory = match r.below(8) {
            0..=2 => least,
            3..=5 => least + r.below(40) * 16,
            // The highest bias may end such a memory at 2^48.
            6 => up(least, unit.min(1 << 16)),
            _ => least + 16,
        }
        .min(LARGEST);
        self.plane = self.memory / 16;
        let bias = match r.below(6) {
            0 | 1 => 0,
            2 => unit.saturating_mul(r.below(50)),
            3 => 0x4000_0000,
            4 => r.below(1 << 47),
            _ => u64::MAX,
        };
        self.bias = bias.min(ADDRESS_END - self.memory) / unit * unit;
    }

    /// The largest align of a load; 0 counts as 1.
    pub fn largest_align(&self) -> u64 {
        self.loads().into_iter().map(|i| self.headers[i].align).fold(1, u64::max)
    }

    /// What the bias must be a multiple of.
    pub fn bias_unit(&self) -> u64 {
        self.largest_align().max(PAGE)
    }

    pub fn bias_fits(&self) -> bool {
        self.bias.is_multiple_of(self.bias_unit())
    }

    /// Another bias that fits; an entry whose address would be out of range keeps its old address.
    pub fn rebias(&mut self, bias: u64) -> Option<()> {
        let moved = bias as i64 - self.bias as i64;
        for i in self.live() {
            let s = match self.relocations[i].kind {
                RELATIVE => None,
                _ => Some(&self.symbols[self.symbol_of(i)]),
            };
            if s.is_some_and(|s| s.section == 0) {
                continue;
            }
            let entry = &mut self.relocations[i];
            let base = i128::from(bias) + s.map_or(0, |s| i128::from(s.value));
            if !(0..i128::from(ADDRESS_END)).contains(&(base + i128::from(entry.addend))) {
                entry.addend = entry.addend.checked_sub(moved)?;
            }
        }
        let packed: Vec<u128> = unpack(&self.packed).into_iter().map(|(_, place)| place).collect();
        for (place, word) in &mut self.words {
            if packed.contains(&u128::from(*place)) && *word >= ADDRESS_END - bias {
                *word = word.checked_add_signed(-moved)?;
            }
        }
        self.bias = bias;
        Some(())
    }

    fn make_symbols(&mut self, r: &mut Random, count: usize) {
        for _ in 0..count {
            let undefined = r.once_in(4);
            let kind = r.pick(&[0, 0, 1, 2, 3, 4, 5, 7, 9, 11, 15]);
            let binding = if undefined { 2 } else { r.pick(&[0, 1, 1, 2, 10]) };
            let section = match r.below(4) {
                _ if undefined => 0,
                0 => 0xfeff,
                1 => 1,
                _ => r.from(1, 0xfeff) as u16,
            };
            let value = match r.below(8) {
                0 => r.below(self.memory + 64),
                1 => (1 << 63) + r.below(1 << 20),
                2 => r.below(1 << 48),
                3 => 0,
                _ => self.spot(r),
            };
            self.symbols.push(Symbol { info: binding << 4 | kind, section, value });
        }
    }

    /// An offset in or near a global.
    fn spot(&self, r: &mut Random) -> u64 {
        if self.globals.is_empty() {
            return r.below(self.memory);
        }
        let g = self.globals[r.index(self.globals.len())];
        match r.below(6) {
            0 => g.start,
            1 => g.end(),
            2 => g.end() - 1,
            3 => g.start.saturating_sub(1),
            _ => g.start + r.below(g.granules * 16),
        }
    }

    fn make_dynamic(&mut self, r: &mut Random, entries: usize, null_last: bool) {
        let mut list = Vec::new();
        if !self.symbols.is_empty() {
            let base = self.symbol_room.address - 24 * u64::from(self.symbol_base);
            list.extend([(SYMTAB, base), (SYMENT, 24)]);
        }
        let (room, size) = (self.relocation_room, self.relocation_room.size);
        if size > 0 || r.once_in(2) {
            let address = if size == 0 { r.edge() } else { room.address };
            list.extend([(RELA, address), (RELASZ, size), (RELAENT, 24)]);
        }
        let room = self.packed_room;
        if room.size > 0 || r.once_in(3) {
            let address = if room.size == 0 { r.edge() } else { room.address };
            list.extend([(RELR, address), (RELRSZ, 0), (RELRENT, 8)]);
        }
        for tag in [MODE, HEAP, STACK] {
            if !r.once_in(3) {
                list.push((tag, r.below(2)));
            }
        }
        let size = self.descriptors.len() as u64;
        if size > 0 || r.once_in(2) {
            let room = self.descriptor_room;
            let address = if size == 0 { r.edge() } else { room.address + room.size - size };
            list.extend([(GLOBALS, address), (GLOBALSSZ, size)]);
        }
        let last = entries - 1;
        let before = if null_last || r.once_in(2) {
            last
        } else {
            r.from(list.len() as u64, last as u64) as usize
        };
        while list.len() < before {
            let again = list.iter().rev().find(|e| !KNOWN.contains(&e.0)).copied();
            match again {
                Some((tag, _)) if r.once_in(4) => list.push((tag, r.word())),
                _ => list.push((r.pick(&PASSED), r.edge())),
            }
        }
        r.shuffle(&mut list);
        list.push((0, r.word()));
        while list.len() < entries {
            list.push((r.pick(&[0, 17, 23, RELR, RELRSZ, RELA, MODE, 5, SYMENT]), r.word()));
        }
        self.dynamic = list;
    }

    fn make_relocations(&mut self, r: &mut Random, count: usize, full: bool) {
        let homes: Vec<Header> = self
            .used_loads()
            .into_iter()
            .map(|i| self.headers[i].clone())
            .filter(|h| h.writable() && up(h.address, 8) + 8 <= h.end())
            .collect();
        let mut taken: HashSet<u64> = HashSet::new();
        // No place before the next of these is free.
        let mut rest = homes.iter().flat_map(|h| (up(h.address, 8)..h.end() - 7).step_by(8));
        for _ in 0..count {
            let mut entry = Rela {
                place: r.edge(),
                kind: NONE,
                symbol: r.word() as u32,
                addend: r.word() as i64,
            };
            let skipped = !full && r.once_in(7);
            let home = &homes[r.index(homes.len())];
            let places = (home.end() - up(home.address, 8)) / 8;
            let mut place = up(home.address, 8) + r.below(places) * 8;
            for _ in 0..20 {
                if !taken.contains(&place) {
                    break;
                }
                place = up(home.address, 8) + r.below(places) * 8;
            }
            if full && taken.contains(&place) {
                place = rest.find(|p| !taken.contains(p)).expect("room for all places");
            }
            if skipped || taken.contains(&place) {
                if r.once_in(2) {
                    entry.place = place;
                }
                self.relocations.push(entry);
                continue;
            }
            taken.insert(place);
            entry.place = place;
            self.make_word(r, &mut entry);
            self.relocations.push(entry);
        }
    }

    /// Kind, symbol, addend and *P of an entry, so that its address is allowed.
    fn make_word(&mut self, r: &mut Random, entry: &mut Rela) {
        let memory = self.memory;
        if !self.symbols.is_empty() && r.once_in(2) {
            entry.kind = r.pick(&[ABS64, GLOB_DAT]);
            let at = r.index(self.symbols.len());
            entry.symbol = self.symbol_base + at as u32;
            let symbol = &self.symbols[at];
            let base = if symbol.section == 0 {
                0
            } else {
                i128::from(self.bias) + i128::from(symbol.value)
            };
            let near = base + i128::from(r.below(128)) - 64;
            let wanted = if r.once_in(6) || !(0..1 << 48).contains(&near) {
                let top = ADDRESS_END - 1;
                i128::from(r.pick(&[0, 1, top, self.bias, memory.min(top)]))
            } else {
                near
            };
            if let Ok(addend) = i64::try_from(wanted - base) {
                if entry.symbol != 0 {
                    entry.addend = addend;
                    return;
                }
            }
        }
        entry.kind = RELATIVE;
        entry.symbol = 0;
        let target = self.spot(r) as i64;
        let lowest = -(self.bias as i64);
        let highest = (ADDRESS_END - 1 - self.bias) as i64;
        entry.addend = match r.below(8) {
            0 => lowest,
            1 => highest,
            2 => r.below(memory) as i64,
            3 => target,
            _ => target + r.below(300) as i64 - 150,
        }
        .clamp(lowest, highest);
        let offset = match r.below(8) {
            0 => 0,
            1 => -1,
            2 => r.edge() as i64,
            _ => target.wrapping_sub(entry.addend),
        };
        self.words.push((entry.place, offset as u64));
    }

    /// Packed places, in clusters or exactly so many, and the words that name them.
    fn make_packed(&mut self, r: &mut Random, exactly: Option<usize>) {
        let room = (self.packed_room.size / 8) as usize;
        let used: BTreeSet<u64> =
            self.live().into_iter().map(|i| self.relocations[i].place).collect();
        let mut free: Vec<u64> = Vec::new();
        for load in self.used_loads().into_iter().map(|i| &self.headers[i]) {
            if load.writable() && load.memory_size >= 8 {
                let slots = (up(load.address, 8)..load.end() - 7).step_by(8);
                free.extend(slots.filter(|place| !used.contains(place)));
            }
        }
        if room == 0 || free.is_empty() || exactly == Some(0) {
            return;
        }
        let mut places = BTreeSet::new();
        if exactly.is_none() {
            for _ in 0..r.from(1, 3) {
                let (first, slots) = (r.index(free.len()), r.pick(&[1, 2, 8, 70, 140]));
                let one_in = r.pick(&[1, 1, 2, 8, 30]);
                let row = free[first..].iter().take(slots).filter(|_| r.once_in(one_in));
                places.extend(row.copied());
            }
            if r.once_in(3) {
                // The last slots of a load, where its file part may have ended.
                places.insert(free[free.len() - 1 - r.index(free.len().min(9))]);
            }
        }
        r.shuffle(&mut free);
        for &place in &places {
            self.make_loaded(r, place);
        }
        // A place whose loaded bytes are those of a table may be out of range.
        loop {
            while exactly.is_some_and(|n| places.len() < n) {
                let place = free.pop().expect("room for all places");
                self.make_loaded(r, place);
                places.insert(place);
            }
            let list: Vec<u64> = places.iter().copied().collect();
            let words = pack(r, &list, room);
            self.put_packed(words);
            let unfit = self.unfit();
            if unfit.is_empty() {
                break;
            }
            unfit.iter().for_each(|(_, place)| _ = places.remove(place));
        }
        let named = unpack(&self.packed).len();
        assert!(exactly.is_none_or(|n| n == named), "{named} places");
    }

    /// The highest loaded bytes whose address is in range.
    pub fn highest(&self) -> u64 {
        (ADDRESS_END - 1).saturating_sub(self.bias)
    }

    /// What is loaded at a packed place: in and around globals, and up to the last address.
    fn make_loaded(&mut self, r: &mut Random, place: u64) {
        let highest = self.highest();
        let loaded = match r.below(12) {
            0 => 0,
            1 => highest,
            2 => r.below(self.memory + 64),
            3 => r.below(highest),
            _ => self.spot(r),
        };
        self.words.push((place, loaded.min(highest)));
    }

    /// Other packed words; false where they do not fit.
    pub fn put_packed(&mut self, words: Vec<u64>) -> bool {
        let size = 8 * words.len() as u64;
        if size > self.packed_room.size || self.set(RELRSZ, size).is_none() {
            return false;
        }
        self.packed = words;
        true
    }

    /// The bytes at a place as they are loaded.
    pub fn loaded(&self, file: &[u8], place: u64) -> u64 {
        let held = |h: &&Header| h.kind == LOAD && h.address <= place && place < h.end();
        let Some(load) = self.headers.iter().find(held) else { return 0 };
        (0..8).fold(0, |word, k| {
            let at = (load.offset + (place - load.address) + k) as usize;
            let byte = if place + k < load.file_end() { file[at] } else { 0 };
            word | u64::from(byte) << (8 * k)
        })
    }

    /// The packed places that are in range and whose addresses are not, with the indexes of their words.
    pub fn unfit(&self) -> Vec<(usize, u64)> {
        if self.packed.is_empty() {
            return Vec::new();
        }
        let file = self.call().file;
        let places = unpack(&self.packed).into_iter().filter(|p| p.1 < LARGEST.into());
        places
            .map(|(i, place)| (i, place as u64))
            .filter(|p| self.loaded(&file, p.1) > self.highest())
            .collect()
    }

    pub fn make_choices(&mut self, r: &mut Random) {
        self.choices.clear();
        for i in 0..self.globals.len() {
            let mut choice = r.from(1, 15) as u8;
            if i > 0 && self.abuts(i) && choice == self.choices[i - 1] {
                choice = choice % 15 + 1;
            }
            self.choices.push(choice);
        }
    }

    /// A global that starts where the one before ends.
    pub fn abuts(&self, i: usize) -> bool {
        i > 0 && self.globals[i - 1].end() == self.globals[i].start
    }

    pub fn loads(&self) -> Vec<usize> {
        (0..self.headers.len()).filter(|&i| self.headers[i].kind == LOAD).collect()
    }

    /// The loads that are not spare.
    pub fn used_loads(&self) -> Vec<usize> {
        self.loads().into_iter().filter(|&i| Some(i) != self.spare).collect()
    }

    pub fn last_end(&self) -> u64 {
        self.loads().last().map_or(0, |&i| self.headers[i].end())
    }

    pub fn dynamic_header(&self) -> Option<usize> {
        self.headers.iter().position(|h| h.kind == DYNAMIC)
    }

    pub fn null(&self) -> usize {
        self.dynamic.iter().position(|e| e.0 == 0).unwrap_or(self.dynamic.len())
    }

    pub fn entry(&self, tag: u64) -> Option<usize> {
        self.dynamic[..self.null()].iter().position(|e| e.0 == tag)
    }

    pub fn set(&mut self, tag: u64, value: u64) -> Option<usize> {
        let at = self.entry(tag)?;
        self.dynamic[at].1 = value;
        Some(at)
    }

    /// An entry before DT_NULL that is passed over.
    pub fn free_entry(&self, r: &mut Random) -> Option<usize> {
        let free: Vec<usize> =
            (0..self.null()).filter(|&i| PASSED.contains(&self.dynamic[i].0)).collect();
        (!free.is_empty()).then(|| r.pick(&free))
    }

    /// Entries that are not skipped.
    pub fn live(&self) -> Vec<usize> {
        (0..self.relocations.len()).filter(|&i| self.relocations[i].kind != NONE).collect()
    }

    /// Entries that use a symbol of the table.
    pub fn with_symbol(&self) -> Vec<usize> {
        let symbols = self.symbol_base..self.symbol_base + self.symbols.len() as u32;
        let uses = |e: &Rela| [ABS64, GLOB_DAT].contains(&e.kind) && symbols.contains(&e.symbol);
        (0..self.relocations.len()).filter(|&i| uses(&self.relocations[i])).collect()
    }

    pub fn symbol_of(&self, entry: usize) -> usize {
        (self.relocations[entry].symbol - self.symbol_base) as usize
    }

    /// Other descriptors, at the end of their room; false where they do not fit.
    pub fn put_descriptors(&mut self, bytes: Vec<u8>) -> bool {
        let (room, size) = (self.descriptor_room, bytes.len() as u64);
        if size > room.size || self.entry(GLOBALS).is_none() {
            return false;
        }
        self.set(GLOBALS, room.address + room.size - size);
        self.set(GLOBALSSZ, size);
        self.descriptors = bytes;
        true
    }

    /// The descriptors of the globals, in shortest form.
    pub fn encoded(&self) -> Vec<Vec<u8>> {
        encoded(&self.globals)
    }

    /// The end of the global before, or 0.
    pub fn end_before(&self, index: usize) -> u64 {
        index.checked_sub(1).map_or(0, |before| self.globals[before].end())
    }

    fn put(file: &mut [u8], at: usize, bytes: &[u8]) {
        for (i, &byte) in bytes.iter().enumerate() {
            if let Some(slot) = file.get_mut(at.saturating_add(i)) {
                *slot = byte;
            }
        }
    }

    fn header_bytes(&self) -> Vec<u8> {
        let mut out = self.identification.to_vec();
        out.extend(self.kind.to_le_bytes());
        out.extend(self.machine.to_le_bytes());
        out.extend(self.version.to_le_bytes());
        out.extend([0xa5; 8]);
        out.extend(self.headers_at.to_le_bytes());
        out.extend([0x5a; 14]);
        out.extend(self.header_size.to_le_bytes());
        out.extend(self.header_count.to_le_bytes());
        out.extend([0x3c; 6]);
        out
    }

    pub fn call(&self) -> Call {
        let mut file = self.filler.clone();
        let homes: Vec<&Header> = self.used_loads().into_iter().map(|i| &self.headers[i]).collect();
        for &(place, word) in &self.words {
            let holds = |h: &&&Header| h.address <= place && place < h.file_end();
            if let Some(home) = homes.iter().find(holds) {
                let size = (home.file_end() - place).min(8) as usize;
                let at = home.offset.wrapping_add(place - home.address) as usize;
                Module::put(&mut file, at, &word.to_le_bytes()[..size]);
            }
        }
        for (i, (tag, value)) in self.dynamic.iter().enumerate() {
            let at = self.dynamic_room.offset as usize + 16 * i;
            Module::put(&mut file, at, &tag.to_le_bytes());
            Module::put(&mut file, at + 8, &value.to_le_bytes());
        }
        let room = self.descriptor_room;
        let at = (room.offset + room.size) as usize - self.descriptors.len();
        Module::put(&mut file, at, &self.descriptors);
        for (i, s) in self.symbols.iter().enumerate() {
            let at = self.symbol_room.offset as usize + 24 * i;
            Module::put(&mut file, at + 4, &[s.info]);
            Module::put(&mut file, at + 6, &s.section.to_le_bytes());
            Module::put(&mut file, at + 8, &s.value.to_le_bytes());
        }
        for (i, e) in self.relocations.iter().enumerate() {
            let at = self.relocation_room.offset as usize + 24 * i;
            let info = u64::from(e.symbol) << 32 | u64::from(e.kind);
            Module::put(&mut file, at, &e.place.to_le_bytes());
            Module::put(&mut file, at + 8, &info.to_le_bytes());
            Module::put(&mut file, at + 16, &e.addend.to_le_bytes());
        }
        for (i, word) in self.packed.iter().enumerate() {
            let at = self.packed_room.offset as usize + 8 * i;
            Module::put(&mut file, at, &word.to_le_bytes());
        }
        for (i, h) in self.headers.iter().enumerate() {
            let at = self.headers_offset + 56 * i;
            Module::put(&mut file, at, &h.kind.to_le_bytes());
            Module::put(&mut file, at + 4, &h.flags.to_le_bytes());
            let fields = [h.offset, h.address, !h.address, h.file_size, h.memory_size, h.align];
            for (j, field) in fields.iter().enumerate() {
                Module::put(&mut file, at + 8 + 8 * j, &field.to_le_bytes());
            }
        }
        Module::put(&mut file, 0, &self.header_bytes());
        if let Some(length) = self.resize {
            file.resize(length, 0x77);
        }
        Call {
            file,
            bias: self.bias,
            memory_length: self.memory as usize,
            plane_length: self.plane as usize,
            choices: self.choices.clone(),
        }
    }
}
