//! Calls made up from a seed: valid modules, lists and picks, and damages on both sides of every limit.
//! A case depends on the seed and its number alone.

pub mod damage;
pub mod list;
pub mod module;
pub mod pick;
pub mod special;

use crate::answers::Call;
use crate::random::Random;
use damage::{Damage, Expected, DAMAGES};
use module::Module;
use special::{Special, LARGE_SPECIALS, SPECIALS};

pub const SEED: u64 = 0x4861_676f_6c73_7461;

pub struct Case {
    pub name: String,
    pub call: Call,
    pub expected: Expected,
}

/// How many cases a run makes; HAGOLSTAN_CASES asks for more or fewer.
pub fn count(standard: u64) -> u64 {
    match std::env::var("HAGOLSTAN_CASES") {
        Ok(text) => text.parse().expect("HAGOLSTAN_CASES is a number"),
        Err(_) => standard,
    }
}

pub fn case(seed: u64, number: u64) -> Case {
    let mut r = Random::new(seed ^ number.wrapping_mul(0xd134_2543_de82_ef95));
    let specials = (SPECIALS.len() + LARGE_SPECIALS.len()) as u64;
    if let Some(first) = SPECIALS.iter().chain(LARGE_SPECIALS).nth(number as usize) {
        return special(&mut r, first);
    }
    let (round, kind) = ((number - specials) / 10, (number - specials) % 10);
    // Specials again, with other modules; they are slow, so rarely, and the large ones most rarely.
    if round % 40 == 39 && kind == 0 {
        let again = (round / 40) as usize;
        return match again % 10 {
            9 => special(&mut r, &LARGE_SPECIALS[again / 10 % LARGE_SPECIALS.len()]),
            _ => special(&mut r, &SPECIALS[again % SPECIALS.len()]),
        };
    }
    match kind {
        0 | 1 => valid(&mut r),
        2..=5 => single(&mut r, &DAMAGES[(round * 4 + kind - 2) as usize % DAMAGES.len()]),
        6 | 7 => double(&mut r),
        _ => blind(&mut r),
    }
}

pub fn cases(seed: u64, count: u64) -> impl Iterator<Item = Case> {
    (0..count).map(move |number| case(seed, number))
}

fn special(r: &mut Random, (name, build): &Special) -> Case {
    let (call, expected) = build(r);
    Case { name: format!("special: {name}"), call, expected }
}

fn valid(r: &mut Random) -> Case {
    let module = Module::random(r);
    Case { name: "valid".to_owned(), call: module.call(), expected: Expected::Taken }
}

fn label(damage: &Damage) -> String {
    format!("{}: {}", damage.row, damage.name)
}

/// A damage to the first random module that it fits.
fn single(r: &mut Random, damage: &Damage) -> Case {
    for _ in 0..20_000 {
        let mut module = Module::random(r);
        let Some(expected) = (damage.apply)(&mut module, r) else { continue };
        // The damage may have changed what is loaded at a packed place.
        let late = matches!(expected, Expected::Taken | Expected::Refused(14, _));
        if late && !module.unfit().is_empty() {
            continue;
        }
        return Case { name: label(damage), call: module.call(), expected };
    }
    panic!("no module for {}", label(damage));
}

/// The order of the checks; those that come from one walk have one stage.
fn stage(row: u8) -> u8 {
    match row {
        15 => 2 * 7 + 1,
        9 | 16 => 2 * 8,
        11 => 2 * 10,
        _ => 2 * row,
    }
}

fn refuses(expected: Expected) -> bool {
    matches!(expected, Expected::Refused(..))
}

/// Two faults: the later row's first, so that the earlier row's answer still stands.
fn double(r: &mut Random) -> Case {
    loop {
        let mut pair = [&DAMAGES[r.index(DAMAGES.len())], &DAMAGES[r.index(DAMAGES.len())]];
        pair.sort_by_key(|d| (stage(d.row), d.row));
        let [early, late] = pair;
        let mut module = Module::random(r);
        let Some(second) = (late.apply)(&mut module, r) else { continue };
        let Some(first) = (early.apply)(&mut module, r) else { continue };
        if !refuses(first) || !refuses(second) {
            continue;
        }
        let expected = if stage(early.row) < stage(late.row) { first } else { Expected::Unknown };
        let name = format!("{} + {}", label(early), label(late));
        return Case { name, call: module.call(), expected };
    }
}

/// Changes without a plan.
fn blind(r: &mut Random) -> Case {
    let mut module = Module::random(r);
    if r.once_in(6) {
        let count = r.below(module.descriptor_room.size + 1) as usize;
        module.put_descriptors(noise(r, count));
    }
    if r.once_in(6) {
        let count = r.below(module.packed_room.size / 8 + 1) as usize;
        let words = packed_noise(r, &module, count);
        module.put_packed(words);
    }
    let mut call = module.call();
    let length = call.file.len();
    let rooms = [
        module.dynamic_room,
        module.descriptor_room,
        module.symbol_room,
        module.relocation_room,
        module.packed_room,
    ];
    let name = match r.below(7) {
        0 => {
            for _ in 0..r.from(1, 4) {
                call.file[r.index(length)] ^= 1 << r.below(8);
            }
            "bits"
        }
        1 | 2 => {
            for _ in 0..r.from(1, 3) {
                let room = r.pick(&rooms);
                let at = match r.below(3) {
                    0 => r.index(64),
                    1 => module.headers_offset + r.index(56 * module.headers.len()),
                    _ => (room.offset + r.below(room.size.max(1))) as usize,
                };
                call.file[at.min(length - 1)] ^= 1 << r.below(8);
            }
            "bits where it counts"
        }
        3 => {
            let room = r.pick(&rooms);
            let at = match r.below(3) {
                0 => module.headers_offset + 8 * r.index(7 * module.headers.len()),
                _ => (room.offset + r.below(room.size / 8 + 1) * 8) as usize,
            };
            let word = if r.once_in(2) { r.edge() } else { r.below(1 << 20) };
            for (i, byte) in word.to_le_bytes().into_iter().enumerate() {
                if let Some(slot) = call.file.get_mut(at + i) {
                    *slot = byte;
                }
            }
            "word"
        }
        4 => {
            call.file.truncate(r.index(length));
            "truncated"
        }
        5 => {
            call.bias = match r.below(8) {
                0 => r.edge(),
                1 => r.edge() & !4095,
                2 => 1 << r.from(11, 48),
                3 => call.bias ^ 1 << r.from(12, 20),
                _ => call.bias,
            };
            if r.once_in(3) {
                call.memory_length = call.memory_length * r.index(40) / 20;
                call.plane_length = call.memory_length / 16;
            }
            if r.once_in(3) {
                call.plane_length = r.index(call.plane_length + 3);
            }
            if r.once_in(2) {
                let wanted = (call.choices.len() as u64 + 2).saturating_sub(r.below(4));
                call.choices = (0..wanted).map(|_| r.below(17) as u8).collect();
            }
            "arguments"
        }
        _ => {
            let from = 64.min(length);
            let garbage = r.bytes(length - from);
            call.file[from..].copy_from_slice(&garbage);
            "garbage"
        }
    };
    Case { name: format!("blind: {name}"), call, expected: Expected::Unknown }
}

/// Bytes that often look like descriptors.
fn noise(r: &mut Random, count: usize) -> Vec<u8> {
    let often = [0, 1, 2, 7, 8, 9, 0x10, 0x80, 0x81, 0x88, 0xff];
    (0..count).map(|_| if r.once_in(4) { r.word() as u8 } else { r.pick(&often) }).collect()
}

/// Words that are often places of the module, or bitmaps of few bits.
fn packed_noise(r: &mut Random, module: &Module, count: usize) -> Vec<u64> {
    let end = module.last_end() + 64;
    let word = |_| match r.below(8) {
        0 => r.edge(),
        1 => r.word() | 1,
        2 | 3 => 1 | 2 << r.below(63) | r.below(2) << r.below(64),
        4 => 1,
        _ => r.below(end) & !7,
    };
    (0..count).map(word).collect()
}

/// The arguments of one call of the descriptor reader alone.
pub struct StepCase {
    pub table: Vec<u8>,
    pub position: u64,
    pub last_end: u64,
    pub index: u64,
}

pub fn step_case(seed: u64, number: u64) -> StepCase {
    let mut r = Random::new(!seed ^ number.wrapping_mul(0xd134_2543_de82_ef95));
    let (mut table, mut starts) = (Vec::new(), vec![0]);
    for _ in 0..r.below(6) {
        let (distance, granules) = match r.below(4) {
            0 => (r.edge() >> 3, r.edge().max(1)),
            1 => ((1 << 44) - r.below(20), r.from(1, 20)),
            _ => (r.below(300), r.from(1, 20)),
        };
        let how = r.pick(&module::LONGS);
        let long = module::longer(&mut r, distance, granules, how).filter(|_| r.once_in(3));
        starts.push(table.len() as u64);
        table.extend(long.unwrap_or_else(|| module::descriptor(distance, granules)));
    }
    if r.once_in(20) {
        // A padded first number, and a second that is bad.
        starts.push(table.len() as u64);
        let first = r.below(20) << 3;
        table.extend(module::padded(&mut r, first).expect("a short number"));
        table.extend(damage::bad_second(&mut r));
    }
    if r.once_in(8) {
        // A number of ten bytes, first or second, with the tenth around its limit.
        table = if r.once_in(2) { vec![8 * r.below(3) as u8] } else { Vec::new() };
        table.extend([r.pick(&[0x80, 0x81, 0x87, 0xff])]);
        table.extend([r.pick(&[0x80, 0xff]); 8]);
        table.extend([r.pick(&[0, 1, 2, 3, 0x7f, 0x80, 0x81]), r.below(3) as u8, 0]);
        let (last_end, index) = (r.below(9) * 16, r.below(2000));
        return StepCase { table, position: 0, last_end, index };
    }
    if r.once_in(3) {
        let count = r.index(24);
        table.extend(noise(&mut r, count));
    }
    if r.once_in(4) && !table.is_empty() {
        table.truncate(r.index(table.len()));
    }
    let length = table.len() as u64;
    let position = match r.below(6) {
        0 => r.edge(),
        1 => length,
        2 => length + 1,
        3 => r.below(length + 1),
        // Where a descriptor begins, unless the table was cut.
        _ => r.pick(&starts).min(length),
    };
    let last_end = match r.below(6) {
        0 => r.edge(),
        1 => (1 << 48) - r.below(12) * 16,
        2 => (1 << 48) + 16,
        3 => 0,
        _ => r.below(1 << 17) * 16,
    };
    StepCase {
        table,
        position,
        last_end,
        index: if r.once_in(2) { r.below(2000) } else { r.edge() },
    }
}
