//! Lists of globals for the picker, with random bytes, masks and choices as lent: what of a list abuts, how
//! many tags are left, the writer's changes of a global, and lengths that differ.

use super::damage::Expected::{self, Refused, Taken, Unknown};
use super::list::{blind, double, label, place, Change, List, CHANGES, GRANULES};
use crate::answers::Picking;
use crate::pick_by_words::first_good;
use crate::random::Random;
use crate::MOST;

pub struct PickCase {
    pub name: String,
    pub pick: Picking,
    pub expected: Expected,
}

/// Whether a global abuts with the one before, by its index, which is not 0, and the number of globals.
type Abuts = fn(&mut Random, usize, usize) -> bool;

/// What of a list abuts, by name.
pub type Shape = (&'static str, Abuts);
const ABUTTING: Shape = ("all abutting", |_, _, _| true);
const APART: Shape = ("all apart", |_, _, _| false);
const SOME: Shape = ("some abutting", |r, _, _| r.once_in(2));
const FIRST_TWO: Shape = ("the first two abutting", |_, i, _| i == 1);
const LAST_TWO: Shape = ("the last two abutting", |_, i, count| i + 1 == count);
const THREES: Shape = ("rows of three", |_, i, _| i % 3 != 0);
pub const SHAPES: [Shape; 6] = [ABUTTING, APART, SOME, FIRST_TWO, LAST_TWO, THREES];

/// A list of so many globals, from address 0 on, from somewhere else, or up to 2^48.
fn shaped(r: &mut Random, count: usize, abuts: Abuts) -> List {
    let most = r.pick(&[1, 9, 300]);
    let mut ranges = Vec::new();
    let mut at = 0;
    for i in 0..count {
        if i > 0 && !abuts(r, i, count) {
            // A granule, a few, or as many as 2^32 bytes hold: the low halves abut.
            at += match r.below(16) {
                0 => 1 << 28,
                1..=8 => 1,
                _ => r.from(1, most),
            };
        }
        let granules = r.from(1, most);
        ranges.push((at, granules));
        at += granules;
    }
    let first = match r.below(4) {
        0 | 1 => 0,
        2 => r.from(1, 300),
        _ => GRANULES - at,
    };
    let mut list = List::new();
    for (at, granules) in ranges {
        list.push(16 * (first + at), 16 * granules);
    }
    list
}

/// Numbers of globals, none and one and two among them.
fn count(r: &mut Random) -> usize {
    match r.below(32) {
        0 => 0,
        1..=3 => 1,
        4..=8 => 2,
        9..=20 => r.from(3, 6) as usize,
        21..=29 => r.from(7, 40) as usize,
        _ => r.from(41, 300) as usize,
    }
}

/// A mask that leaves these tags alone.
fn only(tags: &[u16]) -> u16 {
    tags.iter().fold(0xffff, |mask, tag| mask & !(1 << tag))
}

/// All masks with one or two tags left, those of all and of none, each with bit 0 set and clear.
pub fn masks() -> Vec<u16> {
    let one = (1..16).map(|tag| only(&[tag]));
    let two = (1..16).flat_map(|tag| (1..tag).map(move |other| only(&[tag, other])));
    one.chain(two).chain([0xffff, 1]).flat_map(|mask| [mask, mask & !1]).collect()
}

/// A mask with so many tags left.
fn leaving(r: &mut Random, count: usize) -> u16 {
    let mut tags: Vec<u16> = (1..16).collect();
    r.shuffle(&mut tags);
    only(&tags[..count]) & !(r.below(2) as u16)
}

fn any_mask(r: &mut Random) -> u16 {
    match r.below(4) {
        0 => r.word() as u16,
        1 => (r.word() & r.word()) as u16,
        _ => {
            let count = r.index(16);
            leaving(r, count)
        }
    }
}

/// A mask that gives 8 where two globals abut, and at times where none do.
fn too_few(r: &mut Random) -> u16 {
    let count = r.index(2);
    leaving(r, count)
}

/// The tags that a mask leaves.
fn left(excluded: u16) -> usize {
    (1..16).filter(|tag| excluded >> tag & 1 == 0).count()
}

/// Bytes of one kind or another; their low halves are starts.
fn random_bytes(r: &mut Random, count: usize) -> Vec<u8> {
    let (first, near) = (r.word() as u8, [0, 1, 2, 13, 14, 15]);
    match r.below(7) {
        0 => vec![first; count],
        1 => (0..count).map(|i| first.wrapping_add(i as u8)).collect(),
        2 => (0..count).map(|i| first.wrapping_sub(i as u8)).collect(),
        3 => (0..count).map(|i| first.wrapping_add((16 * i) as u8)).collect(),
        4 => (0..count).map(|_| r.pick(&near) + 16 * r.below(16) as u8).collect(),
        _ => r.bytes(count),
    }
}

/// Random bytes whose starts are the choices before them.
fn follow(r: &mut Random, pick: &mut Picking) {
    let mut choices = Vec::new();
    for i in 0..pick.random.len() {
        let start = choices.last().copied().unwrap_or(r.below(16) as u8);
        pick.random[i] = start + 16 * r.below(16) as u8;
        choices.push(first_good(pick, &choices).unwrap_or(start));
    }
}

/// Choices as lent: any bytes, or tags.
fn lent(r: &mut Random, count: usize) -> Vec<u8> {
    let first = r.word() as u8;
    match r.below(5) {
        0 => vec![0; count],
        1 => vec![first % 16; count],
        2 => (0..count).map(|_| r.from(1, 15) as u8).collect(),
        3 => (0..count).map(|i| first.wrapping_add((3 * i) as u8)).collect(),
        _ => r.bytes(count),
    }
}

/// A pick of a list, with as many random bytes and choices.
fn pick(r: &mut Random, addresses: Vec<u64>, sizes: Vec<u64>, excluded: u16) -> Picking {
    let count = addresses.len();
    let (random, choices) = (random_bytes(r, count), lent(r, count));
    let mut pick = Picking { addresses, sizes, random, excluded, choices };
    if r.once_in(4) {
        follow(r, &mut pick);
    }
    pick
}

/// What is said of a list that has no bad global.
fn of_tags(list: &List, excluded: u16) -> Expected {
    let abutting = (1..list.len()).any(|i| list.last_end(i) == list.addresses[i]);
    match left(excluded) {
        _ if list.len() == 0 => Taken,
        0 => Refused(8, 0),
        1 if abutting => Refused(8, 0),
        _ => Taken,
    }
}

fn valid(r: &mut Random, count: usize, (shape, abuts): Shape, excluded: u16) -> PickCase {
    let list = shaped(r, count, abuts);
    let tags = match left(excluded) {
        many @ 3.. => format!("{} left", if many == 15 { "all" } else { "many" }),
        few => format!("{few} left"),
    };
    let expected = of_tags(&list, excluded);
    let pick = pick(r, list.addresses, list.sizes, excluded);
    PickCase { name: format!("{shape}, {tags}"), pick, expected }
}

/// The changes of a global that the writer has, 2 to 5.
pub fn changes() -> Vec<&'static Change> {
    CHANGES.iter().filter(|change| (2..=5).contains(&change.row)).collect()
}

/// A writer's change of the first list that it fits.
fn changed(r: &mut Random, change: &Change, excluded: u16) -> PickCase {
    for _ in 0..1_000 {
        let (count, (_, abuts)) = (count(r), r.pick(&SHAPES));
        let mut list = shaped(r, count, abuts);
        let at = place(r, list.len());
        let Some(expected) = (change.apply)(&mut list, at, r) else { continue };
        let expected = if expected == Taken { of_tags(&list, excluded) } else { expected };
        let pick = pick(r, list.addresses, list.sizes, excluded);
        return PickCase { name: label(change), pick, expected };
    }
    panic!("no list for {}", label(change));
}

/// Two bad globals, of which the first is named.
fn doubled(r: &mut Random, excluded: u16) -> PickCase {
    let case = double(r, 2..=5);
    let pick = pick(r, case.list.addresses, case.list.sizes, excluded);
    PickCase { name: case.name, pick, expected: case.expected }
}

/// The four lists by name, and a new length of one of them from the old one. None where it has no other.
pub const LISTS: [&str; 4] = ["addresses", "sizes", "random bytes", "choices"];
type Length = fn(&mut Random, usize) -> Option<usize>;
pub const LENGTHS: [(&str, Length); 5] = [
    ("one more", |_, length| Some(length + 1)),
    ("one fewer", |_, length| length.checked_sub(1)),
    ("many more", |r, length| Some(length + r.from(2, 300) as usize)),
    ("many fewer", |r, length| (length > 1).then(|| r.index(length - 1))),
    ("none", |_, length| (length > 0).then_some(0)),
];

/// A pick with one of its lists of another length. New addresses go on where the last global ends.
fn resize(r: &mut Random, pick: &mut Picking, list: usize, length: usize) {
    let end = match (pick.addresses.last(), pick.sizes.last()) {
        (Some(address), Some(size)) => address.wrapping_add(*size) & !15,
        _ => 0,
    };
    match list {
        0 => {
            let more = length.saturating_sub(pick.addresses.len());
            pick.addresses.extend((0..more).map(|i| end.wrapping_add(16 * i as u64)));
            pick.addresses.truncate(length);
        }
        1 => pick.sizes.resize_with(length, || 16 * r.from(1, 3)),
        2 => pick.random.resize_with(length, || r.word() as u8),
        _ => pick.choices.resize_with(length, || r.word() as u8),
    }
}

/// Lists of other lengths, beside nothing else, beside 8 and beside a bad global.
fn unequal(r: &mut Random, index: usize) -> PickCase {
    let (list, rest) = (index % LISTS.len(), index / LISTS.len());
    let (how, length) = LENGTHS[rest % LENGTHS.len()];
    loop {
        let (count, shape) = (count(r), r.pick(&SHAPES));
        let beside = rest / LENGTHS.len() % 3;
        let excluded = if beside == 1 { too_few(r) } else { any_mask(r) };
        let mut case = match beside {
            2 => {
                let bad = changes()[r.index(changes().len())];
                changed(r, bad, excluded)
            }
            _ => valid(r, count, shape, excluded),
        };
        let fits = match case.expected {
            Taken => beside == 0 || case.pick.addresses.is_empty(),
            Refused(8, _) => beside == 1,
            _ => beside == 2,
        };
        let Some(length) = length(r, case.pick.addresses.len()).filter(|_| fits) else { continue };
        resize(r, &mut case.pick, list, length);
        let name = format!("7: {how} of {}, beside {}", LISTS[list], case.name);
        return PickCase { name, expected: Refused(7, 0), ..case };
    }
}

/// Changes without a plan.
fn unplanned(r: &mut Random) -> PickCase {
    let list = blind(r).list;
    let excluded = any_mask(r);
    let mut pick = pick(r, list.addresses, list.sizes, excluded);
    if r.once_in(6) {
        let (list, length) =
            (r.index(LISTS.len()), (pick.random.len() + 2).saturating_sub(r.index(4)));
        resize(r, &mut pick, list, length);
    }
    PickCase { name: "blind".to_owned(), pick, expected: Unknown }
}

type Large = (&'static str, fn(&mut Random) -> PickCase);

/// Lists as long as a module's can be, and longer.
pub const LARGE: [Large; 9] = [
    ("65,536, all abutting", |r| {
        let excluded = leaving(r, 3);
        valid(r, MOST, ABUTTING, excluded)
    }),
    ("65,537, all apart, one tag", |r| {
        let excluded = leaving(r, 1);
        valid(r, MOST + 1, APART, excluded)
    }),
    ("65,536, the last two abutting, one tag", |r| {
        let excluded = leaving(r, 1);
        valid(r, MOST, LAST_TWO, excluded)
    }),
    ("more, the last two abutting, one tag", |r| {
        let (excluded, more) = (leaving(r, 1), r.from(1, 9_000) as usize);
        valid(r, MOST + more, LAST_TWO, excluded)
    }),
    ("more, some abutting", |r| {
        let (excluded, more) = (any_mask(r) & !6, r.from(1, 9_000) as usize);
        valid(r, MOST + more, SOME, excluded)
    }),
    ("131,073, two tags", |r| {
        let excluded = leaving(r, 2);
        valid(r, 2 * MOST + 1, ABUTTING, excluded)
    }),
    ("65,537, the last of size 0", |r| {
        let mut case = valid(r, MOST + 1, APART, 0);
        case.pick.sizes[MOST] = 0;
        PickCase { expected: Refused(2, MOST as u64), ..case }
    }),
    ("65,537, the last before the end of the one before", |r| {
        let mut case = valid(r, MOST + 1, APART, 0xffff);
        case.pick.addresses[MOST] = case.pick.addresses[MOST - 1];
        PickCase { expected: Refused(4, MOST as u64), ..case }
    }),
    ("65,537, and a choice fewer", |r| {
        let mut case = valid(r, MOST + 1, SOME, 0);
        case.pick.choices.pop();
        PickCase { expected: Refused(7, 0), ..case }
    }),
];

/// A large list comes rarely: it is slow.
fn large(r: &mut Random, index: usize) -> PickCase {
    let (name, build) = LARGE[index % LARGE.len()];
    let case = build(r);
    PickCase { name: format!("large: {name}"), ..case }
}

/// A pick depends on the seed and its number alone. Each large one comes once at the beginning.
pub fn pick_case(seed: u64, number: u64) -> PickCase {
    let mut r = Random::new(!seed.swap_bytes() ^ number.wrapping_mul(0xd134_2543_de82_ef95));
    let r = &mut r;
    if number < LARGE.len() as u64 {
        return large(r, number as usize);
    }
    let number = number as usize - LARGE.len();
    let (round, kind) = (number / 10, number % 10);
    if round % 40 == 39 && kind == 0 {
        return large(r, round / 40);
    }
    match kind {
        0..=2 => {
            // Every mask with every shape.
            let (masks, index) = (masks(), 3 * round + kind);
            let (shape, count) = (SHAPES[index / masks.len() % SHAPES.len()], count(r));
            valid(r, count, shape, masks[index % masks.len()])
        }
        3 if r.once_in(16) => {
            let excluded = too_few(r);
            valid(r, 0, APART, excluded)
        }
        3 => {
            let (count, shape, excluded) = (count(r), r.pick(&SHAPES), any_mask(r));
            valid(r, count, shape, excluded)
        }
        4..=6 => {
            // Every change with any mask, and with one that gives 8 without it.
            let (changes, index) = (changes(), 3 * round + kind - 4);
            let few = index / changes.len() % 2 == 1;
            let excluded = if few { too_few(r) } else { any_mask(r) };
            if kind == 6 && r.once_in(4) {
                return doubled(r, excluded);
            }
            changed(r, changes[index % changes.len()], excluded)
        }
        7 | 8 => unequal(r, 2 * round + kind - 7),
        _ => unplanned(r),
    }
}
