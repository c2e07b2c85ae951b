//! The Rust loader gives the answer that each generated case was made for.

use loader::answers::{Call, Listing, Loader, Picking, RIGHT};
use loader::by_words::{Form, Number};
use loader::compare::{difference, reads_back};
use loader::generate::damage::{Expected, DAMAGES};
use loader::generate::list::{write_case, CHANGES};
use loader::generate::module::uleb;
use loader::generate::pick::{changes, masks, pick_case, LARGE, LENGTHS, LISTS, SHAPES};
use loader::generate::{cases, count, step_case, SEED};
use loader::pick_by_words::judge;
use loader::{examine, load_untagged, step, Step};
use std::collections::BTreeSet;

/// The untagged loader answers as the load does where tags, descriptors, plane and choices have no say.
fn untagged_answer(call: &Call, (number, position): (u8, u64), at: &str) {
    let answer = load_untagged(&call.file, call.bias, call.memory_length as u64);
    let got = answer.err().map_or((0, 0), |r| (r.number, r.position));
    match (number, position) {
        (0 | 14, _) => assert_eq!(got, (0, 0), "{at}"),
        (1..=5 | 10 | 11 | 13 | 15, _) | (7, 0) => assert_eq!(got, (number, position), "{at}"),
        (12, _) => assert!([0, 12, 13].contains(&got.0), "{at}: {got:?}"),
        _ => assert!(![1, 2, 3, 4, 5].contains(&got.0), "{at}: {got:?}"),
    }
}

/// Loads with an align above 4,096, by what the bias is tested on.
#[derive(Debug, Default)]
struct Aligns {
    taken: u64,
    taken_elsewhere: u64,
    taken_not_last: u64,
    taken_not_first: u64,
    taken_above_2_48: u64,
    refused: u64,
    refused_not_last: u64,
    refused_not_first: u64,
    refused_above_2_48: u64,
}

impl Aligns {
    /// Counts a load that is taken, or refused for its largest align alone.
    fn count(&mut self, call: &Call, number: u8) {
        if ![0, 12].contains(&number) {
            return;
        }
        let word = |at: usize| u64::from_le_bytes(call.file[at..at + 8].try_into().unwrap());
        let first = word(32) as usize;
        let headers = (0..usize::from(call.file[56])).map(|i| first + 56 * i);
        let loads = headers.filter(|&at| word(at) as u32 == 1);
        let loads: Vec<[u64; 3]> =
            loads.map(|at| [16, 40, 48].map(|field| word(at + field))).collect();
        let largest = loads.iter().map(|l| l[2]).max().unwrap();
        let (memory, end) = (call.memory_length as u64, loads.last().map(|l| l[0] + l[1]).unwrap());
        let alone = memory % 16 == 0
            && (end..=1 << 24).contains(&memory)
            && call.plane_length as u64 == memory / 16
            && call.bias.is_multiple_of(4096)
            && call.bias <= (1 << 48) - memory;
        if largest <= 4096 || !alone {
            return;
        }
        let not_last = u64::from(loads.last().unwrap()[2] != largest);
        let not_first = u64::from(loads[0][2] != largest);
        let above = u64::from(largest > 1 << 48);
        if number == 0 {
            self.taken += 1;
            self.taken_elsewhere += u64::from(call.bias != 0);
            self.taken_not_last += not_last;
            self.taken_not_first += not_first;
            self.taken_above_2_48 += above;
        } else {
            self.refused += 1;
            self.refused_not_last += not_last;
            self.refused_not_first += not_first;
            self.refused_above_2_48 += above;
        }
    }

    fn enough(&self) -> bool {
        self.taken_elsewhere > 1_000
            && self.taken_not_last.min(self.taken_not_first) > 500
            && self.taken_above_2_48 > 100
            && self.refused > 200
            && self.refused_not_last.min(self.refused_not_first) > 100
            && self.refused_above_2_48 > 50
    }
}

/// What of a file its descriptors are judged by, where it passes the checks before them.
struct Described<'a> {
    table: &'a [u8],
    /// Where each PT_LOAD starts and ends.
    loads: Vec<(u64, u64)>,
}

fn described(file: &[u8]) -> Option<Described<'_>> {
    let word = |at: usize| u64::from_le_bytes(file[at..at + 8].try_into().unwrap());
    let first = word(32) as usize;
    let headers = |kind: u32| {
        let all = (0..usize::from(file[56])).map(move |i| first + 56 * i);
        all.filter(move |&at| word(at) as u32 == kind)
    };
    let found = |address: u64, size: u64| {
        let backs = |at: &usize| {
            let start = word(at + 16);
            start <= address && address + size <= start + word(at + 32)
        };
        let load = headers(1).find(backs).unwrap();
        (word(load + 8) + address - word(load + 16)) as usize
    };
    let dynamic = headers(2).next().unwrap();
    let at = found(word(dynamic + 16), word(dynamic + 32));
    let entries = || (at..).step_by(16).map(|at| (word(at), word(at + 8))).take_while(|e| e.0 != 0);
    let value = |tag| entries().find(|e| e.0 == tag).map(|e| e.1);
    let (address, size) = (value(0x7000_000d)?, value(0x7000_000f).filter(|&size| size > 0)?);
    let loads = headers(1).map(|at| (word(at + 16), word(at + 16) + word(at + 40))).collect();
    Some(Described { table: &file[found(address, size)..][..size as usize], loads })
}

/// The descriptors that are refused by 16, and those beside the limit, by their form.
#[derive(Debug, Default)]
struct Forms {
    /// Bytes of padded first numbers and of padded second ones, and how often both are.
    first: BTreeSet<usize>,
    second: BTreeSet<usize>,
    both: u64,
    /// Second numbers below 7 that are not padded.
    small: BTreeSet<u128>,
    /// At the first descriptor, in the middle, and at the last of some.
    places: [u64; 3],
    /// In range, outside every PT_LOAD, and with an end above 2^48.
    in_range: u64,
    outside: u64,
    above: u64,
    /// Refused by 8: a padded first number, and a second that is cut or too long.
    bad_second: u64,
    /// Taken: second numbers of 7, and sizes of 7.
    seven: u64,
    size_seven: u64,
}

impl Forms {
    fn long(&mut self, form: &Form, last_end: u64, loads: &[(u64, u64)]) {
        assert!(form.long());
        let second_padded = form.second.as_ref().is_some_and(Number::padded);
        if form.first.padded() {
            self.first.insert(form.first.bytes);
        }
        if let Some(second) = form.second.as_ref() {
            if second_padded {
                self.second.insert(second.bytes);
            } else if second.value < 7 {
                self.small.insert(second.value);
            }
        }
        self.both += u64::from(form.first.padded() && second_padded);
        let start = u128::from(last_end) + 16 * form.distance();
        let end = start + 16 * form.granules();
        let holds = |&(from, to): &(u64, u64)| u128::from(from) <= start && end <= to.into();
        if end > 1 << 48 {
            self.above += 1;
        } else if loads.iter().any(holds) {
            self.in_range += 1;
        } else {
            self.outside += 1;
        }
    }

    /// The first number of a descriptor that is refused by 8.
    fn bad(&mut self, bytes: &[u8]) {
        let first = Number::read(bytes).filter(|first| first.value % 8 == 0 && first.padded());
        self.bad_second += u64::from(first.is_some());
    }

    fn taken(&mut self, form: &Form) {
        self.seven += u64::from(form.second.as_ref().is_some_and(|second| second.value == 7));
        self.size_seven += u64::from(form.granules() == 7);
    }

    /// The descriptors of a module up to the one that is refused.
    fn count(&mut self, file: &[u8], (number, position): (u8, u64)) {
        let Some(Described { table, loads }) = described(file) else { return };
        let (mut at, mut last_end) = (0, 0);
        for _ in 0..if number == 0 { u64::MAX } else { position } {
            if at == table.len() {
                return;
            }
            let form = Form::read(&table[at..]).unwrap();
            at += form.bytes();
            last_end += 16 * (form.distance() + form.granules()) as u64;
            self.taken(&form);
        }
        if number == 8 {
            return self.bad(&table[at..]);
        }
        let form = Form::read(&table[at..]).unwrap();
        self.long(&form, last_end, &loads);
        let last = at + form.bytes() == table.len();
        self.places[if last { 2 } else { usize::from(position > 0) }] += u64::from(!last || at > 0);
    }

    /// Every way is reached.
    fn enough(&self) -> bool {
        self.first.iter().copied().eq(2..=10)
            && self.second.iter().copied().eq(2..=10)
            && self.small.iter().copied().eq(0..7)
            && [self.both, self.above, self.in_range, self.bad_second].iter().all(|&n| n > 50)
            && self.seven.min(self.size_seven) > 50
    }
}

#[test]
fn answers() {
    let total = count(22_000);
    let mut seen = [0u64; 17];
    let mut names = BTreeSet::new();
    let mut aligns = Aligns::default();
    let mut forms = Forms::default();
    for (i, case) in cases(SEED, total).enumerate() {
        let outcome = RIGHT.outcome(&case.call);
        let got = (outcome.number(), outcome.position());
        let at = format!("case {i}, {}", case.name);
        match case.expected {
            Expected::Taken => assert_eq!(got.0, 0, "{at}: {got:?}"),
            Expected::Refused(number, position) => assert_eq!(got, (number, position), "{at}"),
            Expected::Unknown => {}
        }
        if got.0 != 0 {
            assert!(outcome.untouched(), "{at}");
        }
        assert_eq!(difference(&case.call, &outcome, &outcome), "", "{at}");
        untagged_answer(&case.call, got, &at);
        aligns.count(&case.call, got.0);
        if [0, 8, 16].contains(&got.0) {
            forms.count(&case.call.file, got);
        }
        match (got.0, examine(&case.call.file)) {
            (0 | 12..=14, examined) => assert!(examined.is_ok(), "{at}"),
            (_, examined) => assert!(examined.is_err() && outcome.examine == outcome.load, "{at}"),
        }
        seen[usize::from(got.0)] += 1;
        names.insert(case.name);
    }
    println!("taken {}, refused 1 to 16: {:?}", seen[0], &seen[1..]);
    println!("{aligns:?}");
    println!("{forms:?}");
    assert!(total < 22_000 || aligns.enough());
    let everywhere = forms.outside > 50 && forms.places.iter().all(|&n| n > 50);
    assert!(total < 22_000 || forms.enough() && everywhere);
    assert!(seen.iter().all(|&n| n > 0));
    let each =
        |d: &loader::generate::damage::Damage| names.contains(&format!("{}: {}", d.row, d.name));
    assert!(total < 22_000 || DAMAGES.iter().all(each));
}

#[test]
fn steps_move_on() {
    let mut seen = [0; 5];
    let mut forms = Forms::default();
    let total = count(20_000);
    for i in 0..total {
        let c = step_case(SEED, i);
        match step(&c.table, c.position, c.last_end, c.index) {
            Ok(Step::Finished) => {
                assert_eq!(c.position, c.table.len() as u64);
                seen[0] += 1;
            }
            Ok(Step::Global { start, granules, position, end }) => {
                assert!(c.position < position && position <= c.table.len() as u64);
                assert!(c.last_end <= start && granules > 0 && end == start + 16 * granules);
                assert!(end <= 1 << 48);
                seen[1] += 1;
                forms.taken(&Form::read(&c.table[c.position as usize..]).unwrap());
            }
            Err(r) => {
                assert_eq!(r.position, c.index);
                let bytes = c.table.get(c.position as usize..).unwrap_or_default();
                match r.number {
                    16 => forms.long(&Form::read(bytes).unwrap(), c.last_end, &[(0, 1 << 48)]),
                    8 => forms.bad(bytes),
                    _ => {}
                }
                seen[if r.number == 16 { 4 } else { usize::from(r.number) - 6 }] += 1;
            }
        }
    }
    println!("finished, global, 8, 9, 16: {seen:?}");
    println!("{forms:?}");
    assert!(seen.iter().all(|&n| n > 0));
    assert!(total < 20_000 || forms.enough());
}

/// The table of a list, or refusal number and index: the rules one by one, on exact numbers.
fn by_words(list: &Listing) -> Result<Vec<u8>, (u8, u64)> {
    if list.addresses.len() != list.sizes.len() {
        return Err((1, 0));
    }
    let (mut table, mut last_end) = (Vec::new(), 0u128);
    for (i, (&address, &size)) in list.addresses.iter().zip(&list.sizes).enumerate() {
        let end = u128::from(address) + u128::from(size);
        let broken = [
            (2, size == 0),
            (3, size % 16 != 0 || address % 16 != 0),
            (4, u128::from(address) < last_end),
            (5, end > 1 << 48),
        ];
        if let Some((number, _)) = broken.into_iter().find(|rule| rule.1) {
            return Err((number, i as u64));
        }
        let (distance, granules) = ((u128::from(address) - last_end) as u64 / 16, size / 16);
        match granules {
            1..=7 => table.extend(uleb(8 * distance + granules, 1)),
            _ => table.extend([uleb(8 * distance, 1), uleb(granules - 1, 1)].concat()),
        }
        last_end = end;
    }
    if table.len() > list.buffer_length {
        return Err((6, 0));
    }
    Ok(table)
}

#[test]
fn tables() {
    let total = count(20_000);
    let mut seen = [0u64; 7];
    let mut lengths = [0u64; 15];
    // Where a number grows by a byte: the last before and the first after.
    let turning: Vec<u64> = (1..=6).flat_map(|i| [(1 << (7 * i)) - 1, 1 << (7 * i)]).collect();
    let mut turns = BTreeSet::new();
    let mut names = BTreeSet::new();
    for i in 0..total {
        let case = write_case(SEED, i);
        let list = &case.list;
        let written = RIGHT.written(list);
        let at = format!("list {i}, {}", case.name);
        let got = (written.number(), written.index());
        match case.expected {
            Expected::Taken => assert_eq!(got.0, 0, "{at}: {got:?}"),
            Expected::Refused(number, index) => assert_eq!(got, (number, index), "{at}"),
            Expected::Unknown => {}
        }
        assert!(!written.strayed, "{at}");
        match by_words(list) {
            Err(refusal) => {
                assert_eq!(got, refusal, "{at}");
                assert!(written.untouched_from(0), "{at}");
            }
            Ok(table) => {
                assert_eq!(written.table(), Some(&table[..]), "{at}");
                assert!(written.untouched_from(table.len()), "{at}");
                assert_eq!(reads_back(&RIGHT, &table, list), Ok(()), "{at}");
                for bytes in bytes_of_descriptors(&table) {
                    lengths[bytes] += 1;
                }
                turns.extend(numbers(list).filter(|(_, n)| turning.contains(n)));
            }
        }
        seen[usize::from(got.0)] += 1;
        names.insert(case.name);
    }
    println!("taken {}, refused 1 to 6: {:?}", seen[0], &seen[1..]);
    println!("descriptors of 1 to 14 bytes: {:?}", &lengths[1..]);
    assert!(seen.iter().all(|&n| n > 0));
    assert!(total < 20_000 || lengths[1..].iter().all(|&n| n > 0));
    assert!(total < 20_000 || turns.len() == 2 * turning.len(), "{turns:?}");
    let each =
        |c: &loader::generate::list::Change| names.contains(&format!("{}: {}", c.row, c.name));
    assert!(total < 20_000 || CHANGES.iter().all(each));
}

/// The numbers of a list's table: (false, first) and (true, second).
fn numbers(list: &Listing) -> impl Iterator<Item = (bool, u64)> + '_ {
    let ends = list.addresses.iter().zip(&list.sizes).map(|(address, size)| address + size);
    let each = list.addresses.iter().zip(&list.sizes).zip(std::iter::once(0).chain(ends));
    each.flat_map(|((address, size), last_end)| {
        let (first, granules) = ((address - last_end) / 2, size / 16);
        if granules < 8 {
            vec![(false, first + granules)]
        } else {
            vec![(false, first), (true, granules - 1)]
        }
    })
}

fn bytes_of_descriptors(table: &[u8]) -> Vec<usize> {
    let (mut at, mut last_end, mut list) = (0, 0, Vec::new());
    while let Ok(Step::Global { position, end, .. }) = step(table, at, last_end, 0) {
        list.push((position - at) as usize);
        (at, last_end) = (position, end);
    }
    list
}

/// What picks are made of, by how often it came.
#[derive(Debug, Default)]
struct Picks {
    /// Masks with a shape of a list, which has some globals.
    masks: BTreeSet<(u16, String)>,
    /// Lists of none, one, two and more globals.
    lengths: [u64; 4],
    /// Taken: the first global at address 0, the last end at 2^48.
    from_zero: u64,
    to_end: u64,
    /// Taken: globals whose start is the choice of an abutting one before, and that of one apart.
    at_neighbours: u64,
    at_others: u64,
    /// Taken: starts, and choices.
    starts: BTreeSet<u8>,
    choices: BTreeSet<u8>,
    /// Refused by 2 to 5, at index 0, in the middle and at the last, where few tags are left too.
    places: [u64; 3],
    before_none: u64,
}

impl Picks {
    fn taken(&mut self, pick: &Picking, choices: &[u8]) {
        let ends = pick.addresses.iter().zip(&pick.sizes).map(|(address, size)| address + size);
        let ends: Vec<u64> = ends.collect();
        self.from_zero += u64::from(pick.addresses.first() == Some(&0));
        self.to_end += u64::from(ends.last() == Some(&(1 << 48)));
        for i in 1..choices.len() {
            let same = u64::from(pick.random[i] % 16 == choices[i - 1]);
            let count = if ends[i - 1] == pick.addresses[i] {
                &mut self.at_neighbours
            } else {
                &mut self.at_others
            };
            *count += same;
        }
        self.starts.extend(pick.random.iter().map(|byte| byte % 16));
        self.choices.extend(choices);
    }

    fn refused(&mut self, pick: &Picking, index: usize) {
        let last = index > 0 && index + 1 == pick.addresses.len();
        self.places[if last { 2 } else { usize::from(index > 0) }] += 1;
        self.before_none += u64::from((pick.excluded | 1).count_zeros() < 2);
    }

    fn enough(&self) -> bool {
        let shapes = SHAPES.iter().map(|shape| shape.0);
        let each = |(shape, mask): (&str, u16)| self.masks.contains(&(mask, shape.to_owned()));
        let mut pairs = shapes.flat_map(|shape| masks().into_iter().map(move |mask| (shape, mask)));
        pairs.all(each)
            && self.lengths.iter().chain(&self.places).all(|&n| n > 100)
            && self.from_zero.min(self.to_end).min(self.before_none) > 500
            && self.at_neighbours.min(self.at_others) > 5_000
            && self.starts.iter().copied().eq(0..16)
            && self.choices.iter().copied().eq(1..16)
    }
}

#[test]
fn picks() {
    let total = count(20_000);
    let mut seen = [0u64; 9];
    let mut names = BTreeSet::new();
    let mut parts = Picks::default();
    for i in 0..total {
        let case = pick_case(SEED, i);
        let pick = &case.pick;
        let picked = RIGHT.picked(pick);
        let at = format!("pick {i}, {}", case.name);
        let got = (picked.number(), picked.index());
        match case.expected {
            Expected::Taken => assert_eq!(got, (0, pick.addresses.len() as u64), "{at}"),
            Expected::Refused(number, index) => assert_eq!(got, (number, index), "{at}"),
            Expected::Unknown => {}
        }
        assert!(!picked.strayed, "{at}");
        assert_eq!(judge(pick, &picked), Ok(()), "{at}");
        match got.0 {
            0 => parts.taken(pick, &picked.choices),
            2..=5 => parts.refused(pick, got.1 as usize),
            _ => {}
        }
        parts.lengths[pick.addresses.len().min(3)] += 1;
        if let (Some((shape, _)), 1..) = (case.name.split_once(", "), pick.addresses.len()) {
            parts.masks.insert((pick.excluded, shape.to_owned()));
        }
        seen[usize::from(got.0)] += 1;
        names.insert(case.name);
    }
    println!("taken {}, refused 2 to 5, 7 and 8: {:?}, {:?}", seen[0], &seen[2..6], &seen[7..]);
    let Picks { lengths, from_zero, to_end, at_neighbours, at_others, .. } = &parts;
    println!(
        "none, one, two and more globals: {lengths:?}; from 0 on {from_zero}, to 2^48 {to_end}"
    );
    println!("starts at the neighbour's choice: abutting {at_neighbours}, apart {at_others}");
    println!("bad globals first, inside, last: {:?}, before 8 {}", parts.places, parts.before_none);
    assert!([0, 2, 3, 4, 5, 7, 8].iter().all(|&number| seen[number] > 0));
    assert!(LARGE.iter().all(|large| names.contains(&format!("large: {}", large.0))));
    if total >= 20_000 {
        assert!(parts.enough());
        assert!(changes().iter().all(|c| names.contains(&format!("{}: {}", c.row, c.name))));
        for (list, (how, _)) in LISTS.iter().flat_map(|list| LENGTHS.map(|how| (list, how))) {
            let named = |name: &&String| name.starts_with(&format!("7: {how} of {list}, beside"));
            let beside = |part: &str| names.iter().filter(named).any(|name| name.contains(part));
            // Beside nothing else, beside 8, and beside a bad global.
            assert!(["all left", "1 left", ": "].map(beside).into_iter().all(|met| met), "{list}");
        }
    }
}
